//! What only shows over several steps: transactions that are used again, pages that go on, code that is changed.

use super::call::{Call, FAILURE};
use super::counts::Tally;
use super::standing::{may, Use};
use crate::instructions::Instruction;
use crate::machine::{Handle, Kind, Machine, VmId, HANDLES, PAGES};

/// Where a word came from after the start.
#[derive(Clone, Copy, Debug, PartialEq, Eq)]
enum Origin {
    Image,
    Stored(VmId),
    Message,
}

/// What happened so far in a run.
pub struct Story {
    origin: Vec<Origin>,
    /// The word that was executed last at each address.
    executed: Vec<Option<u32>>,
    /// How often each handle's transaction was retrieved since it was opened.
    retrievals: [u32; HANDLES],
    /// Handles that were in use before.
    used: [bool; HANDLES],
    /// Pages that came to their owner by a donation.
    donated: [bool; PAGES],
}

impl Story {
    /// Nothing has happened yet to so many words.
    pub fn new(words: usize) -> Story {
        Story {
            origin: vec![Origin::Image; words],
            executed: vec![None; words],
            retrievals: [0; HANDLES],
            used: [false; HANDLES],
            donated: [false; PAGES],
        }
    }

    /// Follows an instruction that is about to be executed.
    pub fn before(&mut self, machine: &Machine, memory: &[u32], instruction: Instruction, tally: &mut Tally) {
        let vm = machine.current;
        let registers = machine.guest(vm).registers;
        let pc = registers.pc as usize;
        match self.origin[pc] {
            Origin::Image => {}
            Origin::Stored(by) if by == vm => tally.meet("story code that the guest stored"),
            Origin::Stored(_) => tally.meet("story code that another guest stored"),
            Origin::Message => tally.meet("story code from a message"),
        }
        if self.executed[pc].is_some_and(|word| word != memory[pc]) {
            tally.meet("story code that was executed and then changed");
        }
        self.executed[pc] = Some(memory[pc]);
        match instruction {
            Instruction::Str(_, s) if may(machine, vm, registers.get(s), Use::Store) => {
                self.origin[registers.get(s) as usize] = Origin::Stored(vm);
            }
            Instruction::Ldr(_, s) if may(machine, vm, registers.get(s), Use::Load) => {
                match self.origin[registers.get(s) as usize] {
                    Origin::Image => {}
                    Origin::Stored(by) if by == vm => tally.meet("story load of what the guest stored"),
                    Origin::Stored(_) => tally.meet("story load of what another guest stored"),
                    Origin::Message => tally.meet("story load from a message"),
                }
            }
            _ => {}
        }
    }

    /// Follows a call that was made.
    pub fn called(&mut self, before: &Machine, after: &Machine, memory: &[u32], tally: &mut Tally) {
        let caller = before.current;
        let [r0, r1, r2, ..] = before.guest(caller).registers.r;
        let [answer, _, value, ..] = after.guest(caller).registers.r;
        if answer == FAILURE {
            return;
        }
        match Call::of(r0) {
            Call::Send => self.sent(before, memory, VmId(r1 as u8), r2, tally),
            Call::Donate | Call::Lend | Call::Share => self.opened(before, after, Handle(value as u8), tally),
            Call::Retrieve => self.retrieved(before, Handle(r1 as u8), tally),
            Call::Reclaim => self.reclaimed(before, Handle(r1 as u8), tally),
            _ => {}
        }
    }

    /// A message was sent.
    fn sent(&mut self, before: &Machine, memory: &[u32], receiver: VmId, length: u32, tally: &mut Tally) {
        let start = before.guest(receiver).rx.base();
        self.origin[start..start + length as usize].fill(Origin::Message);
        tally.meet(match length {
            1 => "story message of 1 word",
            1024 => "story message of 1024 words",
            _ => "story message of some words",
        });
        let first = memory[start];
        let meant = (first < HANDLES as u32)
            .then(|| before.transaction(Handle(first as u8)).deal)
            .flatten()
            .is_some_and(|deal| deal.sender == before.current && deal.receiver == receiver);
        if meant {
            tally.meet("story message with a handle");
        }
    }

    /// A transaction was opened.
    fn opened(&mut self, before: &Machine, after: &Machine, handle: Handle, tally: &mut Tally) {
        let transaction = after.transaction(handle);
        let Some(deal) = transaction.deal else {
            return;
        };
        tally.meet(&format!(
            "story {:?} of {} pages",
            deal.kind,
            transaction.dealt_pages().len()
        ));
        for page in transaction.dealt_pages() {
            if self.donated[usize::from(page.0)] {
                tally.meet(&format!("story {:?} of a page received by a donation", deal.kind));
            }
        }
        let number = usize::from(handle.0);
        if self.used[number] {
            tally.meet("story handle that was in use before");
        }
        if before.transactions[number..].iter().any(|later| later.deal.is_some()) {
            tally.meet("story handle below one in use");
        }
        let open = after
            .transactions
            .iter()
            .filter(|transaction| transaction.deal.is_some())
            .count();
        tally.meet(match open {
            1 => "story 1 transaction open",
            2..=7 => "story 2 to 7 transactions open",
            8..=15 => "story 8 to 15 transactions open",
            _ => "story 16 transactions open",
        });
        self.used[number] = true;
        self.retrievals[number] = 0;
    }

    /// A transaction was retrieved.
    fn retrieved(&mut self, before: &Machine, handle: Handle, tally: &mut Tally) {
        let transaction = before.transaction(handle);
        let number = usize::from(handle.0);
        if let Some(deal) = transaction.deal {
            if self.retrievals[number] > 0 {
                tally.meet(&format!("story {:?} retrieved again", deal.kind));
            }
            if deal.kind == Kind::Donate {
                for page in transaction.dealt_pages() {
                    self.donated[usize::from(page.0)] = true;
                }
            }
        }
        self.retrievals[number] += 1;
    }

    /// A transaction was reclaimed.
    fn reclaimed(&mut self, before: &Machine, handle: Handle, tally: &mut Tally) {
        if let Some(deal) = before.transaction(handle).deal {
            let used = if self.retrievals[usize::from(handle.0)] > 0 {
                "after"
            } else {
                "without"
            };
            tally.meet(&format!("story {:?} reclaimed {used} a retrieval", deal.kind));
        }
    }
}
