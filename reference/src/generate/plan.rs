//! A call that is to be made: its registers and the words of the TX page that it reads.

use super::call::{kind_number, Call, Error};
use super::oracle::{flaws_of, Found, DESCRIPTOR_WORDS};
use super::random::Random;
use super::standing::{guests, pages_standing, Standing};
use crate::machine::{Handle, Inbox, Machine, PageId, VmId, HANDLES};

/// What a guest prepares for a call.
#[derive(Clone, Debug, PartialEq, Eq)]
pub struct CallPlan {
    pub r0: u32,
    /// Not named if the call does not look at it.
    pub r1: Option<u32>,
    pub r2: Option<u32>,
    /// The first words of the TX page.
    pub tx: Vec<u32>,
}

impl CallPlan {
    /// A call without arguments.
    pub fn plain(call: Call) -> CallPlan {
        CallPlan {
            r0: call.number(),
            r1: None,
            r2: None,
            tx: Vec::new(),
        }
    }

    /// A call with R1 as its only argument.
    pub fn with_r1(call: Call, r1: u32) -> CallPlan {
        CallPlan {
            r1: Some(r1),
            ..CallPlan::plain(call)
        }
    }

    /// A call on a handle.
    pub fn with_handle(call: Call, handle: Handle) -> CallPlan {
        CallPlan::with_r1(call, u32::from(handle.0))
    }

    /// Send.
    pub fn send(receiver: u32, length: u32, tx: Vec<u32>) -> CallPlan {
        CallPlan {
            r0: Call::Send.number(),
            r1: Some(receiver),
            r2: Some(length),
            tx,
        }
    }

    /// What would be wrong if the current guest made this call now.
    pub fn flaws(&self, machine: &Machine) -> Vec<Found> {
        let mut machine = machine.clone();
        let registers = &mut machine.guest_mut(machine.current).registers;
        registers.set(0, self.r0);
        registers.set(1, self.r1.unwrap_or(registers.get(1)));
        registers.set(2, self.r2.unwrap_or(registers.get(2)));
        let mut tx = self.tx.clone();
        tx.resize(DESCRIPTOR_WORDS.max(tx.len()), 0);
        flaws_of(&machine, &tx)
    }

    /// The plan, if nothing is wrong with it.
    pub fn if_good(self, machine: &Machine) -> Option<CallPlan> {
        self.flaws(machine).is_empty().then_some(self)
    }
}

/// The answers to these flaws, each once, in their order.
pub fn answers(flaws: &[Found]) -> Vec<Error> {
    let mut answers = Vec::new();
    for found in flaws {
        if !answers.contains(&found.flaw.answer()) {
            answers.push(found.flaw.answer());
        }
    }
    answers
}

/// A descriptor and R1, each number free to be wrong.
#[derive(Clone, Debug)]
pub struct Sending {
    pub call: Call,
    pub size: u32,
    pub word_zero: u32,
    pub kind: u32,
    pub receiver: u32,
    pub bases: Vec<u32>,
}

impl Sending {
    /// A sending of these pages that is right in all but perhaps them.
    pub fn of(call: Call, receiver: VmId, pages: &[PageId]) -> Sending {
        let size = pages.len() as u32 + 2;
        Sending {
            call,
            size,
            word_zero: size,
            kind: call.kind().map_or(0, kind_number),
            receiver: u32::from(receiver.0),
            bases: pages.iter().map(|page| page.base() as u32).collect(),
        }
    }

    /// The call with this descriptor.
    pub fn plan(&self) -> CallPlan {
        let header = [self.word_zero, self.receiver << 16 | self.kind & 0xFFFF];
        CallPlan {
            tx: header.iter().chain(&self.bases).copied().collect(),
            ..CallPlan::with_r1(self.call, self.size)
        }
    }
}

/// Other guests than the current one.
pub fn others(machine: &Machine) -> Vec<VmId> {
    guests(machine).filter(|&vm| vm != machine.current).collect()
}

/// Other guests than the current one whose RX is empty.
pub fn empty_others(machine: &Machine) -> Vec<VmId> {
    let mut others = others(machine);
    others.retain(|&vm| machine.guest(vm).inbox == Inbox::Empty);
    others
}

/// Some of these pages, at most so many and rather more than fewer, at least one if there is one, ascending.
pub fn some_pages(pages: &[PageId], most: usize, random: &mut Random) -> Vec<PageId> {
    let mut chosen = pages.to_vec();
    random.shuffle(&mut chosen);
    let most = most.min(chosen.len());
    let (one, other) = (1 + random.index(most), 1 + random.index(most));
    let count = if random.one_in(2) { one } else { one.max(other) };
    chosen.truncate(count);
    chosen.sort();
    chosen
}

/// A sending by the current guest of one to eight of its pages, none of them spared.
pub fn good_sending(machine: &Machine, call: Call, random: &mut Random) -> Option<Sending> {
    let own = pages_standing(machine, machine.current, Standing::Own);
    let receiver = random.pick(&others(machine))?;
    if own.is_empty() {
        return None;
    }
    Some(Sending::of(call, receiver, &some_pages(&own, 8, random)))
}

/// The handles with which the current guest could now make this call.
pub fn good_handles(machine: &Machine, call: Call) -> Vec<Handle> {
    handles()
        .filter(|&handle| CallPlan::with_handle(call, handle).flaws(machine).is_empty())
        .collect()
}

/// All handles, free or not.
pub fn handles() -> impl Iterator<Item = Handle> {
    (0..HANDLES as u8).map(Handle)
}
