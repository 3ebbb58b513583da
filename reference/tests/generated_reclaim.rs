//! The promise of Reclaim, over generated programs: what was shared or lent comes back,
//! changed by nothing but stores of those who had the right to them at the time.

mod generated_help;

use std::collections::BTreeMap;

use generated_help::{machines, Ready};
use reference::generate::Class;
use reference::{advance, decode, Did, Instruction, Kind, Machine, Mode, PageId, PageRecord, VmId};

const SUCCESS: u32 = 0x8400_0061;
const LEND: u32 = 0x8400_0072;
const SHARE: u32 = 0x8400_0073;
const RETRIEVE: u32 = 0x8400_0074;
const RELINQUISH: u32 = 0x8400_0076;
const RECLAIM: u32 = 0x8400_0077;

/// What is remembered of a sending.
struct Memo {
    kind: Kind,
    sender: VmId,
    receiver: VmId,
    /// The pages with their records just before, and their words.
    pages: Vec<(PageId, PageRecord, Vec<u32>)>,
    /// Whether the receiver has retrieved them and not relinquished them since.
    retrieved: bool,
    /// The last word stored at an address since, and how often each side stored.
    stored: BTreeMap<usize, u32>,
    stores_by_sender: u32,
    stores_by_receiver: u32,
}

/// How many reclaims were judged.
#[derive(Default)]
struct Judged {
    lend: u32,
    share: u32,
    lend_stored_by_receiver: u32,
    share_stored_by_sender: u32,
    share_stored_by_receiver: u32,
}

/// The words of a page.
fn words(memory: &[u32], page: PageId) -> &[u32] {
    let base = 1024 * usize::from(page.0);
    &memory[base..base + 1024]
}

/// Remembers a sending that has just succeeded.
fn remember(before: &Machine, after: &Machine, memory: &[u32], handle: usize) -> Memo {
    let transaction = after.transactions[handle];
    let deal = transaction.deal.expect("a success opens a transaction");
    let pages = transaction.pages[..usize::from(deal.count)].iter();
    Memo {
        kind: deal.kind,
        sender: before.current,
        receiver: deal.receiver,
        pages: pages
            .map(|&page| (page, before.pages[usize::from(page.0)], words(memory, page).to_vec()))
            .collect(),
        retrieved: false,
        stored: BTreeMap::new(),
        stores_by_sender: 0,
        stores_by_receiver: 0,
    }
}

impl Memo {
    /// Whether an address lies in one of the pages.
    fn covers(&self, address: usize) -> bool {
        self.pages
            .iter()
            .any(|(page, ..)| usize::from(page.0) == address / 1024)
    }

    /// Takes note of a completed store, and asks whether it was one that may be.
    fn store(&mut self, by: VmId, address: usize, word: u32) {
        if by == self.sender {
            assert_eq!(self.kind, Kind::Share, "the sender stored into a page that it had lent");
            self.stores_by_sender += 1;
        } else {
            assert_eq!(by, self.receiver, "a stranger stored");
            assert!(self.retrieved, "the receiver stored without having retrieved");
            self.stores_by_receiver += 1;
        }
        self.stored.insert(address, word);
    }

    /// Judges the reclaim of the pages.
    fn judge(&self, machine: &Machine, memory: &[u32], judged: &mut Judged) {
        assert!(!self.retrieved, "reclaimed while retrieved");
        for (page, record, old) in &self.pages {
            assert_eq!(machine.pages[usize::from(page.0)], *record);
            for (inside, (&is, &was)) in words(memory, *page).iter().zip(old).enumerate() {
                let address = 1024 * usize::from(page.0) + inside;
                assert_eq!(is, *self.stored.get(&address).unwrap_or(&was), "address {address}");
            }
        }
        let (by_sender, by_receiver) = (self.stores_by_sender.min(1), self.stores_by_receiver.min(1));
        if self.kind == Kind::Lend {
            judged.lend += 1;
            judged.lend_stored_by_receiver += by_receiver;
        } else {
            judged.share += 1;
            judged.share_stored_by_sender += by_sender;
            judged.share_stored_by_receiver += by_receiver;
        }
    }
}

/// Follows a call that succeeded.
fn follow_call(before: &Machine, after: &Machine, memory: &[u32], memos: &mut [Option<Memo>], judged: &mut Judged) {
    let caller = usize::from(before.current.0);
    let [call, argument, ..] = before.guests[caller].registers.r;
    let [answer, _, value, ..] = after.guests[caller].registers.r;
    if answer != SUCCESS {
        return;
    }
    match call {
        LEND | SHARE => memos[value as usize] = Some(remember(before, after, memory, value as usize)),
        RETRIEVE | RELINQUISH => {
            if let Some(memo) = &mut memos[argument as usize] {
                assert_eq!(memo.receiver, before.current);
                memo.retrieved = call == RETRIEVE;
            }
        }
        RECLAIM => {
            if let Some(memo) = memos[argument as usize].take() {
                assert_eq!(memo.sender, before.current);
                memo.judge(after, memory, judged);
            }
        }
        _ => {}
    }
}

/// Runs one machine and judges every reclaim in it.
fn judge_all(ready: Ready, judged: &mut Judged) {
    let Ready {
        mut machine,
        mut memory,
        budget,
    } = ready;
    let mut memos: Vec<Option<Memo>> = (0..16).map(|_| None).collect();
    let mut steps = 0;
    while steps < budget && machine.mode == Mode::Normal {
        let vm = machine.current;
        let registers = machine.guests[usize::from(vm.0)].registers;
        let instruction = memory.get(registers.pc as usize).and_then(|&word| decode(word));
        let before = (instruction == Some(Instruction::Hvc)).then(|| machine.clone());
        let did = advance(&mut machine, &mut memory);
        steps += 1;
        match (did, instruction, before) {
            (Did::Called, _, Some(before)) => follow_call(&before, &machine, &memory, &mut memos, judged),
            (Did::Moved, Some(Instruction::Str(d, s)), _) => {
                let address = registers.r[usize::from(s)] as usize;
                let word = registers.r[usize::from(d)];
                for memo in memos.iter_mut().flatten().filter(|memo| memo.covers(address)) {
                    memo.store(vm, address, word);
                }
            }
            _ => {}
        }
    }
}

#[test]
fn what_is_reclaimed_is_as_it_was_but_for_rightful_stores() {
    let mut judged = Judged::default();
    for seed in 31..34 {
        for ready in machines(seed, 640, &[Class::Program, Class::Loops]) {
            judge_all(ready, &mut judged);
        }
    }
    let counts = [
        ("lend", judged.lend, 300),
        ("share", judged.share, 300),
        ("lend, stored by the receiver", judged.lend_stored_by_receiver, 20),
        ("share, stored by the sender", judged.share_stored_by_sender, 20),
        ("share, stored by the receiver", judged.share_stored_by_receiver, 20),
    ];
    for (what, count, least) in counts {
        println!("{what}: {count}");
        assert!(count >= least, "{what}: {count} judged");
    }
}
