//! The second oracle: what is wrong with a call, test by test, and the registers that it must leave.
//!
//! It is written from the scope document like the reference itself, but apart from its calls:
//! it looks at all tests and not only at the first that fails. It has the reference's types, and
//! their questions which guest, page or transaction a number names.

use super::call::{kind_number, Call, Error, FAILURE, SUCCESS};
use super::flaw::Flaw;
use super::standing::{standing, Standing};
use crate::machine::{Deal, Handle, Inbox, Kind, Machine, PageId, VmId, HANDLES, PAGE_WORDS, PRIMARY};

/// The most words of a TX page that a descriptor can have, and one more.
pub const DESCRIPTOR_WORDS: usize = 11;

/// Where among several bases a bad one stands.
#[derive(Clone, Copy, Debug, PartialEq, Eq)]
pub enum Place {
    Alone,
    First,
    Middle,
    Last,
}

impl Place {
    /// Every place.
    pub const ALL: [Place; 4] = [Place::Alone, Place::First, Place::Middle, Place::Last];

    /// The name of a place in a row of so many.
    fn of(index: usize, count: usize) -> Place {
        match index {
            _ if count == 1 => Place::Alone,
            0 => Place::First,
            _ if index + 1 == count => Place::Last,
            _ => Place::Middle,
        }
    }
}

/// A flaw that a call has, and where, if it is one of a base.
#[derive(Clone, Copy, Debug, PartialEq, Eq)]
pub struct Found {
    pub flaw: Flaw,
    pub place: Option<Place>,
}

impl Found {
    /// A flaw of the call as a whole.
    fn whole(flaw: Flaw) -> Found {
        Found { flaw, place: None }
    }
}

/// All that is wrong with the current guest's call, in the order of the tests. `tx` starts at its TX page's first word.
pub fn flaws_of(machine: &Machine, tx: &[u32]) -> Vec<Found> {
    let caller = machine.current;
    let [r0, r1, r2, ..] = machine.guest(caller).registers.r;
    let call = Call::of(r0);
    let whole: Vec<Flaw> = match call {
        Call::Unknown => vec![number_flaw(r0)],
        Call::Run => run_flaws(machine, r1),
        Call::Yield => Vec::new(),
        Call::Poll => no_message(machine).into_iter().collect(),
        Call::Wait if caller == PRIMARY => no_message(machine).into_iter().collect(),
        Call::Wait => Vec::new(),
        Call::Send => send_flaws(machine, r1, r2),
        Call::Retrieve | Call::Relinquish | Call::Reclaim => handle_flaws(machine, call, r1),
        Call::Donate => return sending_flaws(machine, Kind::Donate, r1, tx),
        Call::Lend => return sending_flaws(machine, Kind::Lend, r1, tx),
        Call::Share => return sending_flaws(machine, Kind::Share, r1, tx),
    };
    whole.into_iter().map(Found::whole).collect()
}

/// What is wrong with a number that is no call's.
fn number_flaw(number: u32) -> Flaw {
    let (high, low) = (number >> 16, number & 0xFFFF);
    let low_is_good = Call::of(0x8400_0000 | low) != Call::Unknown;
    match high {
        _ if number == 0 => Flaw::NumberZero,
        0 if low_is_good => Flaw::NumberLowHalf,
        0x8400 if (0x60..0x80).contains(&low) => Flaw::NumberNear,
        _ if low_is_good => Flaw::NumberOtherHigh,
        _ => Flaw::NumberOther,
    }
}

/// What is wrong with Run.
fn run_flaws(machine: &Machine, chosen: u32) -> Vec<Flaw> {
    let n = u32::from(machine.n);
    let good = |number: u32| (1..n).contains(&number);
    let by_secondary = (machine.current != PRIMARY).then_some(Flaw::RunBySecondary);
    let of_whom = match chosen {
        0 => Some(Flaw::RunOfPrimary),
        _ if good(chosen) => None,
        _ if chosen == n => Some(Flaw::RunOfN),
        _ if good(chosen & 0xFF) => Some(Flaw::RunLowByte),
        _ => Some(Flaw::RunOfOther),
    };
    by_secondary.into_iter().chain(of_whom).collect()
}

/// Whether nothing waits for the caller.
fn no_message(machine: &Machine) -> Option<Flaw> {
    let empty = machine.guest(machine.current).inbox == Inbox::Empty;
    empty.then_some(Flaw::NothingWaits)
}

/// What is wrong with a receiver's number.
fn receiver_flaw(machine: &Machine, number: u32) -> Option<Flaw> {
    let n = u32::from(machine.n);
    let caller = u32::from(machine.current.0);
    let good = |number: u32| number < n && number != caller;
    match number {
        _ if good(number) => None,
        _ if number == caller => Some(Flaw::ReceiverCaller),
        _ if number == n => Some(Flaw::ReceiverN),
        255 => Some(Flaw::Receiver255),
        256..=0xFFFF if good(number & 0xFF) => Some(Flaw::ReceiverLowByte),
        0x1_0000.. if good(number & 0xFFFF) => Some(Flaw::ReceiverLowHalf),
        _ => Some(Flaw::ReceiverOther),
    }
}

/// What is wrong with Send.
fn send_flaws(machine: &Machine, receiver: u32, length: u32) -> Vec<Flaw> {
    let good = |length: u32| (1..=1024).contains(&length);
    let of_length = match length {
        0 => Some(Flaw::LengthZero),
        _ if good(length) => None,
        1025 => Some(Flaw::Length1025),
        u32::MAX => Some(Flaw::LengthMax),
        _ if good(length & 0xFFFF) => Some(Flaw::LengthLowHalf),
        _ => Some(Flaw::LengthOther),
    };
    let full = machine
        .find_guest(receiver)
        .is_some_and(|vm| machine.guest(vm).inbox != Inbox::Empty);
    receiver_flaw(machine, receiver)
        .into_iter()
        .chain(of_length)
        .chain(full.then_some(Flaw::ReceiverFull))
        .collect()
}

/// What is wrong with Donate, Lend or Share. A descriptor of a wrong size is not read beyond its first word.
fn sending_flaws(machine: &Machine, kind: Kind, size: u32, tx: &[u32]) -> Vec<Found> {
    let mut flaws: Vec<Found> = size_flaw(size)
        .into_iter()
        .chain(word_zero_flaw(size, tx[0]))
        .map(Found::whole)
        .collect();
    if size_flaw(size).is_some() {
        return flaws;
    }
    let bases = &tx[2..size as usize];
    let header = kind_flaw(kind, tx[1] & 0xFFFF)
        .into_iter()
        .chain(receiver_flaw(machine, tx[1] >> 16));
    flaws.extend(header.map(Found::whole));
    let found = |flaw_of: &dyn Fn(u32) -> Option<Flaw>| -> Vec<Found> {
        let of_base = |(index, &base): (usize, &u32)| {
            let place = Some(Place::of(index, bases.len()));
            flaw_of(base).map(|flaw| Found { flaw, place })
        };
        bases.iter().enumerate().filter_map(of_base).collect()
    };
    flaws.extend(found(&|base| base_flaw(machine, base)));
    flaws.extend(order_flaws(bases).into_iter().map(Found::whole));
    flaws.extend(found(&|base| page_flaw(machine, base)));
    let full = machine
        .transactions
        .iter()
        .all(|transaction| transaction.deal.is_some());
    flaws.extend(full.then_some(Found::whole(Flaw::NoHandleFree)));
    flaws
}

/// What is wrong with the length that R1 gives.
fn size_flaw(size: u32) -> Option<Flaw> {
    let good = |size: u32| (3..=10).contains(&size);
    match size {
        _ if good(size) => None,
        0 => Some(Flaw::SizeZero),
        2 => Some(Flaw::SizeTwo),
        11 => Some(Flaw::SizeEleven),
        u32::MAX => Some(Flaw::SizeMax),
        _ if good(size & 0xFFFF) => Some(Flaw::SizeLowHalf),
        _ => Some(Flaw::SizeOther),
    }
}

/// What is wrong with word 0, which must repeat R1.
fn word_zero_flaw(size: u32, word: u32) -> Option<Flaw> {
    match word {
        _ if word == size => None,
        _ if word & 0xFFFF == size => Some(Flaw::WordZeroLowHalf),
        _ if word < size => Some(Flaw::WordZeroLess),
        _ => Some(Flaw::WordZeroMore),
    }
}

/// What is wrong with the kind in word 1.
fn kind_flaw(kind: Kind, number: u32) -> Option<Flaw> {
    let due = kind_number(kind);
    match number {
        _ if number == due => None,
        0 => Some(Flaw::KindZero),
        1..=3 => Some(Flaw::KindOfAnotherCall),
        4 => Some(Flaw::KindFour),
        _ if number & 0xFF == due => Some(Flaw::KindLowByte),
        _ => Some(Flaw::KindOther),
    }
}

/// What is wrong with a base by itself.
fn base_flaw(machine: &Machine, base: u32) -> Option<Flaw> {
    let (page, rest) = (base / PAGE_WORDS as u32, base % PAGE_WORDS as u32);
    let m = u32::from(machine.m);
    match page {
        _ if page < m && rest == 0 => None,
        _ if page < m => Some(Flaw::BaseUnaligned),
        _ if base >= 1 << 31 => Some(Flaw::BaseBeyondHalf),
        _ if page == m && rest == 0 => Some(Flaw::BaseOfM),
        256.. if page & 0xFF < m && rest == 0 => Some(Flaw::BaseLowByte),
        _ => Some(Flaw::BaseOther),
    }
}

/// What is wrong with the order of the bases.
fn order_flaws(bases: &[u32]) -> Vec<Flaw> {
    let equal = bases.windows(2).any(|pair| pair[0] == pair[1]);
    let descend = bases.windows(2).any(|pair| pair[0] > pair[1]);
    let equal = equal.then_some(Flaw::BasesEqual);
    equal.into_iter().chain(descend.then_some(Flaw::BasesDescend)).collect()
}

/// Why the caller may not send the page of this base, if it is one.
fn page_flaw(machine: &Machine, base: u32) -> Option<Flaw> {
    if base_flaw(machine, base).is_some() {
        return None;
    }
    let page: PageId = machine.find_page(base / PAGE_WORDS as u32)?;
    flaw_of_standing(standing(machine, machine.current, page))
}

/// Why a page that stands so to the caller may not be sent by it.
pub fn flaw_of_standing(standing: Standing) -> Option<Flaw> {
    match standing {
        Standing::Own => None,
        Standing::OwnTx => Some(Flaw::PageOwnTx),
        Standing::OwnRx => Some(Flaw::PageOwnRx),
        Standing::OtherMailbox => Some(Flaw::PageOtherMailbox),
        Standing::Spare => Some(Flaw::PageSpare),
        Standing::Donated => Some(Flaw::PageDonated),
        Standing::Lent => Some(Flaw::PageLent),
        Standing::LentOut => Some(Flaw::PageLentOut),
        Standing::Shared => Some(Flaw::PageShared),
        Standing::SharedOut => Some(Flaw::PageSharedOut),
        Standing::Other => Some(Flaw::PageOfOther),
        Standing::Offered => Some(Flaw::PageOffered),
        Standing::Borrowed => Some(Flaw::PageBorrowed),
        Standing::SharedWith => Some(Flaw::PageSharedWith),
    }
}

/// The transaction behind a handle below 16.
fn deal_behind(machine: &Machine, number: u32) -> Option<Deal> {
    machine.transaction(Handle(number as u8 % HANDLES as u8)).deal
}

/// What is wrong with Retrieve, Relinquish or Reclaim.
fn handle_flaws(machine: &Machine, call: Call, number: u32) -> Vec<Flaw> {
    let good = |number: u32| {
        number < HANDLES as u32
            && deal_behind(machine, number).is_some_and(|deal| deal_flaws(machine, call, &deal).is_empty())
    };
    match number {
        0..=15 => match deal_behind(machine, number) {
            None => vec![Flaw::HandleFree],
            Some(deal) => deal_flaws(machine, call, &deal),
        },
        16..=31 if good(number - 16) => vec![Flaw::HandlePlus16],
        u32::MAX => vec![Flaw::HandleMax],
        0x1_0000.. if good(number & 0xFFFF) => vec![Flaw::HandleLowHalf],
        256.. if good(number & 0xFF) => vec![Flaw::HandleLowByte],
        _ => vec![Flaw::HandleOther],
    }
}

/// Why the caller may not do this with this transaction.
fn deal_flaws(machine: &Machine, call: Call, deal: &Deal) -> Vec<Flaw> {
    let caller = machine.current;
    let due = if call == Call::Reclaim {
        deal.sender
    } else {
        deal.receiver
    };
    let party = match caller {
        _ if caller == due => None,
        _ if caller == deal.sender || caller == deal.receiver => Some(Flaw::OtherParty),
        _ => Some(Flaw::Stranger),
    };
    let mark = match (call, deal.kind, deal.retrieved) {
        (Call::Relinquish, Kind::Donate, _) => Some(Flaw::UnmarkedDonation),
        (Call::Relinquish, _, false) => Some(Flaw::Unmarked),
        (Call::Retrieve | Call::Reclaim, _, true) => Some(Flaw::Marked),
        _ => None,
    };
    party.into_iter().chain(mark).collect()
}

/// What a call must leave: R0 to R7 of every guest, and who is current.
#[derive(Clone, Debug, PartialEq, Eq)]
pub struct Outcome {
    pub registers: Vec<[u32; 8]>,
    pub current: VmId,
}

impl Outcome {
    /// What a machine has now.
    pub fn of(machine: &Machine) -> Outcome {
        Outcome {
            registers: machine.guests.iter().map(|guest| guest.registers.r).collect(),
            current: machine.current,
        }
    }

    /// Sets the first registers of a guest, as many as there are words.
    fn set(&mut self, vm: VmId, words: &[u32]) {
        self.registers[usize::from(vm.0)][..words.len()].copy_from_slice(words);
    }

    /// Gives control to guest 0, with the first registers as told.
    fn hand_over(&mut self, words: &[u32]) {
        self.current = PRIMARY;
        self.set(PRIMARY, words);
    }
}

/// What the current guest's call must leave, if it is wrong in these ways.
pub fn outcome_of(machine: &Machine, flaws: &[Found]) -> Outcome {
    let caller = machine.current;
    let [r0, r1, ..] = machine.guest(caller).registers.r;
    let mut outcome = Outcome::of(machine);
    if let Some(first) = flaws.first() {
        let code: Error = first.flaw.answer();
        outcome.set(caller, &[FAILURE, r1, code.code()]);
        return outcome;
    }
    let from = u32::from(caller.0);
    let message = machine.guest(caller).inbox;
    match (Call::of(r0), message) {
        (Call::Run, _) => outcome.current = VmId(r1 as u8),
        (Call::Poll | Call::Wait, Inbox::Full { length, sender }) => {
            outcome.set(caller, &[Call::Send.number(), u32::from(sender.0), length]);
        }
        (Call::Donate | Call::Lend | Call::Share, _) => {
            let Handle(number) = lowest_free(machine);
            outcome.set(caller, &[SUCCESS, r1, u32::from(number)]);
        }
        (call, _) => {
            outcome.set(caller, &[SUCCESS]);
            match call {
                _ if caller == PRIMARY => {}
                Call::Send => outcome.hand_over(&[Call::Send.number(), from, r1]),
                Call::Yield | Call::Wait => outcome.hand_over(&[r0, from]),
                _ => {}
            }
        }
    }
    outcome
}

/// The lowest free handle; the one behind the last if none is free.
fn lowest_free(machine: &Machine) -> Handle {
    let live = machine
        .transactions
        .iter()
        .take_while(|transaction| transaction.deal.is_some());
    Handle(live.count() as u8)
}
