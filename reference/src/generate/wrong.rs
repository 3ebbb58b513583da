//! Makes calls that are wrong in a chosen way.

use super::call::{Call, Error, HIGH_HALF};
use super::flaw::{first_flaws, Flaw};
use super::oracle::{flaw_of_standing, Found, Place};
use super::plan::{answers, empty_others, good_handles, good_sending, handles, others, some_pages, CallPlan, Sending};
use super::random::Random;
use super::standing::{guests, pages_standing, Standing};
use crate::machine::{Handle, Inbox, Machine, PageId};

/// What a wrong call is to show.
#[derive(Clone, Copy, Debug, PartialEq, Eq)]
pub enum Aim {
    /// This flaw and no other.
    One(Call, Flaw),
    /// This flaw and no other, in the base at this place.
    At(Call, Flaw, Place),
    /// At least two flaws, with these answers first.
    Two(Call, Error, Error),
    /// This flaw as the only one of its answer, and then this answer.
    Before(Call, Flaw, Error),
}

/// A call of the current guest that shows what is aimed at, if the present state has one.
pub fn wrong_call(machine: &Machine, aim: Aim, random: &mut Random) -> Option<CallPlan> {
    let plan = match aim {
        Aim::One(call, flaw) | Aim::At(call, flaw, _) => one_wrong(machine, call, flaw, random)?,
        Aim::Two(call, first, second) => two_wrong(machine, call, first, second, random)?,
        Aim::Before(call, flaw, _) => first_wrong(machine, call, flaw, random)?,
    };
    let found = plan.flaws(machine);
    let shows = match aim {
        Aim::One(_, flaw) => found.len() == 1 && found[0].flaw == flaw,
        Aim::At(_, flaw, place) => found.len() == 1 && found[0].flaw == flaw && found[0].place == Some(place),
        Aim::Two(_, first, second) => answers(&found).starts_with(&[first, second]),
        Aim::Before(_, flaw, next) => first_and_next(&found) == Some((flaw, next)),
    };
    shows.then_some(plan)
}

/// An attempt at a call with one flaw.
fn one_wrong(machine: &Machine, call: Call, flaw: Flaw, random: &mut Random) -> Option<CallPlan> {
    match call {
        Call::Unknown => Some(wrong_number(flaw, random)),
        Call::Run => Some(CallPlan::with_r1(call, wrong_choice(machine, flaw, random))),
        Call::Yield | Call::Poll | Call::Wait => Some(CallPlan::plain(call)),
        Call::Send => wrong_send(machine, flaw, random),
        Call::Donate | Call::Lend | Call::Share => wrong_sending(machine, call, flaw, random),
        Call::Retrieve | Call::Relinquish | Call::Reclaim => {
            wrong_handle(machine, call, flaw, random).map(|handle| CallPlan::with_r1(call, handle))
        }
    }
}

/// A number that is no call's, with arguments that might be.
fn wrong_number(flaw: Flaw, random: &mut Random) -> CallPlan {
    let low = random.choose(Call::ALL).number() - HIGH_HALF;
    let any = random.word();
    let r0 = match flaw {
        Flaw::NumberLowHalf => low,
        Flaw::NumberOtherHigh => random.choose([0x8500_0000, 0xC400_0000, 0x0400_0000, 0x8401_0000]) | low,
        Flaw::NumberNear => HIGH_HALF | random.between(0x60, 0x7F),
        Flaw::NumberOther => random.choose([u32::MAX, 1, HIGH_HALF, 0x8400_016C, any]),
        _ => 0,
    };
    CallPlan {
        r0,
        r1: Some(random.below(4)),
        r2: Some(random.below(4)),
        tx: Vec::new(),
    }
}

/// The guest that Run is to choose.
fn wrong_choice(machine: &Machine, flaw: Flaw, random: &mut Random) -> u32 {
    let n = u32::from(machine.n);
    let good = random.between(1, n - 1);
    match flaw {
        Flaw::RunOfPrimary => 0,
        Flaw::RunOfN => n,
        Flaw::RunLowByte => random.choose([0x100, 0x1_0000, 0x8000_0000, 0xFFFF_FF00]) | good,
        Flaw::RunOfOther => random.choose([n + 1, 255, 256, u32::MAX]),
        _ => good,
    }
}

/// A receiver's number with this flaw; a good one for any other flaw, if there is a good one.
fn receiver_with(machine: &Machine, flaw: Flaw, good: u32, random: &mut Random) -> u32 {
    let n = u32::from(machine.n);
    match flaw {
        Flaw::ReceiverN => n,
        Flaw::Receiver255 => 255,
        Flaw::ReceiverLowByte => random.choose([0x100, 0x200, 0x8000, 0xFF00]) | good,
        Flaw::ReceiverLowHalf => random.choose([0x1_0000, 0x8000_0000, 0xFFFF_0000]) | good,
        Flaw::ReceiverCaller => u32::from(machine.current.0),
        Flaw::ReceiverOther => random.choose([n + 1, 254, 0xFFFF, 0x7FFF]),
        _ => good,
    }
}

/// A Send with this flaw.
fn wrong_send(machine: &Machine, flaw: Flaw, random: &mut Random) -> Option<CallPlan> {
    let candidates = match flaw {
        Flaw::ReceiverFull => others(machine),
        _ => empty_others(machine),
    };
    let good = u32::from(random.pick(&candidates)?.0);
    let receiver = receiver_with(machine, flaw, good, random);
    let any = random.between(1, 1024);
    let length = random.choose([1, 2, 1024, any]);
    let length = match flaw {
        Flaw::LengthZero => 0,
        Flaw::Length1025 => 1025,
        Flaw::LengthLowHalf => random.choose([0x1_0000, 0x8000_0000]) | length,
        Flaw::LengthMax => u32::MAX,
        Flaw::LengthOther => random.choose([1026, 2048, 0x1_0000, 0x8000_0000]),
        _ => length,
    };
    Some(CallPlan::send(receiver, length, Vec::new()))
}

/// A Donate, Lend or Share with this flaw.
fn wrong_sending(machine: &Machine, call: Call, flaw: Flaw, random: &mut Random) -> Option<CallPlan> {
    if flaw.calls() == Call::SENDINGS && flaw.answer() == Error::Denied {
        return sending_of_bad_page(machine, call, flaw, random).map(|sending| sending.plan());
    }
    let mut sending = good_sending(machine, call, random)?;
    spoil(&mut sending, machine, flaw, random);
    Some(sending.plan())
}

/// Does one thing wrong in a good sending.
fn spoil(sending: &mut Sending, machine: &Machine, flaw: Flaw, random: &mut Random) {
    let size = sending.size;
    match flaw {
        Flaw::SizeZero => set_size(sending, 0),
        Flaw::SizeTwo => set_size(sending, 2),
        Flaw::SizeEleven => set_size(sending, 11),
        Flaw::SizeLowHalf => set_size(sending, random.choose([0x1_0000, 0x8000_0000]) | size),
        Flaw::SizeMax => set_size(sending, u32::MAX),
        Flaw::SizeOther => set_size(sending, random.choose([1, 12, 13, 259, 1024])),
        Flaw::WordZeroLess => sending.word_zero = random.below(size),
        Flaw::WordZeroMore => sending.word_zero = random.choose([size + 1, 10, 11, u32::MAX]),
        Flaw::WordZeroLowHalf => sending.word_zero = random.choose([0x1_0000, 0x8000_0000]) | size,
        Flaw::KindZero => sending.kind = 0,
        Flaw::KindOfAnotherCall => sending.kind = random.between(1, 3),
        Flaw::KindFour => sending.kind = 4,
        Flaw::KindLowByte => sending.kind |= random.choose([0x100, 0x8000, 0xFF00]),
        Flaw::KindOther => sending.kind = random.choose([5, 0xFF, 0xFFFF, 0x71, 0x73]),
        Flaw::BaseUnaligned | Flaw::BaseOfM | Flaw::BaseLowByte | Flaw::BaseBeyondHalf | Flaw::BaseOther => {
            spoil_base(sending, machine, flaw, random);
        }
        Flaw::BasesEqual => repeat_base(sending, random),
        Flaw::BasesDescend => swap_bases(sending, random),
        _ => sending.receiver = receiver_with(machine, flaw, sending.receiver, random),
    }
}

/// Gives R1 and word 0 another size.
fn set_size(sending: &mut Sending, size: u32) {
    sending.size = size;
    sending.word_zero = size;
}

/// Makes one base no page's: any of them if it stays in order, otherwise the last.
fn spoil_base(sending: &mut Sending, machine: &Machine, flaw: Flaw, random: &mut Random) {
    let m = u32::from(machine.m);
    let count = sending.bases.len();
    let place = if flaw == Flaw::BaseUnaligned {
        random.index(count)
    } else {
        count - 1
    };
    let Some(base) = sending.bases.get_mut(place) else {
        return;
    };
    *base = match flaw {
        Flaw::BaseUnaligned => *base + random.choose([1, 512, 1023, 4]),
        Flaw::BaseOfM => m * 1024,
        Flaw::BaseLowByte => *base + 256 * 1024 * random.between(1, 7),
        Flaw::BaseBeyondHalf => *base | 1 << 31,
        _ => random.choose([(m + 1) * 1024, m * 1024 + 1, 255 * 1024, 0x7FFF_FC00]),
    };
}

/// Gives one base twice, one after the other, and keeps the number of bases at most eight.
fn repeat_base(sending: &mut Sending, random: &mut Random) {
    if sending.bases.len() == 8 {
        sending.bases.pop();
    }
    let place = random.index(sending.bases.len());
    sending.bases.insert(place, sending.bases[place]);
    set_size(sending, sending.bases.len() as u32 + 2);
}

/// Swaps two neighbours, if there are two bases.
fn swap_bases(sending: &mut Sending, random: &mut Random) {
    if sending.bases.len() > 1 {
        let place = random.index(sending.bases.len() - 1);
        sending.bases.swap(place, place + 1);
    }
}

/// A sending of one page that the caller may not send, among others that it may.
fn sending_of_bad_page(machine: &Machine, call: Call, flaw: Flaw, random: &mut Random) -> Option<Sending> {
    let caller = machine.current;
    let bad_standing = Standing::ALL
        .into_iter()
        .find(|&standing| flaw_of_standing(standing) == Some(flaw))?;
    let bad = random.pick(&pages_standing(machine, caller, bad_standing))?;
    let own = pages_standing(machine, caller, Standing::Own);
    let side = |wanted: bool, random: &mut Random| -> Vec<PageId> {
        let all: Vec<PageId> = own.iter().copied().filter(|&page| (page < bad) == wanted).collect();
        if all.is_empty() || random.one_in(3) {
            Vec::new()
        } else {
            some_pages(&all, 3, random)
        }
    };
    let mut pages = side(true, random);
    pages.push(bad);
    pages.extend(side(false, random));
    Some(Sending::of(call, random.pick(&others(machine))?, &pages))
}

/// A word for R1 that names a handle with this flaw for this call.
fn wrong_handle(machine: &Machine, call: Call, flaw: Flaw, random: &mut Random) -> Option<u32> {
    let good = random
        .pick(&good_handles(machine, call))
        .map(|handle| u32::from(handle.0));
    match flaw {
        Flaw::HandlePlus16 => Some(16 + good?),
        Flaw::HandleLowByte => Some(random.choose([0x100, 0xFF00, 0xFFFF_FF00]) | good?),
        Flaw::HandleLowHalf => Some(random.choose([0x1_0000, 0x8000_0000]) | good?),
        Flaw::HandleMax => Some(u32::MAX),
        Flaw::HandleOther => Some(random.choose([16, 17, 31, 32, 255, 0x8000_0000])),
        _ => {
            let shows = |&handle: &Handle| {
                let found = CallPlan::with_handle(call, handle).flaws(machine);
                found.len() == 1 && found[0].flaw == flaw
            };
            let handles: Vec<Handle> = handles().filter(shows).collect();
            random.pick(&handles).map(|handle| u32::from(handle.0))
        }
    }
}

/// An attempt at a call with two flaws.
fn two_wrong(machine: &Machine, call: Call, first: Error, second: Error, random: &mut Random) -> Option<CallPlan> {
    let invalid: Vec<Flaw> = flaws_of_sendings(Error::Invalid);
    match (call, first, second) {
        (Call::Run, ..) => {
            let number = random.choose([0, u32::from(machine.n), 255, u32::MAX]);
            Some(CallPlan::with_r1(call, number))
        }
        (Call::Send, ..) => {
            let full: Vec<u32> = guests(machine)
                .filter(|&vm| machine.guest(vm).inbox != Inbox::Empty)
                .map(|vm| u32::from(vm.0))
                .collect();
            Some(CallPlan::send(
                random.pick(&full)?,
                random.choose([0, 1025, u32::MAX]),
                Vec::new(),
            ))
        }
        (_, Error::Invalid, Error::Denied) => {
            let flaws: Vec<Flaw> = first_flaws()
                .into_iter()
                .filter(|way| way.0 == call)
                .map(|way| way.1)
                .collect();
            first_wrong(machine, call, random.pick(&flaws)?, random)
        }
        (_, Error::Invalid, _) => wrong_sending(machine, call, random.pick(&invalid)?, random),
        _ => {
            let flaw = random.pick(&flaws_of_sendings(Error::Denied))?;
            wrong_sending(machine, call, flaw, random)
        }
    }
}

/// The flaws of Donate, Lend and Share alone with this answer.
fn flaws_of_sendings(answer: Error) -> Vec<Flaw> {
    Flaw::ALL
        .into_iter()
        .filter(|flaw| flaw.calls() == Call::SENDINGS && flaw.answer() == answer)
        .collect()
}

/// An attempt at a call with this flaw and one of a later test: Send to a full RX, or a sending of a page that may not be sent.
fn first_wrong(machine: &Machine, call: Call, flaw: Flaw, random: &mut Random) -> Option<CallPlan> {
    if call == Call::Send {
        let any = random.between(1, 1024);
        let receiver = receiver_with(machine, flaw, 0, random);
        return Some(CallPlan::send(receiver, random.choose([1, 1024, any]), Vec::new()));
    }
    let bad = random.pick(&flaws_of_sendings(Error::Denied))?;
    let mut sending = sending_of_bad_page(machine, call, bad, random)?;
    spoil(&mut sending, machine, flaw, random);
    Some(sending.plan())
}

/// The flaw that alone has the first answer, if there are several answers, and the second of them.
pub fn first_and_next(found: &[Found]) -> Option<(Flaw, Error)> {
    let [first, second, ..] = answers(found)[..] else {
        return None;
    };
    let alone = found.iter().filter(|other| other.flaw.answer() == first).count() == 1;
    alone.then_some((found[0].flaw, second))
}
