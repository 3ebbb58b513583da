//! Which test refused a call, with the numbers that it saw. Calls and tests stand in the scope
//! document's order; a test of which there is no more to say than the line does is left out.

use super::call::handle;
use super::guest;
use super::pages::{self, Wanted};
use super::rerun::{Step, DESCRIPTOR_WORDS};
use crate::asm::Assembly;
use crate::names::KINDS;
use reference::calls;
use reference::machine::{PAGE_WORDS, PRIMARY};
use reference::sound::owned_by;
use reference::{Inbox, PageId, VmId};

/// A test that a call did not pass.
pub struct Refused {
    /// The error that it gives.
    pub code: u32,
    pub why: String,
}

/// The first test that the call of a step did not pass; none if there is nothing to say of it.
pub fn refused(step: &Step, text: Option<&Assembly>) -> Option<Refused> {
    let [number, r1, r2, ..] = step.registers()[0].r;
    let tests = Tests { step, text };
    let tested = match number {
        calls::RUN => tests.run(r1),
        calls::SEND => tests.send(r1, r2),
        calls::DONATE => tests.send_pages(r1, 1),
        calls::LEND => tests.send_pages(r1, 2),
        calls::SHARE => tests.send_pages(r1, 3),
        calls::RETRIEVE | calls::RELINQUISH | calls::RECLAIM => tests.transfer(r1, number),
        _ => Ok(()),
    };
    tested.err()
}

/// An error unless the test is passed.
fn expect(passed: bool, code: u32, why: impl FnOnce() -> String) -> Result<(), Refused> {
    match passed {
        true => Ok(()),
        false => Err(Refused { code, why: why() }),
    }
}

/// As `expect`, for the error that wrong arguments give.
fn expect_valid(passed: bool, why: impl FnOnce() -> String) -> Result<(), Refused> {
    expect(passed, calls::INVALID_PARAMETERS, why)
}

/// The tests of one call.
struct Tests<'s> {
    step: &'s Step,
    text: Option<&'s Assembly>,
}

impl Tests<'_> {
    /// A guest with its name.
    fn named(&self, vm: VmId) -> String {
        guest(vm, self.text)
    }

    /// Run of the guest in R1.
    fn run(&self, r1: u32) -> Result<(), Refused> {
        expect(self.step.guest() == PRIMARY, calls::DENIED, || {
            format!("only {} may call it", self.named(PRIMARY))
        })?;
        self.another_guest(r1, "R1 =").map(|_| ())
    }

    /// Send of R2 words to the guest in R1.
    fn send(&self, r1: u32, r2: u32) -> Result<(), Refused> {
        let receiver = self.another_guest(r1, "R1 =")?;
        expect_valid((1..=PAGE_WORDS as u32).contains(&r2), || {
            format!("R2 = {r2} is not 1 to {PAGE_WORDS}")
        })?;
        match self.step.before.guest(receiver).inbox {
            Inbox::Empty => Ok(()),
            Inbox::Full { sender, .. } => expect(false, calls::BUSY, || {
                let (receiver, sender) = (self.named(receiver), self.named(sender));
                format!("{receiver} has not taken its last message, from {sender}")
            }),
        }
    }

    /// The guest of that number, which must not be the caller; `what` stands before the number.
    fn another_guest(&self, number: u32, what: &str) -> Result<VmId, Refused> {
        let wrong = |why: &str| Refused {
            code: calls::INVALID_PARAMETERS,
            why: format!("{what} {number} is {why}"),
        };
        match self.step.before.find_guest(number) {
            None => Err(wrong("no guest")),
            Some(vm) if vm == self.step.guest() => Err(wrong("the caller itself")),
            Some(vm) => Ok(vm),
        }
    }

    /// Donate, Lend or Share, whose descriptors are of that kind; R1 is the length of the one in TX.
    fn send_pages(&self, r1: u32, kind: u32) -> Result<(), Refused> {
        expect_valid((3..=DESCRIPTOR_WORDS).contains(&(r1 as usize)), || {
            format!("R1 = {r1} is not 3 to {DESCRIPTOR_WORDS}")
        })?;
        let Some([length, head, bases @ ..]) = self.step.tx.get(..r1 as usize) else {
            return Ok(());
        };
        expect_valid(*length == r1, || format!("R1 is {r1}, but word 0 in TX is {length}"))?;
        expect_valid(head & 0xffff == kind, || {
            let [given, due] = [head & 0xffff, kind].map(kind_text);
            format!("the descriptor is of kind {given}, not {due}")
        })?;
        self.another_guest(head >> 16, "the descriptor's receiver")?;
        let pages = bases
            .iter()
            .map(|base| self.page(*base))
            .collect::<Result<Vec<_>, _>>()?;
        for pair in bases.windows(2) {
            expect_valid(pair[0] < pair[1], || {
                format!(
                    "{} stands behind {}, but the pages' bases must ascend",
                    pair[1], pair[0]
                )
            })?;
        }
        pages.into_iter().try_for_each(|page| self.own(page))
    }

    /// The page whose base an address is.
    fn page(&self, base: u32) -> Result<PageId, Refused> {
        let machine = &self.step.before;
        let words = PAGE_WORDS as u32;
        let page = machine.find_page(base / words).filter(|_| base.is_multiple_of(words));
        page.ok_or_else(|| {
            let hint = match machine.find_page(base) {
                Some(page) => format!("; page {base}'s is {}", page.base()),
                None if base.is_multiple_of(words) => format!("; the last page is {}", machine.m - 1),
                None => String::new(),
            };
            Refused {
                code: calls::INVALID_PARAMETERS,
                why: format!("{base} is no page's base{hint}"),
            }
        })
    }

    /// The page must be the caller's alone, and in no transaction.
    fn own(&self, page: PageId) -> Result<(), Refused> {
        let (machine, by) = (&self.step.before, self.step.guest());
        expect(*machine.page(page) == owned_by(by), calls::DENIED, || {
            let text = self.text;
            Wanted {
                machine,
                page,
                by,
                text,
            }
            .sentence()
        })
    }

    /// Retrieve, Relinquish or Reclaim of the handle in R1.
    fn transfer(&self, r1: u32, call: u32) -> Result<(), Refused> {
        let handle = handle(r1);
        expect_valid(handle.is_some(), || format!("R1 = {r1} is no handle"))?;
        let transaction = handle.map(|handle| self.step.before.transaction(handle));
        let Some((transaction, deal)) = transaction.and_then(|dealt| Some((dealt, dealt.deal?))) else {
            return expect_valid(false, || format!("handle {r1} is not in use"));
        };
        let receiver = self.named(deal.receiver);
        let party = if call == calls::RECLAIM {
            deal.sender
        } else {
            deal.receiver
        };
        expect(self.step.guest() == party, calls::DENIED, || {
            format!("handle {r1} is from {} to {receiver}", self.named(deal.sender))
        })?;
        let due = call == calls::RELINQUISH;
        expect(deal.retrieved == due, calls::DENIED, || match call {
            calls::RETRIEVE => format!("handle {r1} is retrieved already"),
            calls::RELINQUISH => format!("handle {r1} is not retrieved"),
            _ => format!("{receiver} still has {}", pages::listed(transaction)),
        })
    }
}

/// The number of a kind of descriptor, with its name.
fn kind_text(number: u32) -> String {
    match KINDS.iter().find(|(_, known)| u32::from(*known) == number) {
        Some((name, _)) => format!("{number} ({name})"),
        None => number.to_string(),
    }
}
