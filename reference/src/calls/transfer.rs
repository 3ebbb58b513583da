//! Retrieve, Relinquish and Reclaim: the life of a transaction after its opening.

use super::{succeed, Outcome, ABORTED, DENIED, INVALID_PARAMETERS};
use crate::machine::{Deal, Handle, Kind, Machine, PageRecord, Transaction, HANDLES};
use crate::sound::{dealt_by, owned_by};

/// Retrieve: the receiver takes the pages.
pub(super) fn retrieve(machine: &mut Machine, r1: u32) -> Outcome {
    let Some((handle, deal)) = look_up(machine, r1) else {
        return Err(INVALID_PARAMETERS);
    };
    if machine.current != deal.receiver || deal.retrieved {
        return Err(DENIED);
    }
    expect_due_records(machine, handle, &deal)?;
    match deal.kind {
        Kind::Donate => close(machine, handle, owned_by(deal.receiver)),
        Kind::Lend | Kind::Share => mark(
            machine,
            handle,
            Deal {
                retrieved: true,
                ..deal
            },
        ),
    }
    succeed(machine);
    Ok(())
}

/// Relinquish: the receiver gives the pages back, and may retrieve them again.
pub(super) fn relinquish(machine: &mut Machine, r1: u32) -> Outcome {
    let Some((handle, deal)) = look_up(machine, r1) else {
        return Err(INVALID_PARAMETERS);
    };
    if machine.current != deal.receiver || !deal.retrieved {
        return Err(DENIED);
    }
    expect_due_records(machine, handle, &deal)?;
    mark(
        machine,
        handle,
        Deal {
            retrieved: false,
            ..deal
        },
    );
    succeed(machine);
    Ok(())
}

/// Reclaim: the sender takes the pages back and ends the transaction.
pub(super) fn reclaim(machine: &mut Machine, r1: u32) -> Outcome {
    let Some((handle, deal)) = look_up(machine, r1) else {
        return Err(INVALID_PARAMETERS);
    };
    if machine.current != deal.sender || deal.retrieved {
        return Err(DENIED);
    }
    expect_due_records(machine, handle, &deal)?;
    close(machine, handle, owned_by(deal.sender));
    succeed(machine);
    Ok(())
}

/// The live transaction that a whole register names, if it names one.
fn look_up(machine: &Machine, r1: u32) -> Option<(Handle, Deal)> {
    if r1 >= HANDLES as u32 {
        return None;
    }
    let handle = Handle(r1 as u8);
    Some((handle, machine.transaction(handle).deal?))
}

/// Aborts if a page of the transaction has another record than the table's, which a sound machine rules out.
fn expect_due_records(machine: &Machine, handle: Handle, deal: &Deal) -> Outcome {
    let due = dealt_by(deal);
    let all_due = machine
        .transaction(handle)
        .dealt_pages()
        .iter()
        .all(|&page| *machine.page(page) == due);
    all_due.then_some(()).ok_or(ABORTED)
}

/// Puts a changed deal behind its handle and gives its pages the records that are now due.
fn mark(machine: &mut Machine, handle: Handle, deal: Deal) {
    machine.transaction_mut(handle).deal = Some(deal);
    set_records(machine, handle, dealt_by(&deal));
}

/// Gives all pages of the transaction this record and frees the handle.
fn close(machine: &mut Machine, handle: Handle, record: PageRecord) {
    set_records(machine, handle, record);
    *machine.transaction_mut(handle) = Transaction::FREE;
}

/// Gives all pages of the transaction this record.
fn set_records(machine: &mut Machine, handle: Handle, record: PageRecord) {
    let transaction = *machine.transaction(handle);
    for &page in transaction.dealt_pages() {
        *machine.page_mut(page) = record;
    }
}

#[cfg(test)]
mod tests {
    use super::*;
    use crate::calls::{perform, ERROR, RECLAIM, RELINQUISH, RETRIEVE};
    use crate::machine::{PageId, VmId, VmSet};

    /// Guests 0 and 1 with a loan of pages 4 and 5 behind handle 3; the records of both pages are due.
    fn lent(retrieved: bool) -> Machine {
        let deal = Deal {
            sender: VmId(0),
            receiver: VmId(1),
            kind: Kind::Lend,
            retrieved,
            count: 2,
        };
        let mut machine = Machine::blank();
        machine.n = 2;
        machine.m = 6;
        machine.pages[4] = dealt_by(&deal);
        machine.pages[5] = dealt_by(&deal);
        machine.transactions[3].deal = Some(deal);
        machine.transactions[3].pages[..2].copy_from_slice(&[PageId(4), PageId(5)]);
        machine
    }

    /// A call with handle 3 must change R0 and R2 of its caller alone, if one of the pages has another record.
    fn expect_aborted(number: u32, caller: VmId, retrieved: bool) {
        for page in [4, 5] {
            for change in [
                |record: &mut PageRecord| record.owner = None,
                |record: &mut PageRecord| record.access = VmSet(0b100),
                |record: &mut PageRecord| record.exclusive = false,
            ] {
                let mut machine = lent(retrieved);
                change(&mut machine.pages[page]);
                machine.current = caller;
                machine.guest_mut(caller).registers.r[..2].copy_from_slice(&[number, 3]);
                let mut expected = machine.clone();
                expected.guest_mut(caller).registers.set(0, ERROR);
                expected.guest_mut(caller).registers.set(2, 0xFFFF_FFF8);
                perform(&mut machine, &mut []);
                assert_eq!(machine, expected);
            }
        }
    }

    #[test]
    fn a_record_that_is_not_due_aborts_each_of_the_three() {
        expect_aborted(RETRIEVE, VmId(1), false);
        expect_aborted(RELINQUISH, VmId(1), true);
        expect_aborted(RECLAIM, VmId(0), false);
    }

    #[test]
    fn the_caller_and_the_mark_are_tested_before_the_records() {
        for (caller, retrieved, number) in [
            (VmId(0), false, RETRIEVE),
            (VmId(1), true, RETRIEVE),
            (VmId(0), true, RELINQUISH),
            (VmId(1), false, RELINQUISH),
            (VmId(1), false, RECLAIM),
            (VmId(0), true, RECLAIM),
        ] {
            let mut machine = lent(retrieved);
            machine.pages[5] = PageRecord::BLANK;
            machine.current = caller;
            machine.guest_mut(caller).registers.r[..2].copy_from_slice(&[number, 3]);
            perform(&mut machine, &mut []);
            assert_eq!(machine.guest(caller).registers.get(2), DENIED);
        }
    }
}
