//! Machines of generated images stay sound, step by step, with the page records that the table gives.

mod generated_help;

use generated_help::{machines, Ready};
use reference::generate::Class;
use reference::{advance, check, Answer, Did, Kind, Machine, Mode, PageId, PageRecord, VmId, VmSet};

/// How many pages have an owner.
fn owned(machine: &Machine) -> usize {
    machine.pages.iter().filter(|record| record.owner.is_some()).count()
}

/// A row of the table.
fn row(owner: Option<VmId>, access: &[VmId], exclusive: bool) -> PageRecord {
    let bits = access.iter().map(|vm| 1 << vm.0).sum();
    PageRecord {
        owner,
        access: VmSet(bits),
        exclusive,
    }
}

/// The row that a page must have, by the mailboxes, the transactions and its owner.
fn due(machine: &Machine, page: PageId) -> PageRecord {
    for vm in (0..machine.n).map(VmId) {
        let guest = &machine.guests[usize::from(vm.0)];
        if guest.tx == page || guest.rx == page {
            return row(None, &[vm], true);
        }
    }
    for transaction in &machine.transactions {
        let Some(deal) = transaction.deal else {
            continue;
        };
        if transaction.pages[..usize::from(deal.count)].contains(&page) {
            let (i, j) = (deal.sender, deal.receiver);
            return match (deal.kind, deal.retrieved) {
                (Kind::Donate, false) | (Kind::Lend, false) => row(Some(i), &[], true),
                (Kind::Donate, true) => panic!("a donation is retrieved"),
                (Kind::Lend, true) => row(Some(i), &[j], true),
                (Kind::Share, false) => row(Some(i), &[i], false),
                (Kind::Share, true) => row(Some(i), &[i, j], false),
            };
        }
    }
    match machine.pages[usize::from(page.0)].owner {
        Some(i) => row(Some(i), &[i], true),
        None => row(None, &[], false),
    }
}

/// Holds all page records against the table.
fn assert_records(machine: &Machine) {
    for page in (0..machine.m).map(PageId) {
        assert_eq!(machine.pages[usize::from(page.0)], due(machine, page), "page {page:?}");
    }
    for unused in &machine.pages[usize::from(machine.m)..] {
        assert_eq!(*unused, row(None, &[], false));
    }
}

/// Runs one machine to its end and gives its steps and calls.
fn walk(ready: Ready) -> (u32, u32) {
    let Ready {
        mut machine,
        mut memory,
        budget,
    } = ready;
    let at_start = owned(&machine);
    assert_records(&machine);
    let (mut steps, mut calls) = (0, 0);
    while steps < budget && machine.mode == Mode::Normal {
        let did = advance(&mut machine, &mut memory);
        steps += 1;
        assert_eq!(check(&machine, &memory), Answer::Done, "step {steps}");
        assert_eq!(owned(&machine), at_start, "step {steps}");
        assert_records(&machine);
        calls += u32::from(did == Did::Called);
    }
    (steps, calls)
}

#[test]
fn every_step_leaves_a_sound_machine() {
    let classes = [
        Class::Program,
        Class::Loops,
        Class::RandomWords,
        Class::RandomInstructions,
        Class::ChangedProgram,
    ];
    let ready = machines(11, 320, &classes);
    let count = ready.len();
    let (mut steps, mut calls) = (0, 0);
    for (more_steps, more_calls) in ready.into_iter().map(walk) {
        steps += more_steps;
        calls += more_calls;
    }
    assert!(count >= 200, "{count} machines");
    assert!(steps > 50_000 && calls > 5_000, "{steps} steps, {calls} calls");
}
