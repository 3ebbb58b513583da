//! Soundness: one function for each clause of the scope document, and its table of page records.
//!
//! The clauses are tested in order, and a later one may count on the earlier ones
//! (above all on numbers being small enough to stand for a place).

use crate::machine::{
    Deal, Guest, Inbox, Kind, Machine, PageId, PageRecord, PageSet, Transaction, VmId, VmSet, DEAL_PAGES, GUESTS,
    PAGES, PAGE_WORDS,
};

/// Whether a machine is sound. No value of the type makes it fail.
pub fn is_sound(machine: &Machine) -> bool {
    counts_are_in_range(machine)
        && mailboxes_differ(machine)
        && named_guests_exist(machine)
        && parties_differ(machine)
        && dealt_pages_are_proper(machine)
        && no_donation_is_retrieved(machine)
        && no_page_is_dealt_twice(machine)
        && records_are_due(machine)
        && unused_places_are_blank(machine)
}

/// Whether a machine can have so many guests.
pub(crate) fn guest_count_fits(n: u8) -> bool {
    (2..=GUESTS).contains(&usize::from(n))
}

/// Whether a machine of n guests can have so many pages.
pub(crate) fn page_count_fits(n: u8, m: u8) -> bool {
    (2 * usize::from(n)..=PAGES).contains(&usize::from(m))
}

/// The guests that there are, with their numbers.
fn guests(machine: &Machine) -> impl Iterator<Item = (VmId, &Guest)> {
    (0..machine.n).map(VmId).zip(&machine.guests)
}

/// The live transactions, with their deals.
fn deals(machine: &Machine) -> impl Iterator<Item = (&Deal, &Transaction)> {
    machine
        .transactions
        .iter()
        .filter_map(|transaction| Some((transaction.deal.as_ref()?, transaction)))
}

/// Guests, pages, the pages of each live transaction and the words of each message are as many as there may be.
fn counts_are_in_range(machine: &Machine) -> bool {
    guest_count_fits(machine.n)
        && page_count_fits(machine.n, machine.m)
        && deals(machine).all(|(deal, _)| (1..=DEAL_PAGES).contains(&usize::from(deal.count)))
        && guests(machine).all(|(_, guest)| match guest.inbox {
            Inbox::Empty => true,
            Inbox::Full { length, .. } => (1..=PAGE_WORDS as u32).contains(&length),
        })
}

/// No two guests, and no TX and RX, have a mailbox page in common, and each is a page of the machine.
fn mailboxes_differ(machine: &Machine) -> bool {
    let mut seen = PageSet::EMPTY;
    guests(machine)
        .flat_map(|(_, guest)| [guest.tx, guest.rx])
        .all(|page| page.0 < machine.m && seen.insert(page))
}

/// The current guest, owners and senders of waiting messages exist, and no message waits at its own sender.
fn named_guests_exist(machine: &Machine) -> bool {
    let exists = |vm: VmId| vm.0 < machine.n;
    exists(machine.current)
        && machine.pages.iter().filter_map(|record| record.owner).all(exists)
        && guests(machine).all(|(vm, guest)| match guest.inbox {
            Inbox::Empty => true,
            Inbox::Full { sender, .. } => exists(sender) && sender != vm,
        })
}

/// Each transaction is between two guests that exist.
fn parties_differ(machine: &Machine) -> bool {
    deals(machine)
        .all(|(deal, _)| deal.sender != deal.receiver && deal.sender.0 < machine.n && deal.receiver.0 < machine.n)
}

/// Each transaction's pages ascend, exist, and are not for messages.
fn dealt_pages_are_proper(machine: &Machine) -> bool {
    let mailboxes = mailbox_pages(machine);
    deals(machine).all(|(_, transaction)| {
        let pages = transaction.dealt_pages();
        pages.windows(2).all(|pair| pair[0] < pair[1])
            && pages.iter().all(|&page| page.0 < machine.m && !mailboxes.has(page))
    })
}

/// The mailbox pages of all guests.
fn mailbox_pages(machine: &Machine) -> PageSet {
    let mut pages = PageSet::EMPTY;
    for (_, guest) in guests(machine) {
        pages.insert(guest.tx);
        pages.insert(guest.rx);
    }
    pages
}

/// A donation ends with its retrieval, so that none is marked.
fn no_donation_is_retrieved(machine: &Machine) -> bool {
    deals(machine).all(|(deal, _)| deal.kind != Kind::Donate || !deal.retrieved)
}

/// No two transactions have a page in common.
fn no_page_is_dealt_twice(machine: &Machine) -> bool {
    let mut seen = PageSet::EMPTY;
    deals(machine)
        .flat_map(|(_, transaction)| transaction.dealt_pages())
        .all(|&page| seen.insert(page))
}

/// Each page's record is the one that the table gives for it.
fn records_are_due(machine: &Machine) -> bool {
    let count = usize::from(machine.m);
    machine.pages[..count] == due_records(machine)[..count]
}

/// What the table gives for every page: by its owner, unless it is a mailbox page or in a transaction.
fn due_records(machine: &Machine) -> [PageRecord; PAGES] {
    let mut due = machine
        .pages
        .map(|record| record.owner.map_or(PageRecord::BLANK, owned_by));
    let mut set = |page: PageId, record| due[usize::from(page.0)] = record;
    for (vm, guest) in guests(machine) {
        set(guest.tx, mailbox_of(vm));
        set(guest.rx, mailbox_of(vm));
    }
    for (deal, transaction) in deals(machine) {
        for &page in transaction.dealt_pages() {
            set(page, dealt_by(deal));
        }
    }
    due
}

/// The table's row of a mailbox page.
pub fn mailbox_of(vm: VmId) -> PageRecord {
    PageRecord {
        owner: None,
        access: VmSet::only(vm),
        exclusive: true,
    }
}

/// The table's row of a page in no transaction that has an owner.
pub fn owned_by(vm: VmId) -> PageRecord {
    PageRecord {
        owner: Some(vm),
        access: VmSet::only(vm),
        exclusive: true,
    }
}

/// The table's row of a page in a transaction. A retrieved donation, which there is not, has that of a retrieved loan.
pub fn dealt_by(deal: &Deal) -> PageRecord {
    let (access, exclusive) = match (deal.kind, deal.retrieved) {
        (Kind::Donate | Kind::Lend, false) => (VmSet::EMPTY, true),
        (Kind::Donate | Kind::Lend, true) => (VmSet::only(deal.receiver), true),
        (Kind::Share, false) => (VmSet::only(deal.sender), false),
        (Kind::Share, true) => (VmSet::only(deal.sender).with(deal.receiver), false),
    };
    PageRecord {
        owner: Some(deal.sender),
        access,
        exclusive,
    }
}

/// Nothing stands where no guest, no page, no transaction or no page of one is.
fn unused_places_are_blank(machine: &Machine) -> bool {
    machine.guests[usize::from(machine.n)..]
        .iter()
        .all(|guest| *guest == Guest::BLANK)
        && machine.pages[usize::from(machine.m)..]
            .iter()
            .all(|record| *record == PageRecord::BLANK)
        && machine.transactions.iter().all(|transaction| {
            let used = transaction.dealt_pages().len();
            transaction.pages[used..].iter().all(|&page| page == PageId(0))
        })
}
