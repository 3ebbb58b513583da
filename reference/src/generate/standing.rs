//! How a page stands to a guest, worked out from mailboxes, owners and transactions alone.
//!
//! It reads neither the access set nor the exclusive mark of a page record, so that it can be held against them.

use crate::machine::{Deal, Kind, Machine, PageId, VmId, PAGE_WORDS};

/// How a page stands to a guest.
#[derive(Clone, Copy, Debug, PartialEq, Eq)]
pub enum Standing {
    OwnTx,
    OwnRx,
    OtherMailbox,
    Spare,
    /// The guest's, and in no transaction.
    Own,
    /// The guest's, donated and not retrieved.
    Donated,
    /// The guest's, lent and not retrieved.
    Lent,
    /// The guest's, lent and retrieved.
    LentOut,
    /// The guest's, shared and not retrieved.
    Shared,
    /// The guest's, shared and retrieved.
    SharedOut,
    /// Another's, and the guest has no part in it.
    Other,
    /// Another's, sent to the guest and not retrieved.
    Offered,
    /// Another's, lent to the guest and retrieved.
    Borrowed,
    /// Another's, shared with the guest and retrieved.
    SharedWith,
}

/// What a guest does with a word.
#[derive(Clone, Copy, Debug, PartialEq, Eq)]
pub enum Use {
    Fetch,
    Load,
    Store,
}

impl Standing {
    /// Every standing.
    pub const ALL: [Standing; 14] = [
        Standing::OwnTx,
        Standing::OwnRx,
        Standing::OtherMailbox,
        Standing::Spare,
        Standing::Own,
        Standing::Donated,
        Standing::Lent,
        Standing::LentOut,
        Standing::Shared,
        Standing::SharedOut,
        Standing::Other,
        Standing::Offered,
        Standing::Borrowed,
        Standing::SharedWith,
    ];

    /// Whether the guest may use words of the page in this way.
    pub fn allows(self, how: Use) -> bool {
        match self {
            Standing::OwnTx => how == Use::Store,
            Standing::OwnRx => how != Use::Store,
            Standing::Own | Standing::Shared | Standing::SharedOut | Standing::Borrowed | Standing::SharedWith => true,
            Standing::OtherMailbox
            | Standing::Spare
            | Standing::Donated
            | Standing::Lent
            | Standing::LentOut
            | Standing::Other
            | Standing::Offered => false,
        }
    }
}

impl Use {
    /// Every use.
    pub const ALL: [Use; 3] = [Use::Fetch, Use::Load, Use::Store];
}

/// The pages of a machine.
pub fn pages(machine: &Machine) -> impl Iterator<Item = PageId> {
    (0..machine.m).map(PageId)
}

/// The guests of a machine.
pub fn guests(machine: &Machine) -> impl Iterator<Item = VmId> {
    (0..machine.n).map(VmId)
}

/// The page that an address lies in, if it lies in memory.
pub fn page_of(machine: &Machine, address: u32) -> Option<PageId> {
    machine.find_page(address / PAGE_WORDS as u32)
}

/// The transaction that a page is in, if it is in one.
fn deal_about(machine: &Machine, page: PageId) -> Option<Deal> {
    machine
        .transactions
        .iter()
        .find(|transaction| transaction.dealt_pages().contains(&page))
        .and_then(|transaction| transaction.deal)
}

/// How a page of the machine stands to a guest of it.
pub fn standing(machine: &Machine, vm: VmId, page: PageId) -> Standing {
    for holder in guests(machine) {
        let guest = machine.guest(holder);
        match (page == guest.tx, page == guest.rx, holder == vm) {
            (true, _, true) => return Standing::OwnTx,
            (_, true, true) => return Standing::OwnRx,
            (true, _, false) | (_, true, false) => return Standing::OtherMailbox,
            _ => {}
        }
    }
    let Some(owner) = machine.page(page).owner else {
        return Standing::Spare;
    };
    match deal_about(machine, page) {
        None if owner == vm => Standing::Own,
        Some(deal) if deal.sender == vm => standing_to_sender(&deal),
        Some(deal) if deal.receiver == vm => standing_to_receiver(&deal),
        _ => Standing::Other,
    }
}

/// How the pages of a transaction stand to its sender.
fn standing_to_sender(deal: &Deal) -> Standing {
    match (deal.kind, deal.retrieved) {
        (Kind::Donate, _) => Standing::Donated,
        (Kind::Lend, false) => Standing::Lent,
        (Kind::Lend, true) => Standing::LentOut,
        (Kind::Share, false) => Standing::Shared,
        (Kind::Share, true) => Standing::SharedOut,
    }
}

/// How the pages of a transaction stand to its receiver.
fn standing_to_receiver(deal: &Deal) -> Standing {
    match (deal.kind, deal.retrieved) {
        (_, false) => Standing::Offered,
        (Kind::Share, true) => Standing::SharedWith,
        (_, true) => Standing::Borrowed,
    }
}

/// The pages that stand so to the guest, ascending.
pub fn pages_standing(machine: &Machine, vm: VmId, wanted: Standing) -> Vec<PageId> {
    pages(machine)
        .filter(|&page| standing(machine, vm, page) == wanted)
        .collect()
}

/// Whether the guest may use the word at an address in this way.
pub fn may(machine: &Machine, vm: VmId, address: u32, how: Use) -> bool {
    page_of(machine, address).is_some_and(|page| standing(machine, vm, page).allows(how))
}
