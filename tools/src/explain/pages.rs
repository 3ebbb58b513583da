//! Pages in sentences: which they are, and whose, as the records of a machine tell it.

use super::guest;
use crate::asm::Assembly;
use crate::numbers;
use reference::{Deal, Kind, Machine, PageId, Transaction, VmId};

/// The pages of a transaction as a list.
pub fn listed(transaction: &Transaction) -> String {
    numbers::listed("page", transaction.dealt_pages().iter().map(|page| page.0))
}

/// A page and a guest that cannot have it, in the machine whose records tell why.
pub struct Wanted<'m> {
    pub machine: &'m Machine,
    pub page: PageId,
    pub by: VmId,
    pub text: Option<&'m Assembly>,
}

impl Wanted<'_> {
    /// The page and what bars it: `page 9 is guest 1 (crew)'s`.
    pub fn sentence(&self) -> String {
        let PageId(page) = self.page;
        match self.sent() {
            Some(sent) => format!("page {page} is {sent}"),
            None => format!("page {page} {}", self.standing()),
        }
    }

    /// The same behind the page's number: `page 9, which is guest 1 (crew)'s`.
    pub fn clause(&self) -> String {
        let PageId(page) = self.page;
        match self.sent() {
            Some(sent) => format!("page {page}, which it has {sent}"),
            None => format!("page {page}, which {}", self.standing()),
        }
    }

    /// What the guest itself has done with the page, if that is in a transaction.
    fn sent(&self) -> Option<String> {
        let deal = self.deal().filter(|deal| deal.sender == self.by)?;
        Some(sent_to(deal.kind, &guest(deal.receiver, self.text)))
    }

    /// What the page is, if the guest has not sent it to anybody.
    fn standing(&self) -> String {
        if let Some((vm, mailbox)) = self.mailbox() {
            return match vm == self.by {
                true => format!("is its own {mailbox} page"),
                false => format!("is a mailbox page of {}", guest(vm, self.text)),
            };
        }
        let Some(owner) = self.machine.page(self.page).owner else {
            return "has no owner".to_string();
        };
        let owner = guest(owner, self.text);
        match self.deal().filter(|deal| deal.receiver == self.by) {
            Some(Deal { kind, retrieved, .. }) => {
                let now = if retrieved { "" } else { " but not retrieved now" };
                format!("is {owner}'s, {}{now}", sent_to(kind, "it"))
            }
            None => format!("is {owner}'s"),
        }
    }

    /// Whose mailbox the page is, and which.
    fn mailbox(&self) -> Option<(VmId, &'static str)> {
        let mut guests = (0..self.machine.n).map(VmId);
        guests.find_map(|vm| match self.machine.guest(vm) {
            guest if guest.tx == self.page => Some((vm, "TX")),
            guest if guest.rx == self.page => Some((vm, "RX")),
            _ => None,
        })
    }

    /// The transaction that the page is in.
    fn deal(&self) -> Option<Deal> {
        let mut transactions = self.machine.transactions.iter();
        transactions
            .find(|dealt| dealt.dealt_pages().contains(&self.page))?
            .deal
    }
}

/// What a sender has done with a page, by the kind of the transaction.
fn sent_to(kind: Kind, receiver: &str) -> String {
    match kind {
        Kind::Donate => format!("donated to {receiver}"),
        Kind::Lend => format!("lent to {receiver}"),
        Kind::Share => format!("shared with {receiver}"),
    }
}
