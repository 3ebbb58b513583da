//! The rules that an image can break, with a sentence for each.

use std::fmt;

/// The ways in which an image can be broken.
#[derive(Clone, Copy, Debug, PartialEq, Eq)]
pub enum Rule {
    HeaderCutShort,
    PayloadCutShort,
    UnknownKind,
    FirstNotCounts,
    CountsLength,
    CountsTwice,
    GuestCountOutOfRange,
    PageCountOutOfRange,
    GuestLength,
    GuestNotBelowN,
    GuestTwice,
    TxNotBelowM,
    TxAlreadyMailbox,
    TxHasOwner,
    RxNotBelowM,
    RxIsTx,
    RxAlreadyMailbox,
    RxHasOwner,
    OwnerLength,
    OwnedPageNotBelowM,
    OwnerNotBelowN,
    OwnerTwice,
    OwnedPageIsMailbox,
    WordsLength,
    WordsOutsideMemory,
    BudgetLength,
    GuestMissing,
    AfterBudget,
    BudgetMissing,
}

impl Rule {
    /// Every rule, in the order of their definition.
    pub const ALL: [Rule; 29] = [
        Rule::HeaderCutShort,
        Rule::PayloadCutShort,
        Rule::UnknownKind,
        Rule::FirstNotCounts,
        Rule::CountsLength,
        Rule::CountsTwice,
        Rule::GuestCountOutOfRange,
        Rule::PageCountOutOfRange,
        Rule::GuestLength,
        Rule::GuestNotBelowN,
        Rule::GuestTwice,
        Rule::TxNotBelowM,
        Rule::TxAlreadyMailbox,
        Rule::TxHasOwner,
        Rule::RxNotBelowM,
        Rule::RxIsTx,
        Rule::RxAlreadyMailbox,
        Rule::RxHasOwner,
        Rule::OwnerLength,
        Rule::OwnedPageNotBelowM,
        Rule::OwnerNotBelowN,
        Rule::OwnerTwice,
        Rule::OwnedPageIsMailbox,
        Rule::WordsLength,
        Rule::WordsOutsideMemory,
        Rule::BudgetLength,
        Rule::GuestMissing,
        Rule::AfterBudget,
        Rule::BudgetMissing,
    ];

    /// A sentence for a person who wrote the image.
    fn sentence(self) -> &'static str {
        match self {
            Rule::HeaderCutShort => "the image ends inside a record's length and kind",
            Rule::PayloadCutShort => "the image ends before the record's payload does",
            Rule::UnknownKind => "the record's kind is not 1 to 5",
            Rule::FirstNotCounts => "the first record is not the counts of guests and pages (machine, kind 1)",
            Rule::CountsLength => "the payload of the counts of guests and pages (machine, kind 1) is not 4 bytes long",
            Rule::CountsTwice => "the counts of guests and pages (machine, kind 1) stand a second time",
            Rule::GuestCountOutOfRange => "the number of guests is not 2 to 8",
            Rule::PageCountOutOfRange => "the number of pages is below twice that of guests, or above 64",
            Rule::GuestLength => "the payload of a guest (kind 2) is not 10 bytes long",
            Rule::GuestNotBelowN => "the guest (kind 2) does not exist",
            Rule::GuestTwice => "the guest has its record (kind 2) already",
            Rule::TxNotBelowM => "the TX page does not exist",
            Rule::TxAlreadyMailbox => "the TX page is a mailbox page already",
            Rule::TxHasOwner => "the TX page has an owner",
            Rule::RxNotBelowM => "the RX page does not exist",
            Rule::RxIsTx => "the RX page is the TX page of the same record",
            Rule::RxAlreadyMailbox => "the RX page is a mailbox page already",
            Rule::RxHasOwner => "the RX page has an owner",
            Rule::OwnerLength => "the payload of the owner of a page (kind 3) is not 4 bytes long",
            Rule::OwnedPageNotBelowM => "the page that is to have an owner (kind 3) does not exist",
            Rule::OwnerNotBelowN => "the owner of the page (kind 3) does not exist",
            Rule::OwnerTwice => "the page has its owner (kind 3) already",
            Rule::OwnedPageIsMailbox => "the page that is to have an owner (kind 3) is a mailbox page",
            Rule::WordsLength => "the payload of words (kind 4) is not an address and one or more whole words",
            Rule::WordsOutsideMemory => "one of the words (kind 4) lies outside memory",
            Rule::BudgetLength => "the payload of the budget (kind 5) is not 4 bytes long",
            Rule::GuestMissing => "the budget (kind 5) stands before every guest has its record (kind 2)",
            Rule::AfterBudget => "something follows the budget (kind 5)",
            Rule::BudgetMissing => "the image ends without a budget (kind 5)",
        }
    }
}

impl fmt::Display for Rule {
    /// Writes the rule's sentence.
    fn fmt(&self, f: &mut fmt::Formatter) -> fmt::Result {
        f.write_str(self.sentence())
    }
}
