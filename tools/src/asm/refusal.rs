//! Why a loader refuses the image of a text, in the words of the text form.

use super::Assembly;
use crate::numbers::{listed, GuestNumber};
use reference::image::{record_at, Content};
use reference::{Broken, Rule};

impl Assembly {
    /// The rule that the image breaks, by the statements' own names where it speaks of what they make.
    pub fn refusal(&self, broken: Broken) -> String {
        let sentence = match broken.rule {
            Rule::FirstNotCounts => "the first record must be `machine`",
            Rule::CountsTwice => "`machine` stands a second time",
            Rule::GuestTwice => "the guest has its `guest` line already",
            Rule::OwnerTwice => "the page has its `page` line already",
            Rule::OwnedPageIsMailbox => "the page is a mailbox page, so it takes no `page` line",
            Rule::WordsLength if self.lacks_words(broken.offset) => "no word stands below this `at`",
            Rule::WordsOutsideMemory => "a word below this `at` lies outside memory",
            Rule::GuestMissing => return self.missing_guests(broken.offset),
            Rule::AfterBudget => "it stands below `budget`, which must be the last record",
            Rule::BudgetMissing => "`budget` is missing, which must be the last record",
            rule => return rule.to_string(),
        };
        sentence.to_string()
    }

    /// Whether the record at this offset is an address and nothing else.
    fn lacks_words(&self, offset: usize) -> bool {
        record_at(&self.image, offset).is_ok_and(|record| record.payload.len() == 4)
    }

    /// Which guests have no record before this offset, where the budget stands.
    fn missing_guests(&self, offset: usize) -> String {
        let mut count = 0;
        let mut described = Vec::new();
        let mut next = 0;
        while let Ok(record) = record_at(&self.image[..offset], next) {
            next = record.end;
            match record.content() {
                Ok(Content::Counts { n, .. }) => count = n,
                Ok(Content::Guest { guest, .. }) => described.push(GuestNumber(guest)),
                _ => (),
            }
        }
        let guests = (0..count).map(GuestNumber);
        let missing: Vec<GuestNumber> = guests.filter(|guest| !described.contains(guest)).collect();
        let verb = if missing.len() == 1 { "has" } else { "have" };
        format!("{} {verb} no `guest` line above `budget`", listed("guest", missing))
    }
}
