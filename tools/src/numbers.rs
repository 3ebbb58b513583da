//! Guest and page numbers as texts and images hold them: not yet tested against
//! any machine, so wider than the machine's own, and as there never one in place of another.

use std::fmt;

/// Words in a page.
const PAGE_WORDS: u32 = 1024;

/// A guest number of an image's record or of a line of bench.
#[derive(Clone, Copy, Debug, PartialEq, Eq, Hash)]
pub struct GuestNumber(pub u16);

/// A page number of an image's record.
#[derive(Clone, Copy, Debug, PartialEq, Eq)]
pub struct PageNumber(pub u16);

impl PageNumber {
    /// The address of the page's first word; 65,535 × 1,024 still fits.
    pub fn base(self) -> u32 {
        u32::from(self.0) * PAGE_WORDS
    }
}

impl fmt::Display for GuestNumber {
    /// Writes the bare number.
    fn fmt(&self, out: &mut fmt::Formatter) -> fmt::Result {
        write!(out, "{}", self.0)
    }
}

/// An address by page and word where it lies in a page that has a number.
pub fn address_text(address: u64) -> String {
    let (page, word) = (address / u64::from(PAGE_WORDS), address % u64::from(PAGE_WORDS));
    match (u16::try_from(page), word) {
        (Ok(page), 0) => format!("@{page}"),
        (Ok(page), word) => format!("@{page}+{word}"),
        (Err(_), _) => format!("0x{address:x}"),
    }
}

/// Numbers of one kind as a list: `page 4`, `pages 4, 5 and 6`.
pub fn listed(what: &str, numbers: impl IntoIterator<Item = impl fmt::Display>) -> String {
    let numbers: Vec<String> = numbers.into_iter().map(|number| number.to_string()).collect();
    match numbers.split_last() {
        Some((last, [])) => format!("{what} {last}"),
        Some((last, others)) => format!("{what}s {} and {last}", others.join(", ")),
        None => format!("no {what}"),
    }
}
