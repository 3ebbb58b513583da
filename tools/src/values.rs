//! Values of the text form: numbers, names and page bases, multiplied, added and subtracted.

use crate::names;
use crate::numbers::PageNumber;

/// A value as it is written, taken apart but not yet worked out.
#[derive(Clone, Debug, PartialEq, Eq)]
pub struct Value<'a> {
    text: &'a str,
    terms: Vec<Term<'a>>,
}

/// One part of a sum: a product of one factor or more.
#[derive(Clone, Debug, PartialEq, Eq)]
struct Term<'a> {
    minus: bool,
    factors: Vec<Factor<'a>>,
}

/// One part of a product.
#[derive(Clone, Copy, Debug, PartialEq, Eq)]
struct Factor<'a> {
    /// Written with `@`: the base of the page of that number.
    page: bool,
    atom: Atom<'a>,
}

/// What a factor is made of.
#[derive(Clone, Copy, Debug, PartialEq, Eq)]
enum Atom<'a> {
    Number(u32),
    Name(&'a str),
}

/// Signs that people try in a value and that mean nothing there.
const NO_SIGNS: &[char] = &['/', '%', '(', ')', '<', '>', '&', '|', '^', '~'];

/// Why a value could not be worked out.
#[derive(Clone, Debug, PartialEq, Eq)]
pub enum Miss {
    /// It uses a name whose own definition is wrong, of which the reader has been told already.
    Told,
    /// A sentence for the reader.
    New(String),
}

impl<'a> Value<'a> {
    /// Takes a value apart; the error is a sentence for the reader.
    pub fn parse(text: &'a str) -> Result<Value<'a>, String> {
        if text.contains(NO_SIGNS) {
            return Err(format!(
                "{} is no value: a value has + - and * only",
                names::quote(text)
            ));
        }
        let (mut minus, mut rest) = match text.strip_prefix('-') {
            Some(rest) => (true, rest),
            None => (false, text),
        };
        let mut terms = Vec::new();
        loop {
            let end = rest.find(['+', '-']).unwrap_or(rest.len());
            let factors = rest[..end].split('*').map(|factor| Factor::parse(factor, text));
            let factors = factors.collect::<Result<_, _>>()?;
            terms.push(Term { minus, factors });
            if end == rest.len() {
                return Ok(Value { text, terms });
            }
            minus = rest[end..].starts_with('-');
            rest = &rest[end + 1..];
        }
    }

    /// The value as it was written.
    pub fn text(&self) -> &'a str {
        self.text
    }

    /// The first name in the value, also one under `@`.
    pub fn first_name(&self) -> Option<&'a str> {
        let mut factors = self.terms.iter().flat_map(|term| &term.factors);
        factors.find_map(|factor| match factor.atom {
            Atom::Name(name) => Some(name),
            Atom::Number(_) => None,
        })
    }

    /// Works the value out, exactly and with its sign; `lookup` gives the worth of a name and is told
    /// whether the name stands for a page number, after `@`.
    pub fn sum(&self, lookup: impl Fn(&str, bool) -> Result<i64, Miss>) -> Result<i64, Miss> {
        let far = || Miss::New(format!("{} is far out of range", names::quote(self.text)));
        let mut sum = 0i64;
        for term in &self.terms {
            let mut product = if term.minus { -1i64 } else { 1 };
            for factor in &term.factors {
                let worth = self.worth(factor, &lookup)?;
                product = product.checked_mul(worth).ok_or_else(far)?;
            }
            sum = sum.checked_add(product).ok_or_else(far)?;
        }
        Ok(sum)
    }

    /// The worth of one factor.
    fn worth(&self, factor: &Factor, lookup: &impl Fn(&str, bool) -> Result<i64, Miss>) -> Result<i64, Miss> {
        let worth = match factor.atom {
            Atom::Number(number) => i64::from(number),
            Atom::Name(name) => lookup(name, factor.page)?,
        };
        match factor.page {
            true => page_base(worth, self.text).map(i64::from),
            false => Ok(worth),
        }
    }
}

impl<'a> Factor<'a> {
    /// Takes one part of the value `whole` apart.
    fn parse(text: &'a str, whole: &str) -> Result<Factor<'a>, String> {
        let (page, text) = match text.strip_prefix('@') {
            Some(text) => (true, text),
            None => (false, text),
        };
        let atom = match text.chars().next() {
            Some(first) if first.is_ascii_digit() => Atom::Number(number(text)?),
            Some(first) if first.is_ascii_alphabetic() => Atom::Name(usable_name(text)?),
            Some(_) => {
                return Err(format!(
                    "{} is no value: expected a number, a name or @PAGE",
                    names::quote(whole)
                ))
            }
            None => {
                let whole = names::quote(whole);
                return Err(format!(
                    "{whole} lacks a number or name: write sums like @9+4, without blanks"
                ));
            }
        };
        Ok(Factor { page, atom })
    }
}

/// The base of the page whose number was worked out, for the value written as `text`.
fn page_base(worth: i64, text: &str) -> Result<u32, Miss> {
    match u16::try_from(worth) {
        Ok(page) => Ok(PageNumber(page).base()),
        Err(_) => Err(Miss::New(format!(
            "page number in {}: {worth} is out of range, 0 to 65535",
            names::quote(text)
        ))),
    }
}

/// A name that stands as a value: any well-formed name but a register's.
fn usable_name(text: &str) -> Result<&str, String> {
    if names::register(text).is_some() {
        return Err(format!("`{text}` is a register: expected a value here"));
    }
    if !names::is_name(text) {
        return Err(format!(
            "{} is no value: a name has letters, digits and _ only",
            names::quote(text)
        ));
    }
    Ok(text)
}

/// Reads a number that starts with a digit: decimal or 0x, `_` between digits, at most 32 bits.
fn number(text: &str) -> Result<u32, String> {
    let (digits, radix) = match text.strip_prefix("0x") {
        Some(digits) => (digits, 16),
        None => (text, 10),
    };
    let wrong = || {
        format!(
            "{} is no number: expected decimal (108) or 0x hex (0x6c)",
            names::quote(text)
        )
    };
    let mut worth = 0u64;
    for group in digits.split('_') {
        if group.is_empty() {
            return Err(wrong());
        }
        for digit in group.chars() {
            let digit = digit.to_digit(radix).ok_or_else(wrong)?;
            worth = worth.saturating_mul(u64::from(radix)).saturating_add(u64::from(digit));
        }
    }
    u32::try_from(worth).map_err(|_| format!("{} is out of range, 0 to {}", names::quote(text), u32::MAX))
}

/// The numbers that a place in the text takes.
#[derive(Clone, Copy, Debug, PartialEq, Eq)]
pub struct Room {
    pub low: i64,
    pub high: i64,
    /// Advice for those who go below or above, for the end of the error.
    pub below: &'static str,
    pub above: &'static str,
    /// A label is meant here, so no other name is proposed for one that nobody defined.
    pub label: bool,
}

impl Room {
    /// A whole word, which also takes what lies below zero, counted down from 2^32.
    pub const WORD: Room = Room::plain(-0xffff_ffff, 0xffff_ffff);
    /// The address where a guest starts.
    pub const START: Room = Room {
        label: true,
        ..Room::WORD
    };
    /// A number of 16 bits.
    pub const HALF: Room = Room::plain(0, 0xffff);

    /// The numbers from `low` to `high`, without advice.
    pub const fn plain(low: i64, high: i64) -> Room {
        Room {
            low,
            high,
            below: "",
            above: "",
            label: false,
        }
    }

    /// The number as the place takes it; `text` is the value as written and `what` names the place
    /// in the error.
    pub fn fit(self, sum: i64, text: &str, what: &str) -> Result<u32, String> {
        let Room { low, high, .. } = self;
        if (low..=high).contains(&sum) {
            // The remainder is below 2^32, so the cast keeps it.
            return Ok(sum.rem_euclid(1 << 32) as u32);
        }
        let shown = match text == sum.to_string() {
            true => text.to_string(),
            false => format!("{} = {sum}", names::quote(text)),
        };
        let advice = if sum < low { self.below } else { self.above };
        Err(format!("{what}: {shown} is out of range, {low} to {high}{advice}"))
    }
}
