//! The second pass of `asm`: every word gets its address, and so every name its worth.

use super::book::{Book, Worth};
use crate::names;
use crate::statements::{Line, Statement};
use crate::values::{Room, Value};

/// The most words that one record of kind 4 can have behind its address.
const MOST_WORDS: u64 = 16_382;
/// The counts that a `fill` takes.
const COUNT: Room = Room::plain(1, MOST_WORDS as i64);

/// A statement with what this pass found out about it.
pub struct Placed<'a, 'l> {
    pub line: usize,
    pub statement: &'l Statement<'a>,
    /// The address of an `at`, the count of a `fill`; 0 for others.
    pub number: u32,
}

/// Where the next word goes.
#[derive(Clone, Copy)]
enum Place {
    /// No record of kind 4 is open.
    Closed,
    /// One is open with that many words; the next word's address, unless a problem hides it.
    Open { next: Option<u64>, words: u64 },
}

/// The pass, line by line.
pub struct Placer<'a> {
    book: Book<'a>,
    place: Place,
    /// The labels in the open record behind its last word, with their lines.
    loose: Vec<(usize, &'a str)>,
}

impl<'a> Placer<'a> {
    /// Before the first line.
    pub fn new(book: Book<'a>) -> Placer<'a> {
        Placer {
            book,
            place: Place::Closed,
            loose: Vec::new(),
        }
    }

    /// Behind the last line.
    pub fn finish(mut self) -> Book<'a> {
        self.close("write it above a word");
        self.book
    }

    /// Gives the line's words their addresses and its names their worth.
    pub fn place<'l>(&mut self, line: usize, parsed: &'l Line<'a>) -> Option<Placed<'a, 'l>> {
        for label in &parsed.labels {
            self.place_label(line, label);
        }
        let Some(statement) = &parsed.statement else {
            self.place_wrong(parsed);
            return None;
        };
        let mut number = 0;
        match statement {
            Statement::Constant(name, value) => self.place_constant(line, name, value.as_ref()),
            Statement::At(address) => number = self.place_at(line, address),
            Statement::Fill { count, .. } => number = self.place_fill(line, count),
            _ => match statement.word_count() {
                Some(words) => self.place_words(line, Some(words)),
                None => self.close("write it above a word"),
            },
        }
        Some(Placed {
            line,
            statement,
            number,
        })
    }

    /// The open record ends. A label behind its last word is refused: it may be meant for a word of
    /// the next record, which `way` tells how to name, or for the end of this one.
    fn close(&mut self, way: &str) {
        for (line, label) in std::mem::take(&mut self.loose) {
            let what = format!(
                "label {} has no word below it in its record: {way}; if it is to be the end of the words above, \
                 label their last line and write {}, N being the words of that line",
                names::quote(label),
                names::quote(&format!("{label} = LABEL+N"))
            );
            self.book.tell(line, what);
        }
        self.place = Place::Closed;
    }

    /// A record of words begins.
    fn place_at(&mut self, line: usize, address: &Value) -> u32 {
        self.close(&format!(
            "if it is to be a word of the `at` in line {line}, write it below that"
        ));
        let address = self.book.worth(line, address, "at", Room::WORD);
        self.place = Place::Open {
            next: address.map(u64::from),
            words: 0,
        };
        address.unwrap_or_default()
    }

    /// A label is worth the address of the next word.
    fn place_label(&mut self, line: usize, label: &'a str) {
        match self.place {
            Place::Closed => self.no_record(line, &format!("label {}", names::quote(label))),
            Place::Open { .. } => self.loose.push((line, label)),
        }
        let worth = match self.place {
            Place::Open { next: Some(next), .. } => i64::try_from(next).map_or(Worth::Wrong, Worth::Known),
            _ => Worth::Wrong,
        };
        self.book.settle(line, label, worth);
    }

    /// A word or label without a record: told once, then taken as if one were open.
    fn no_record(&mut self, line: usize, what: &str) {
        self.book.tell(
            line,
            format!("{what} stands in no record: write `at A` above, A being the first word's address"),
        );
        self.place = Place::Open { next: None, words: 0 };
    }

    /// A line that could not be taken apart: nobody knows how many words it was to make.
    fn place_wrong(&mut self, parsed: &Line) {
        if !parsed.problems.is_empty() {
            self.place = Place::Open { next: None, words: 0 };
            self.loose.clear();
        }
    }

    /// A constant is worth its value, made of what is known so far.
    fn place_constant(&mut self, line: usize, name: &str, value: Option<&Value>) {
        let what = names::short(name);
        let worth = value.and_then(|value| self.book.signed_worth(line, value, &what, Room::WORD));
        let worth = worth.map_or(Worth::Wrong, |(signed, _)| Worth::Known(signed));
        self.book.settle(line, name, worth);
    }

    /// The count of a fill, whose words go into the open record.
    fn place_fill(&mut self, line: usize, count: &Value) -> u32 {
        let known = self.book.worth(line, count, "count", COUNT);
        self.place_words(line, known.map(u64::from));
        known.unwrap_or(1)
    }

    /// Puts words into the open record; how many is unknown after a problem.
    fn place_words(&mut self, line: usize, count: Option<u64>) {
        if let Place::Closed = self.place {
            self.no_record(line, "this word");
        }
        self.loose.clear();
        let Place::Open { next, words } = self.place else {
            return;
        };
        let total = words.saturating_add(count.unwrap_or_default());
        if words <= MOST_WORDS && total > MOST_WORDS {
            self.book.tell(
                line,
                format!("the record has more than {MOST_WORDS} words here: write another `at` above"),
            );
        }
        let next = next.zip(count).map(|(next, count)| next.saturating_add(count));
        self.place = Place::Open { next, words: total };
    }
}
