//! Text to image.
//!
//! Three passes over the lines: the first takes them apart and notes every name (`book`), the second
//! gives every word its address and so every name its worth (`placer`), the third makes the bytes
//! (`maker`). All problems are gathered; with any there is no image.

mod book;
mod maker;
mod placer;
mod refusal;

use crate::numbers::GuestNumber;
use crate::statements::{self, Line};
use book::Book;
use maker::Maker;
use placer::Placer;
use reference::bench::{BENCH_PAGES, IMAGE_BYTES};
use reference::image::{record_at, Content};
use reference::{judge, Broken};

/// What is wrong with a line of the text; lines count from 1.
#[derive(Clone, Debug, PartialEq, Eq)]
pub struct Problem {
    pub line: usize,
    pub what: String,
}

/// What a loader or bench will say against an image that could be made.
#[derive(Clone, Debug, PartialEq, Eq)]
pub struct Warning {
    /// The line of the record in question; none for the image as a whole.
    pub line: Option<usize>,
    pub what: String,
}

/// An image with what is known of its text.
#[derive(Clone, Debug, Default, PartialEq, Eq)]
pub struct Assembly {
    pub image: Vec<u8>,
    /// Offset and line of every statement that made bytes, ascending.
    places: Vec<(usize, usize)>,
    /// The name in each guest's `start`.
    names: Vec<(GuestNumber, String)>,
}

impl Assembly {
    /// The line of the statement that made the byte at this offset; none at or behind the end.
    pub fn line_of(&self, offset: usize) -> Option<usize> {
        let place = self.places.iter().rev().find(|(start, _)| *start <= offset);
        place.filter(|_| offset < self.image.len()).map(|(_, line)| *line)
    }

    /// The line that gave the word at this address; where several did, the last, whose word counts.
    pub fn line_of_word(&self, address: u32) -> Option<usize> {
        let mut offset = 0;
        let mut found = None;
        while let Ok(record) = record_at(&self.image, offset) {
            offset = record.end;
            let Ok(Content::Words { address: first, words }) = record.content() else {
                continue;
            };
            let before = address.checked_sub(first).map(|words| words as usize);
            if let Some(before) = before.filter(|before| *before < words.len() / 4) {
                found = Some(record.end - words.len() + before * 4);
            }
        }
        self.line_of(found?)
    }

    /// The name of a guest, from the first `guest` statement for it.
    pub fn guest_name(&self, guest: GuestNumber) -> Option<&str> {
        self.names
            .iter()
            .find(|(number, _)| *number == guest)
            .map(|(_, name)| name.as_str())
    }

    /// What a loader, or else bench, will not take.
    pub fn warnings(&self) -> Vec<Warning> {
        let mut warnings = Vec::new();
        match judge(&self.image) {
            Err(broken) => warnings.push(self.broken_warning(broken)),
            Ok(judged) if judged.m > BENCH_PAGES => warnings.push(Warning {
                line: self.line_of(0),
                what: format!("bench refuses {} pages, it takes at most {BENCH_PAGES}", judged.m),
            }),
            Ok(_) => (),
        }
        if self.image.len() > IMAGE_BYTES {
            let what = format!(
                "bench refuses {} bytes, it takes at most {IMAGE_BYTES}",
                self.image.len()
            );
            warnings.push(Warning { line: None, what });
        }
        warnings
    }

    /// The warning about a broken image.
    fn broken_warning(&self, broken: Broken) -> Warning {
        let line = self.line_of(broken.offset);
        let what = match line {
            Some(_) => format!("a loader refuses this record: {}", self.refusal(broken)),
            None => format!(
                "a loader refuses the image at the end of the file: {}",
                self.refusal(broken)
            ),
        };
        Warning { line, what }
    }
}

/// Makes the image of a text, or says everything that is wrong with it, in the order of the lines.
pub fn assemble(text: &str) -> Result<Assembly, Vec<Problem>> {
    let text = text.strip_prefix('\u{feff}').unwrap_or(text);
    let lines: Vec<Line> = text.lines().map(statements::parse_line).collect();
    let mut placer = Placer::new(Book::of(&lines));
    let placed: Vec<_> = lines
        .iter()
        .enumerate()
        .filter_map(|(at, line)| placer.place(at + 1, line))
        .collect();
    let mut maker = Maker::new(placer.finish());
    for placed in &placed {
        maker.make(placed);
    }
    maker.finish()
}
