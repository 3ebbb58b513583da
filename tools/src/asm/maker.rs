//! The third pass of `asm`: the bytes of every statement.

use super::book::Book;
use super::placer::Placed;
use super::{Assembly, Problem};
use crate::numbers::{GuestNumber, PageNumber};
use crate::statements::Statement;
use crate::values::{Room, Value};
use reference::machine::{GUESTS, PAGES};
use reference::{encode, Instruction};

/// The receivers in a descriptor.
const RECEIVER: Room = Room::plain(0, GUESTS as i64 - 1);
/// The pages in a descriptor.
const PAGE: Room = Room {
    above: ": a page number is meant here, not an address",
    ..Room::plain(0, PAGES as i64 - 1)
};

/// The pass, statement by statement.
pub struct Maker<'a> {
    book: Book<'a>,
    made: Assembly,
    /// Where in the image the record of kind 4 starts that words are added to.
    open: Option<usize>,
}

impl<'a> Maker<'a> {
    /// Before the first statement.
    pub fn new(book: Book<'a>) -> Maker<'a> {
        Maker {
            book,
            made: Assembly::default(),
            open: None,
        }
    }

    /// What was made, unless any pass met a problem.
    pub fn finish(self) -> Result<Assembly, Vec<Problem>> {
        match self.book.is_wrong() {
            true => Err(self.book.problems()),
            false => Ok(self.made),
        }
    }

    /// Makes the bytes of a statement; wrong values are told and made as 0.
    pub fn make(&mut self, placed: &Placed) {
        let line = placed.line;
        match placed.statement {
            Statement::Constant(..) => (),
            Statement::At(_) => {
                self.open = Some(self.made.image.len());
                self.record(line, 4, &placed.number.to_le_bytes());
            }
            Statement::Bytes(bytes) => {
                self.note_place(line);
                self.made.image.extend(bytes);
            }
            statement => match statement.word_count() {
                Some(_) => self.make_words(placed),
                None => self.make_record(line, statement),
            },
        }
    }

    /// Notes that the next bytes are of this line.
    fn note_place(&mut self, line: usize) {
        self.made.places.push((self.made.image.len(), line));
    }

    /// Adds a whole record.
    fn record(&mut self, line: usize, kind: u16, payload: &[u8]) {
        self.note_place(line);
        let image = &mut self.made.image;
        // The statement's reader and the placer keep payloads to 65,535 bytes.
        image.extend((payload.len() as u16).to_le_bytes());
        image.extend(kind.to_le_bytes());
        image.extend(payload);
    }

    /// Makes a record of a kind other than 4.
    fn make_record(&mut self, line: usize, statement: &Statement) {
        let mut payload = Vec::new();
        let kind = match statement {
            Statement::Machine { guests, pages } => {
                payload.extend(self.half(line, guests, "guests").to_le_bytes());
                payload.extend(self.half(line, pages, "pages").to_le_bytes());
                1
            }
            Statement::Guest { guest, tx, rx, start } => {
                payload = self.guest_payload(line, [guest, tx, rx, start]);
                2
            }
            Statement::Page { page, owner } => {
                payload.extend(self.page(line, page, "page").0.to_le_bytes());
                payload.extend(self.guest(line, owner, "owner").0.to_le_bytes());
                3
            }
            Statement::Budget(steps) => {
                payload.extend(self.word(line, steps, "budget").to_le_bytes());
                5
            }
            Statement::Record { kind, payload: bytes } => {
                payload.extend(bytes);
                self.half(line, kind, "kind")
            }
            _ => return,
        };
        self.record(line, kind, &payload);
    }

    /// The payload of a record of kind 2; the name in its start is noted.
    fn guest_payload(&mut self, line: usize, [guest, tx, rx, start]: [&Value; 4]) -> Vec<u8> {
        let guest = self.guest(line, guest, "guest");
        let tx = self.page(line, tx, "tx");
        let rx = self.page(line, rx, "rx");
        let pc = self.book.worth(line, start, "start", Room::START).unwrap_or_default();
        if let Some(name) = start.first_name() {
            self.made.names.push((guest, name.to_string()));
        }
        let numbers = [guest.0, tx.0, rx.0].map(u16::to_le_bytes);
        [numbers.as_flattened(), &pc.to_le_bytes()].concat()
    }

    /// Makes the words of a statement and puts them into the open record.
    fn make_words(&mut self, placed: &Placed) {
        let line = placed.line;
        let words = match placed.statement {
            Statement::Whole(instruction) => vec![coded(*instruction)],
            Statement::Field { make, d, k } => vec![coded(make(*d, self.field(line, *make, k)))],
            Statement::Set { d, value } => whole_word(*d, self.word(line, value, "set")).to_vec(),
            Statement::Call(number) => {
                let [low, high] = whole_word(0, *number);
                vec![low, high, coded(Instruction::Hvc)]
            }
            Statement::Word(values) => values.iter().map(|value| self.word(line, value, "word")).collect(),
            Statement::Fill { value, .. } => vec![self.word(line, value, "fill")],
            Statement::Descriptor { kind, receiver, pages } => self.descriptor(line, *kind, receiver, pages),
            _ => return,
        };
        let times = if let Statement::Fill { .. } = placed.statement {
            placed.number
        } else {
            1
        };
        self.add_words(line, &words, times);
    }

    /// Adds words to the open record, unless the image will not be given anyway.
    fn add_words(&mut self, line: usize, words: &[u32], times: u32) {
        let Some(offset) = self.open.filter(|_| !self.book.is_wrong()) else {
            return;
        };
        self.note_place(line);
        let image = &mut self.made.image;
        for word in std::iter::repeat_n(words, times as usize).flatten() {
            image.extend(word.to_le_bytes());
        }
        // The placer has kept it to 65,532.
        let length = (image.len() - offset - 4) as u16;
        image[offset..offset + 2].copy_from_slice(&length.to_le_bytes());
    }

    /// The words of a descriptor: its length, kind and receiver, the bases of the pages.
    fn descriptor(&mut self, line: usize, kind: u16, receiver: &Value, pages: &[Value]) -> Vec<u32> {
        let receiver = GuestNumber(self.number(line, receiver, "receiver", RECEIVER));
        let mut words = vec![2 + pages.len() as u32, u32::from(receiver.0) << 16 | u32::from(kind)];
        let pages = pages.iter().map(|page| self.number(line, page, "page", PAGE));
        words.extend(pages.map(|page| PageNumber(page).base()));
        words
    }

    /// The k of an instruction.
    fn field(&mut self, line: usize, make: fn(u8, u32) -> Instruction, k: &Value) -> u32 {
        let name = make(0, 0).name();
        let (below, above) = match name {
            "addi" => (
                " (to count down: set another register and use sub)",
                " (for more: set another register and use add)",
            ),
            _ => (" (for a whole word: set)", " (for a whole word: set)"),
        };
        let room = Room {
            below,
            above,
            ..Room::HALF
        };
        let worth = self.book.worth(line, k, &format!("{name} K"), room);
        worth.unwrap_or_default()
    }

    /// A whole word.
    fn word(&mut self, line: usize, value: &Value, what: &str) -> u32 {
        self.book.worth(line, value, what, Room::WORD).unwrap_or_default()
    }

    /// A number of at most 16 bits.
    fn number(&mut self, line: usize, value: &Value, what: &str, room: Room) -> u16 {
        let worth = self.book.worth(line, value, what, room);
        // `worth` keeps to the limit given.
        worth.unwrap_or_default() as u16
    }

    /// A number of 16 bits.
    fn half(&mut self, line: usize, value: &Value, what: &str) -> u16 {
        self.number(line, value, what, Room::HALF)
    }

    /// A guest number.
    fn guest(&mut self, line: usize, value: &Value, what: &str) -> GuestNumber {
        GuestNumber(self.half(line, value, what))
    }

    /// A page number.
    fn page(&mut self, line: usize, value: &Value, what: &str) -> PageNumber {
        PageNumber(self.half(line, value, what))
    }
}

/// The two instructions that give a register any word.
fn whole_word(d: u8, word: u32) -> [u32; 2] {
    [
        coded(Instruction::Movi(d, word & 0xffff)),
        coded(Instruction::Movt(d, word >> 16)),
    ]
}

/// The word of an instruction whose fields are known to be in range.
fn coded(instruction: Instruction) -> u32 {
    encode(instruction).unwrap_or_default()
}
