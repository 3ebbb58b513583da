//! Image to text: the text of any bytes, of which `asm` makes the same bytes again.

use crate::numbers::{address_text, GuestNumber};
use reference::image::{record_at, Content, Record};
use reference::{call_name, decode, judge, Instruction};
use std::collections::HashMap;

/// The fewest equal words that become a `fill`.
const SHORTEST_FILL: usize = 4;
/// The bytes in a line of `bytes`.
const LINE_BYTES: usize = 32;
/// The bytes joined to one word in `record` and `bytes`.
const GROUP_BYTES: usize = 4;

/// The text of an image, good or not.
pub fn disassemble(image: &[u8]) -> String {
    let broken = judge(image).err();
    let pieces = pieces(image);
    let starts = starts(&pieces);
    let mut text = String::new();
    let mut words_before = false;
    for (offset, piece) in &pieces {
        let words_here = matches!(piece, Piece::Form(Content::Words { .. }));
        if (words_here || words_before) && !text.is_empty() {
            text.push('\n');
        }
        words_before = words_here;
        if let Some(broken) = broken.filter(|broken| broken.offset == *offset) {
            text.push_str(&format!("; a loader refuses this, at byte {offset}: {}\n", broken.rule));
        }
        text.push_str(&piece_text(piece, &starts));
    }
    if let Some(broken) = broken.filter(|broken| broken.offset == image.len()) {
        text.push_str(&format!(
            "; a loader refuses the end, at byte {}: {}\n",
            image.len(),
            broken.rule
        ));
    }
    text
}

/// A part of an image, as far as the text form can say it.
enum Piece<'a> {
    /// A record of its kind's form.
    Form(Content<'a>),
    /// A record without it.
    Record(Record<'a>),
    /// Bytes that are no whole record; only at the end.
    Tail(&'a [u8]),
}

/// The image cut into pieces, each with its offset.
fn pieces(image: &[u8]) -> Vec<(usize, Piece<'_>)> {
    let mut pieces = Vec::new();
    let mut offset = 0;
    while offset < image.len() {
        let (piece, end) = match record_at(image, offset) {
            Ok(record) => (record.content().map_or(Piece::Record(record), Piece::Form), record.end),
            Err(_) => (Piece::Tail(&image[offset..]), image.len()),
        };
        pieces.push((offset, piece));
        offset = end;
    }
    pieces
}

/// The guests that start at an address, for each address where one does.
type Starts = HashMap<u64, Vec<GuestNumber>>;

/// Where guests start.
fn starts(pieces: &[(usize, Piece)]) -> Starts {
    let mut starts = Starts::new();
    for (_, piece) in pieces {
        if let Piece::Form(Content::Guest { guest, pc, .. }) = piece {
            starts.entry(u64::from(*pc)).or_default().push(GuestNumber(*guest));
        }
    }
    starts
}

/// The lines of a piece.
fn piece_text(piece: &Piece, starts: &Starts) -> String {
    match piece {
        Piece::Form(content) => content_text(content, starts),
        Piece::Record(record) => format!("record {}{}\n", record.kind, hex_text(record.payload)),
        Piece::Tail(bytes) => bytes
            .chunks(LINE_BYTES)
            .map(|line| format!("bytes{}\n", hex_text(line)))
            .collect(),
    }
}

/// The lines of a record that has its kind's form.
fn content_text(content: &Content, starts: &Starts) -> String {
    match *content {
        Content::Counts { n, m } => format!("machine guests {n} pages {m}\n"),
        Content::Guest { guest, tx, rx, pc } => {
            format!("guest {guest} tx {tx} rx {rx} start {}\n", address_text(u64::from(pc)))
        }
        Content::Owner { page, owner } => format!("page {page} owner {owner}\n"),
        Content::Words { address, words } => words_text(address, &words_of(words), starts),
        Content::Budget(steps) => format!("budget {steps}\n"),
    }
}

/// The words that a row of whole ones holds.
fn words_of(bytes: &[u8]) -> Vec<u32> {
    let word = |four: &[u8]| u32::from_le_bytes([four[0], four[1], four[2], four[3]]);
    bytes.chunks_exact(4).map(word).collect()
}

/// Bytes as groups of hex pairs, each behind a blank.
fn hex_text(bytes: &[u8]) -> String {
    let group = |group: &[u8]| {
        group
            .iter()
            .fold(" ".to_string(), |text, byte| format!("{text}{byte:02x}"))
    };
    bytes.chunks(GROUP_BYTES).map(group).collect()
}

/// The lines of a record of words.
fn words_text(address: u32, words: &[u32], starts: &Starts) -> String {
    let mut text = format!("at {}\n", address_text(u64::from(address)));
    let mut done = 0;
    while done < words.len() {
        let next = u64::from(address) + done as u64;
        for guest in starts.get(&next).into_iter().flatten() {
            text.push_str(&format!("; guest {guest} starts here\n"));
        }
        let (line, count) = match run_length(&words[done..], next, starts) {
            run if run >= SHORTEST_FILL => (format!("fill {run} 0x{:08x}", words[done]), run),
            _ => (word_text(words[done]), 1),
        };
        text.push_str(&format!(
            "    {line:24} ; {}{}\n",
            address_text(next),
            call_hint(&words[..=done])
        ));
        done += count;
    }
    text
}

/// How many words from the first on are equal to it, up to the next place where a guest starts.
fn run_length(words: &[u32], address: u64, starts: &Starts) -> usize {
    let same = |(index, word): &(usize, &u32)| **word == words[0] && !starts.contains_key(&(address + *index as u64));
    1 + words.iter().enumerate().skip(1).take_while(same).count()
}

/// Which call the last word makes, if the two words before it choose one.
fn call_hint(words: &[u32]) -> String {
    let last = words.last_chunk().map(|last: &[u32; 3]| last.map(decode));
    match last {
        Some([Some(Instruction::Movi(0, low)), Some(Instruction::Movt(0, high)), Some(Instruction::Hvc)]) => {
            call_name(high << 16 | low)
                .map(|name| format!(", calls {name}"))
                .unwrap_or_default()
        }
        _ => String::new(),
    }
}

/// One word: the instruction that it is, or its digits.
fn word_text(word: u32) -> String {
    match decode(word) {
        Some(instruction) => instruction_text(instruction),
        None => format!("word 0x{word:08x}"),
    }
}

/// An instruction with its operands.
fn instruction_text(instruction: Instruction) -> String {
    let name = instruction.name();
    match instruction {
        Instruction::Movi(d, k) | Instruction::Addi(d, k) => format!("{name} r{d} {k}"),
        Instruction::Movt(d, k) => format!("{name} r{d} 0x{k:04x}"),
        Instruction::Mov(d, s)
        | Instruction::Ldr(d, s)
        | Instruction::Str(d, s)
        | Instruction::Add(d, s)
        | Instruction::Sub(d, s)
        | Instruction::Cmp(d, s) => format!("{name} r{d} r{s}"),
        Instruction::Bne(s) | Instruction::Br(s) => format!("{name} r{s}"),
        Instruction::Hvc | Instruction::Halt => name.to_string(),
    }
}
