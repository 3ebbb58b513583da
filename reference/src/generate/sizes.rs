//! Images at the limits of the bench: as long as it takes, longer, with 16 pages and with more.
//!
//! Every good image has an even number of bytes, because every record has one;
//! one of 65,536 bytes needs an even number of guests, one of 65,534 an odd one.

use super::code::word_of;
use super::layout::Layout;
use super::random::Random;
use super::records::Item;
use crate::instructions::Instruction;

/// What an image is at the limit of.
#[derive(Clone, Copy, Debug, PartialEq, Eq)]
pub enum Size {
    /// Good, with exactly so many bytes.
    Exactly(usize),
    /// Broken after its last record by one byte, with exactly so many bytes.
    BrokenExactly(usize),
    /// As Exactly, with as many records of words as there can be.
    SmallRecords(usize),
    /// A record of words of the largest size that there is.
    LargestRecord,
    /// So many pages.
    Pages(u8),
    /// So many pages, and broken.
    BrokenPages(u8),
}

/// Every size, in the order in which they are made.
pub const SIZES: [Size; 18] = [
    Size::Exactly(65_536),
    Size::Exactly(65_534),
    Size::BrokenExactly(65_535),
    Size::BrokenExactly(65_537),
    Size::Exactly(65_538),
    Size::Exactly(65_540),
    Size::LargestRecord,
    Size::Pages(16),
    Size::Pages(17),
    Size::BrokenPages(17),
    Size::SmallRecords(65_536),
    Size::Pages(64),
    Size::BrokenExactly(65_533),
    Size::Exactly(65_532),
    Size::BrokenExactly(70_001),
    Size::Exactly(131_072),
    Size::BrokenPages(16),
    Size::SmallRecords(65_534),
];

/// The longest row of words that one record can hold.
const MOST_WORDS: usize = 16_382;
/// The bytes of a record of words besides the words.
const OVERHEAD: usize = 8;

/// An image of this size.
pub fn sized_image(size: Size, random: &mut Random) -> Vec<u8> {
    match size {
        Size::Exactly(bytes) => filled(bytes, MOST_WORDS, random),
        Size::SmallRecords(bytes) => filled(bytes, 1, random),
        Size::BrokenExactly(bytes) => {
            let mut image = filled(bytes - 1, MOST_WORDS, random);
            image.push(random.word() as u8);
            image
        }
        Size::LargestRecord => {
            let (layout, budget) = walk_layout(2, 16, random);
            join(&layout, vec![row(0, MOST_WORDS)], budget)
        }
        Size::Pages(m) => {
            let n = random.between(2, 8) as u8;
            let (layout, budget) = walk_layout(n, m, random);
            join(&layout, vec![row(layout.start[0], 100)], budget)
        }
        Size::BrokenPages(m) => {
            let mut image = sized_image(Size::Pages(m), random);
            let broken = image.len() - 9;
            image.truncate(broken);
            image
        }
    }
}

/// A layout whose guests start at the first page that they own, and a budget to walk through it.
fn walk_layout(n: u8, m: u8, random: &mut Random) -> (Layout, u32) {
    let mut layout = Layout::with_counts(n, m, false, random);
    for vm in 0..usize::from(n) {
        let owned = layout
            .owners
            .iter()
            .position(|&owner| owner.is_some_and(|owner| usize::from(owner.0) == vm));
        layout.start[vm] = owned.map_or(layout.rx[vm].base(), |page| page * 1024) as u32;
    }
    (layout, random.between(1000, 3000))
}

/// A record of so many instructions from an address on, with a call now and then.
fn row(address: u32, count: usize) -> Item {
    let word = |place: usize| {
        word_of(match place % 97 {
            96 => Instruction::Hvc,
            95 => Instruction::Movt(0, 0x8400),
            94 => Instruction::Movi(0, 0x6A + (place / 97 % 16) as u32),
            other => Instruction::Addi(2, other as u32),
        })
    };
    Item::Words {
        address,
        words: (0..count).map(word).collect(),
    }
}

/// A good image of exactly so many bytes, an even number, from records of words of at most so many.
fn filled(bytes: usize, most: usize, random: &mut Random) -> Vec<u8> {
    let n = if bytes.is_multiple_of(4) {
        random.choose([2, 4, 6, 8])
    } else {
        random.choose([3, 5, 7])
    };
    let (layout, budget) = walk_layout(n, 16, random);
    let mut left = bytes - join(&layout, Vec::new(), budget).len();
    let mut rows = Vec::new();
    let mut address = 0;
    while left > OVERHEAD {
        let room = (left - OVERHEAD) / 4;
        // What is left over must be nothing, or enough for one more record.
        let count = match room {
            _ if room <= most => room,
            _ if room - most < 3 && most > 3 => most - 3,
            _ if room - most < 3 => room,
            _ => most,
        };
        if address + count > 16 * 1024 {
            address = 0;
        }
        rows.push(row(address as u32, count));
        address += count;
        left -= OVERHEAD + 4 * count;
    }
    join(&layout, rows, budget)
}

/// A good image from a layout and records of words.
fn join(layout: &Layout, words: Vec<Item>, budget: u32) -> Vec<u8> {
    let first = Item::Counts {
        n: u16::from(layout.n),
        m: u16::from(layout.m),
    };
    [first]
        .into_iter()
        .chain(words)
        .chain(layout.guest_items())
        .chain(layout.owner_items())
        .chain([Item::Budget(budget)])
        .flat_map(|item| item.bytes())
        .collect()
}
