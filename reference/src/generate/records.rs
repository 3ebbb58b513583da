//! The records of an image, with numbers as wide as the image has them, so that wrong ones can be written too.

use std::collections::BTreeMap;

use super::layout::Layout;
use super::random::Random;

/// One record.
#[derive(Clone, Debug, PartialEq, Eq)]
pub enum Item {
    Counts { n: u16, m: u16 },
    Guest { guest: u16, tx: u16, rx: u16, pc: u32 },
    Owner { page: u16, owner: u16 },
    Words { address: u32, words: Vec<u32> },
    Budget(u32),
}

/// A record of any kind and payload.
pub fn raw(kind: u16, payload: &[u8]) -> Vec<u8> {
    let mut bytes = Vec::new();
    bytes.extend((payload.len() as u16).to_le_bytes());
    bytes.extend(kind.to_le_bytes());
    bytes.extend(payload);
    bytes
}

impl Item {
    /// The number of the record's kind.
    pub fn kind(&self) -> u16 {
        match self {
            Item::Counts { .. } => 1,
            Item::Guest { .. } => 2,
            Item::Owner { .. } => 3,
            Item::Words { .. } => 4,
            Item::Budget(_) => 5,
        }
    }

    /// What follows the record's length and kind.
    pub fn payload(&self) -> Vec<u8> {
        let numbers = |numbers: &[u16]| -> Vec<u8> { numbers.iter().flat_map(|number| number.to_le_bytes()).collect() };
        match self {
            Item::Counts { n, m } => numbers(&[*n, *m]),
            Item::Guest { guest, tx, rx, pc } => [numbers(&[*guest, *tx, *rx]), pc.to_le_bytes().to_vec()].concat(),
            Item::Owner { page, owner } => numbers(&[*page, *owner]),
            Item::Words { address, words } => [address]
                .into_iter()
                .chain(words)
                .flat_map(|word| word.to_le_bytes())
                .collect(),
            Item::Budget(budget) => budget.to_le_bytes().to_vec(),
        }
    }

    /// The record as it stands in an image.
    pub fn bytes(&self) -> Vec<u8> {
        raw(self.kind(), &self.payload())
    }
}

/// The words of an image by their addresses.
pub type Words = BTreeMap<u32, u32>;

/// The most words that one record of a program gets.
const PIECE: u32 = 400;

/// All records of a good image, those of kinds 2, 3 and 4 in random order.
pub fn good_records(layout: &Layout, words: &Words, budget: u32, random: &mut Random) -> Vec<Item> {
    let mut middle = layout.guest_items();
    middle.extend(layout.owner_items());
    middle.extend(pieces(words, random));
    random.shuffle(&mut middle);
    insert_decoys(&mut middle, random);
    let mut all = vec![Item::Counts {
        n: u16::from(layout.n),
        m: u16::from(layout.m),
    }];
    all.extend(middle);
    all.push(Item::Budget(budget));
    all
}

/// A good image.
pub fn good_image(layout: &Layout, words: &Words, budget: u32, random: &mut Random) -> Vec<u8> {
    good_records(layout, words, budget, random)
        .iter()
        .flat_map(Item::bytes)
        .collect()
}

/// The words as records, cut where the addresses have a gap and at random.
fn pieces(words: &Words, random: &mut Random) -> Vec<Item> {
    let mut items: Vec<(u32, Vec<u32>)> = Vec::new();
    let mut room = 0;
    for (&address, &word) in words {
        match items.last_mut() {
            Some((start, piece)) if room > 0 && *start + piece.len() as u32 == address => piece.push(word),
            _ => {
                items.push((address, vec![word]));
                room = random.between(1, PIECE);
            }
        }
        room -= 1;
    }
    items
        .into_iter()
        .map(|(address, words)| Item::Words { address, words })
        .collect()
}

/// Puts before some records of words another one with wrong words for a part of the same addresses: the later words win.
fn insert_decoys(items: &mut Vec<Item>, random: &mut Random) {
    let mut place = 0;
    while place < items.len() {
        if let Item::Words { address, words } = &items[place] {
            if random.one_in(3) {
                let from = random.below(words.len() as u32);
                let count = random.between(1, (words.len() as u32 - from).min(9));
                let decoy = Item::Words {
                    address: address + from,
                    words: (0..count).map(|_| random.word()).collect(),
                };
                items.insert(random.index(place + 1), decoy);
                place += 1;
            }
        }
        place += 1;
    }
}
