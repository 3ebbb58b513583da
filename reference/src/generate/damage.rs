//! Damaged images: each rule of loading broken, in several ways and at several places.
//!
//! Exactly one thing is wrong wherever that can be had, so that no other rule refuses at the same place.
//! Where the bad record starts is known from how the damage was done, and not asked of the reference.

use super::layout::Layout;
use super::random::Random;
use super::records::{good_records, raw, Item, Words};
use crate::image::Rule;

/// An image in pieces, of which one is bad.
pub struct Damaged {
    pieces: Vec<Vec<u8>>,
    /// The piece that must be refused; the image's end if there is no such piece.
    bad: usize,
}

impl Damaged {
    /// The image as a whole.
    pub fn bytes(&self) -> Vec<u8> {
        self.pieces.concat()
    }

    /// The offset of the bad record.
    pub fn offset(&self) -> usize {
        self.pieces[..self.bad].iter().map(Vec::len).sum()
    }
}

/// A good image's records, to be damaged.
struct Base {
    n: u16,
    m: u16,
    items: Vec<Item>,
}

/// In how many ways each rule is broken.
pub const WAYS: u32 = 6;

/// An image that breaks this rule, in the way with this number, at a random place.
pub fn damaged(rule: Rule, way: u32, random: &mut Random) -> Damaged {
    let mut base = Base::random(random);
    let damaged = match rule {
        Rule::HeaderCutShort | Rule::PayloadCutShort => base.cut(rule, way, random),
        Rule::UnknownKind => base.unknown_kind(way, random),
        Rule::FirstNotCounts => base.other_first(way, random),
        Rule::CountsLength | Rule::GuestLength | Rule::OwnerLength | Rule::WordsLength | Rule::BudgetLength => {
            base.other_length(rule, way, random)
        }
        Rule::CountsTwice | Rule::GuestTwice | Rule::OwnerTwice => base.twice(rule, way, random),
        Rule::GuestCountOutOfRange | Rule::PageCountOutOfRange => base.bad_counts(rule, way),
        Rule::GuestNotBelowN
        | Rule::TxNotBelowM
        | Rule::RxNotBelowM
        | Rule::OwnedPageNotBelowM
        | Rule::OwnerNotBelowN => base.number_too_large(rule, way, random),
        Rule::TxAlreadyMailbox | Rule::RxAlreadyMailbox | Rule::RxIsTx => base.mailbox_again(rule, way, random),
        Rule::TxHasOwner | Rule::RxHasOwner | Rule::OwnedPageIsMailbox => base.mailbox_with_owner(rule, way, random),
        Rule::WordsOutsideMemory => base.words_outside(way, random),
        Rule::GuestMissing => base.without_guest(way, random),
        Rule::AfterBudget => base.after_budget(way, random),
        Rule::BudgetMissing => base.without_budget(way, random),
    };
    with_tail(damaged, rule, random)
}

/// Sometimes puts something else in the place of all that follows the bad record: it must not matter.
fn with_tail(mut damaged: Damaged, rule: Rule, random: &mut Random) -> Damaged {
    let to_the_end = [Rule::HeaderCutShort, Rule::PayloadCutShort, Rule::BudgetMissing];
    if !to_the_end.contains(&rule) && random.one_in(3) {
        damaged.pieces.truncate(damaged.bad + 1);
        let tail = (0..random.between(1, 30)).map(|_| random.word() as u8).collect();
        damaged.pieces.push(tail);
    }
    damaged
}

impl Base {
    /// A good image with several records of each kind that can stand several times.
    fn random(random: &mut Random) -> Base {
        let n = random.between(3, 5) as u8;
        let m = random.choose([16, 16, 16, 17, 64]);
        let layout = Layout::with_counts(n, m, false, random);
        let mut words = Words::new();
        for _ in 0..random.between(4, 30) {
            let address = random.below(u32::from(m) * 1024 - 1);
            words.insert(address, random.word());
            words.insert(address + 1, random.word());
        }
        let budget = random.below(1000);
        Base {
            n: u16::from(n),
            m: u16::from(m),
            items: good_records(&layout, &words, budget, random),
        }
    }

    /// The place of a random record of this kind: the first, the last or any.
    fn place(&self, kind: u16, random: &mut Random) -> usize {
        let places: Vec<usize> = (0..self.items.len())
            .filter(|&at| self.items[at].kind() == kind)
            .collect();
        match random.below(3) {
            0 => places[0],
            1 => places[places.len() - 1],
            _ => places[random.index(places.len())],
        }
    }

    /// A place between the first record and the last: the first, the last or any.
    fn middle(&self, random: &mut Random) -> usize {
        let last = self.items.len() - 1;
        let any = 1 + random.index(last);
        random.choose([1, last, any])
    }

    /// The image with its records as they are, of which one is bad.
    fn with_bad(&self, bad: usize) -> Damaged {
        Damaged {
            pieces: self.items.iter().map(Item::bytes).collect(),
            bad,
        }
    }

    /// The image with other bytes for one record, which make it bad.
    fn with_bytes(&self, bad: usize, bytes: Vec<u8>) -> Damaged {
        let mut damaged = self.with_bad(bad);
        damaged.pieces[bad] = bytes;
        damaged
    }

    /// An image that ends inside a record, or whose last record says that it is longer.
    fn cut(&mut self, rule: Rule, way: u32, random: &mut Random) -> Damaged {
        let last = self.items.len() - 1;
        let any = random.index(last + 1);
        let mut place = random.choose([0, last, any]);
        if rule == Rule::PayloadCutShort && (way == 2 || way == 4) {
            // The length that is said must be a good one for the kind, and the words inside memory.
            place = self.place(4, random);
            let words = vec![13; 3];
            self.items[place] = Item::Words { address: 0, words };
        }
        let mut damaged = self.with_bad(place);
        damaged.pieces.truncate(place + 1);
        let bytes = &mut damaged.pieces[place];
        let length = bytes.len();
        match (rule, way) {
            (Rule::HeaderCutShort, _) => bytes.truncate(1 + way as usize % 3),
            (_, 0) => bytes.truncate(4),
            (_, 1) => bytes.truncate(length - 1),
            (_, 2) => bytes[..2].copy_from_slice(&(length as u16).to_le_bytes()),
            (_, 3) => bytes.truncate(4 + (length - 4) / 2),
            (_, 4) => bytes[..2].copy_from_slice(&65_532_u16.to_le_bytes()),
            _ => bytes.truncate(5),
        }
        damaged
    }

    /// A record of a kind that there is not.
    fn unknown_kind(&self, way: u32, random: &mut Random) -> Damaged {
        let place = self.middle(random);
        let kind = [0, 6, 256 + self.items[place].kind(), u16::MAX, 255, 0x8000][way as usize % 6];
        self.with_bytes(place, raw(kind, &self.items[place].payload()))
    }

    /// Another record first than the one that must be.
    fn other_first(&mut self, way: u32, random: &mut Random) -> Damaged {
        match way {
            0 => {
                self.items.remove(0);
            }
            1 => {
                let place = self.middle(random);
                self.items.swap(0, place);
            }
            2 => self.items.reverse(),
            3 => self.items.retain(|item| item.kind() == 5),
            4 => return self.with_bytes(0, raw(257, &self.items[0].payload())),
            _ => return self.with_bytes(0, raw(0, &[])),
        }
        self.with_bad(0)
    }

    /// A payload that is not as long as its kind's, or a length that is not the payload's.
    fn other_length(&self, rule: Rule, way: u32, random: &mut Random) -> Damaged {
        let kind = match rule {
            Rule::CountsLength => 1,
            Rule::GuestLength => 2,
            Rule::OwnerLength => 3,
            Rule::WordsLength => 4,
            _ => 5,
        };
        let place = self.place(kind, random);
        let mut payload = self.items[place].payload();
        let length = payload.len();
        let stated = |length: usize| {
            let mut bytes = self.items[place].bytes();
            bytes[..2].copy_from_slice(&(length as u16).to_le_bytes());
            bytes
        };
        match way {
            0 => return self.with_bytes(place, stated(length - 1)),
            1 if kind != 5 => return self.with_bytes(place, stated(length + 1)),
            1 | 2 => payload.push(random.word() as u8),
            3 => payload.truncate(if kind == 4 { 4 } else { 0 }),
            4 => payload.truncate(length - 2),
            _ if kind == 4 => payload.truncate(3),
            _ => payload.extend([0; 4]),
        }
        self.with_bytes(place, raw(kind, &payload))
    }

    /// Takes the record of some page's owner out, and gives the page, which is spare then.
    fn take_owned(&mut self, random: &mut Random) -> u16 {
        let place = self.place(3, random);
        match self.items.remove(place) {
            Item::Owner { page, .. } => page,
            _ => 0,
        }
    }

    /// A record that stands a second time, as it was or with other numbers.
    fn twice(&mut self, rule: Rule, way: u32, random: &mut Random) -> Damaged {
        let spare = if rule == Rule::GuestTwice {
            [self.take_owned(random), self.take_owned(random)]
        } else {
            [0, 0]
        };
        let place = match rule {
            Rule::CountsTwice => 0,
            Rule::GuestTwice => self.place(2, random),
            _ => self.place(3, random),
        };
        let mut copy = self.items[place].clone();
        let n = self.n;
        if let Item::Guest { tx, rx, .. } = &mut copy {
            // Its own mailbox pages would be refused as such.
            [*tx, *rx] = spare;
        }
        if way % 2 == 1 {
            match &mut copy {
                Item::Counts { m, .. } => *m = 64,
                Item::Guest { pc, .. } => *pc ^= 1,
                Item::Owner { owner, .. } => *owner = (*owner + 1) % n,
                Item::Words { .. } | Item::Budget(_) => {}
            }
        }
        let last = self.items.len() - 1;
        let any = random.between(place as u32 + 1, last as u32) as usize;
        let to = random.choose([place + 1, last, any]);
        self.items.insert(to, copy);
        self.with_bad(to)
    }

    /// Counts that no machine has.
    fn bad_counts(&mut self, rule: Rule, way: u32) -> Damaged {
        let (n, m) = (self.n, self.m);
        self.items[0] = if rule == Rule::GuestCountOutOfRange {
            let n = [9, 1, 256 + n, 0, 32, u16::MAX][way as usize % 6];
            // Enough pages for 9 guests and for 32, so that it is not their number that is refused.
            Item::Counts { n, m: 64 }
        } else {
            let m = [2 * n - 1, 65, 256 + m, 0, 255, u16::MAX][way as usize % 6];
            Item::Counts { n, m }
        };
        self.with_bad(0)
    }

    /// A guest or page that there is not.
    fn number_too_large(&mut self, rule: Rule, way: u32, random: &mut Random) -> Damaged {
        let of_guest = matches!(rule, Rule::GuestNotBelowN | Rule::TxNotBelowM | Rule::RxNotBelowM);
        let place = self.place(if of_guest { 2 } else { 3 }, random);
        let (n, m) = (self.n, self.m);
        let (number, bound) = match (&mut self.items[place], rule) {
            (Item::Guest { guest, .. }, Rule::GuestNotBelowN) => (guest, n),
            (Item::Guest { tx, .. }, Rule::TxNotBelowM) => (tx, m),
            (Item::Guest { rx, .. }, _) => (rx, m),
            (Item::Owner { page, .. }, Rule::OwnedPageNotBelowM) => (page, m),
            (Item::Owner { owner, .. }, _) => (owner, n),
            _ => return self.with_bad(place),
        };
        *number = [bound, 256 + *number, 255, u16::MAX, bound + 1, 0x8000 + *number][way as usize % 6];
        self.with_bad(place)
    }

    /// A mailbox page that is one already, of an earlier guest or of the same record.
    fn mailbox_again(&mut self, rule: Rule, way: u32, random: &mut Random) -> Damaged {
        let places: Vec<usize> = (0..self.items.len()).filter(|&at| self.items[at].kind() == 2).collect();
        let later = 1 + random.index(places.len() - 1);
        let earlier = places[random.index(later)];
        let taken = match self.items[earlier] {
            Item::Guest { tx, rx, .. } => [tx, rx][way as usize % 2],
            _ => 0,
        };
        if let Item::Guest { tx, rx, .. } = &mut self.items[places[later]] {
            match rule {
                Rule::RxIsTx => *rx = *tx,
                Rule::TxAlreadyMailbox => *tx = taken,
                _ => *rx = taken,
            }
        }
        self.with_bad(places[later])
    }

    /// A mailbox page that has an owner: the later record of the two is the bad one.
    fn mailbox_with_owner(&mut self, rule: Rule, way: u32, random: &mut Random) -> Damaged {
        let (guest, owner) = (self.place(2, random), self.place(3, random));
        let owner_first = rule != Rule::OwnedPageIsMailbox;
        let (first, second) = (guest.min(owner), guest.max(owner));
        if (owner < guest) != owner_first {
            self.items.swap(first, second);
        }
        let (guest, owner) = if owner_first { (second, first) } else { (first, second) };
        let mailboxes = match self.items[guest] {
            Item::Guest { tx, rx, .. } => [tx, rx],
            _ => [0, 0],
        };
        let chosen = match rule {
            Rule::TxHasOwner => 0,
            Rule::RxHasOwner => 1,
            _ => way as usize % 2,
        };
        if let Item::Owner { page, .. } = &mut self.items[owner] {
            *page = mailboxes[chosen];
        }
        self.with_bad(second)
    }

    /// Words that are not all in memory.
    fn words_outside(&mut self, way: u32, random: &mut Random) -> Damaged {
        let place = self.middle(random);
        let end = u32::from(self.m) * 1024;
        let (address, count) = [
            (end, 1),
            (end - 1, 2),
            (u32::MAX, 2),
            (u32::MAX, 1),
            (1 << 31, 3),
            (0, end.min(16_000) as usize),
        ][way as usize % 6];
        let address = if way == 5 { end - 15_999 } else { address };
        let words = vec![13; count];
        self.items.insert(place, Item::Words { address, words });
        self.with_bad(place)
    }

    /// The last record before every guest has its own.
    fn without_guest(&mut self, way: u32, random: &mut Random) -> Damaged {
        let last = self.items.len() - 1;
        match way % 3 {
            0 => {
                let place = self.place(2, random);
                self.items.remove(place);
                self.with_bad(last - 1)
            }
            1 => {
                self.items.retain(|item| item.kind() != 2);
                self.with_bad(self.items.len() - 1)
            }
            _ => {
                let budget = self.items[last].clone();
                let guest = (1..last).rev().find(|&at| self.items[at].kind() == 2).unwrap_or(1);
                let early = 1 + random.index(guest);
                self.items.insert(early, budget);
                self.with_bad(early)
            }
        }
    }

    /// Something after the last record.
    fn after_budget(&mut self, way: u32, random: &mut Random) -> Damaged {
        let owner = self.place(3, random);
        let owner = if way == 5 { Some(self.items.remove(owner)) } else { None };
        let words = self.place(4, random);
        let last = self.items.len() - 1;
        let mut damaged = self.with_bad(last + 1);
        damaged.pieces.push(match way {
            0..=2 => vec![random.word() as u8; 1 + way as usize],
            3 => self.items[last].bytes(),
            4 => self.items[words].bytes(),
            _ => owner.map_or(Vec::new(), |item| item.bytes()),
        });
        damaged
    }

    /// An image that ends after a record that is not the last, or before any.
    fn without_budget(&self, way: u32, random: &mut Random) -> Damaged {
        let last = self.items.len() - 1;
        let any = random.index(last);
        let keep = [last, 0, 1, last - 1, any, 2][way as usize % 6];
        let mut damaged = self.with_bad(keep);
        damaged.pieces.truncate(keep);
        damaged
    }
}
