//! Where the mailboxes and the owned pages of a machine lie, and how many there are.

use super::random::Random;
use super::records::Item;
use crate::machine::{PageId, VmId};

/// A machine before its first step, but for its words.
#[derive(Clone, Debug)]
pub struct Layout {
    pub n: u8,
    pub m: u8,
    /// The TX page of each guest.
    pub tx: Vec<PageId>,
    /// The RX page of each guest.
    pub rx: Vec<PageId>,
    /// The owner of each page, where it has one.
    pub owners: Vec<Option<VmId>>,
    /// The pc that each guest starts with.
    pub start: Vec<u32>,
}

/// What kind of machine a layout is for.
#[derive(Clone, Copy, Debug, PartialEq, Eq)]
pub enum Shape {
    /// A few guests with several pages each, for the bench.
    Roomy,
    /// As Roomy, with three or four guests.
    Busy,
    /// Any number of guests, with few pages beside their mailboxes or none.
    Tight,
    /// 17 pages or more.
    Wide,
    /// Two guests, one with as many pages as it can have on the bench.
    Rich,
    /// One guest has so many pages that it can use up the handles.
    Crowd,
}

impl Shape {
    /// How many guests and pages such a machine has.
    fn counts(self, random: &mut Random) -> (u8, u8) {
        let n = match self {
            Shape::Roomy => random.choose([2, 2, 3, 3, 3, 4, 4, 5, 6]),
            Shape::Busy => random.choose([3, 3, 4]),
            Shape::Tight | Shape::Wide => random.between(2, 8),
            Shape::Rich => 2,
            Shape::Crowd => random.between(2, 4),
        };
        let m = match self {
            Shape::Roomy => random.between(2 * n + 2, 16),
            Shape::Busy => random.between(14, 16),
            Shape::Tight => (2 * n + random.below(4)).min(16),
            Shape::Wide => random.choose([17, 18, 20, 24, 32, 48, 63, 64]),
            Shape::Rich => 16,
            Shape::Crowd => random.between(2 * n + 22, 64),
        };
        (n as u8, m as u8)
    }
}

impl Layout {
    /// A layout of this shape, with mailboxes and owners at random places. Every guest starts at 0.
    pub fn random(shape: Shape, random: &mut Random) -> Layout {
        let (n, m) = shape.counts(random);
        let crowd = shape == Shape::Crowd || shape == Shape::Rich || shape == Shape::Roomy && random.one_in(2);
        Layout::with_counts(n, m, crowd, random)
    }

    /// A layout of n guests and m pages, which must be in range; if told so, one guest gets most of the pages.
    pub fn with_counts(n: u8, m: u8, crowd: bool, random: &mut Random) -> Layout {
        let mut pages: Vec<PageId> = (0..m).map(PageId).collect();
        random.shuffle(&mut pages);
        let (tx, rest) = pages.split_at(usize::from(n));
        let (rx, rest) = rest.split_at(usize::from(n));
        let mut owners = vec![None; usize::from(m)];
        let rich = VmId(random.below(u32::from(n)) as u8);
        for (count, page) in rest.iter().enumerate() {
            owners[usize::from(page.0)] = match count {
                // Every guest gets a page of its own as long as there are enough, and one stays spare.
                _ if count < usize::from(n) => Some(VmId(count as u8)),
                _ if count == usize::from(n) => None,
                _ if crowd && count < usize::from(n) + 19 => Some(rich),
                _ if random.one_in(9) => None,
                _ => Some(VmId(random.below(u32::from(n)) as u8)),
            };
        }
        Layout {
            n,
            m,
            tx: tx.to_vec(),
            rx: rx.to_vec(),
            owners,
            start: vec![0; usize::from(n)],
        }
    }

    /// The records of kind 2.
    pub fn guest_items(&self) -> Vec<Item> {
        let item = |vm: usize| Item::Guest {
            guest: vm as u16,
            tx: u16::from(self.tx[vm].0),
            rx: u16::from(self.rx[vm].0),
            pc: self.start[vm],
        };
        (0..usize::from(self.n)).map(item).collect()
    }

    /// The records of kind 3.
    pub fn owner_items(&self) -> Vec<Item> {
        let item = |(page, owner): (usize, &Option<VmId>)| {
            owner.map(|vm| Item::Owner {
                page: page as u16,
                owner: u16::from(vm.0),
            })
        };
        self.owners.iter().enumerate().filter_map(item).collect()
    }
}
