//! The state of a machine, its blank form, and the small questions that every other module asks of it.
//!
//! The types hold unsound machines too: whether a machine is sound is `sound.rs`'s business.

/// Words in a page.
pub const PAGE_WORDS: usize = 1024;
/// Places for guests, used or not.
pub const GUESTS: usize = 8;
/// Places for page records, used or not.
pub const PAGES: usize = 64;
/// Handles, free or not.
pub const HANDLES: usize = 16;
/// Places for pages in one transaction.
pub const DEAL_PAGES: usize = 8;

/// The number of a guest.
#[derive(Clone, Copy, Debug, PartialEq, Eq)]
pub struct VmId(pub u8);

/// The number of a page.
#[derive(Clone, Copy, Debug, PartialEq, Eq, PartialOrd, Ord)]
pub struct PageId(pub u8);

/// The number of a transaction.
#[derive(Clone, Copy, Debug, PartialEq, Eq)]
pub struct Handle(pub u8);

/// The guest that schedules the others.
pub const PRIMARY: VmId = VmId(0);

impl PageId {
    /// The address of the page's first word, as an index into the lent memory.
    pub fn base(self) -> usize {
        PAGE_WORDS * usize::from(self.0)
    }
}

/// A set of guests: bit g stands for guest g.
#[derive(Clone, Copy, Debug, PartialEq, Eq)]
pub struct VmSet(pub u8);

impl VmSet {
    /// The set without a guest.
    pub const EMPTY: VmSet = VmSet(0);

    /// The set of this one guest; empty for a number that no guest can have.
    pub fn only(vm: VmId) -> VmSet {
        VmSet(1u8.checked_shl(u32::from(vm.0)).unwrap_or(0))
    }

    /// Whether the guest is in the set.
    pub fn has(self, vm: VmId) -> bool {
        self.0 & VmSet::only(vm).0 != 0
    }

    /// The set and this guest.
    pub fn with(self, vm: VmId) -> VmSet {
        VmSet(self.0 | VmSet::only(vm).0)
    }
}

/// What a guest computes with.
#[derive(Clone, Copy, Debug, PartialEq, Eq)]
pub struct Registers {
    /// R0 to R7.
    pub r: [u32; 8],
    /// The address of the next instruction.
    pub pc: u32,
    /// Whether the last comparison found equal words.
    pub equal: bool,
}

impl Registers {
    /// The word in a register. The number must be 0 to 7.
    pub fn get(&self, register: u8) -> u32 {
        self.r[usize::from(register)]
    }

    /// Puts a word into a register. The number must be 0 to 7.
    pub fn set(&mut self, register: u8, word: u32) {
        self.r[usize::from(register)] = word;
    }
}

/// The RX state of a guest.
#[derive(Clone, Copy, Debug, PartialEq, Eq)]
pub enum Inbox {
    /// No message waits.
    Empty,
    /// A message of so many words waits at the start of the RX page.
    Full { length: u32, sender: VmId },
}

/// One guest.
#[derive(Clone, Copy, Debug, PartialEq, Eq)]
pub struct Guest {
    pub registers: Registers,
    /// The mailbox page that the guest writes messages to, and cannot read.
    pub tx: PageId,
    /// The mailbox page that the guest reads messages from, and cannot write.
    pub rx: PageId,
    pub inbox: Inbox,
}

impl Guest {
    /// What stands in the place of a guest that there is not.
    pub const BLANK: Guest = Guest {
        registers: Registers {
            r: [0; 8],
            pc: 0,
            equal: false,
        },
        tx: PageId(0),
        rx: PageId(0),
        inbox: Inbox::Empty,
    };
}

/// What is known about a page.
#[derive(Clone, Copy, Debug, PartialEq, Eq)]
pub struct PageRecord {
    pub owner: Option<VmId>,
    /// The guests that may read and write the page.
    pub access: VmSet,
    pub exclusive: bool,
}

impl PageRecord {
    /// The record of a page that nobody has, and of one that there is not.
    pub const BLANK: PageRecord = PageRecord {
        owner: None,
        access: VmSet::EMPTY,
        exclusive: false,
    };
}

/// What a transaction does with its pages.
#[derive(Clone, Copy, Debug, PartialEq, Eq)]
pub enum Kind {
    Donate,
    Lend,
    Share,
}

/// A live transaction but for its pages.
#[derive(Clone, Copy, Debug, PartialEq, Eq)]
pub struct Deal {
    pub sender: VmId,
    pub receiver: VmId,
    pub kind: Kind,
    pub retrieved: bool,
    /// How many of the page slots are in use.
    pub count: u8,
}

/// What stands behind a handle; without a deal the handle is free.
#[derive(Clone, Copy, Debug, PartialEq, Eq)]
pub struct Transaction {
    pub deal: Option<Deal>,
    pub pages: [PageId; DEAL_PAGES],
}

impl Transaction {
    /// What stands behind a free handle.
    pub const FREE: Transaction = Transaction {
        deal: None,
        pages: [PageId(0); DEAL_PAGES],
    };

    /// The pages that the transaction is about; none if the handle is free.
    pub fn dealt_pages(&self) -> &[PageId] {
        let count = self.deal.map_or(0, |deal| usize::from(deal.count));
        &self.pages[..count.min(DEAL_PAGES)]
    }
}

/// Whether a machine still steps, and if not, why.
#[derive(Clone, Copy, Debug, PartialEq, Eq)]
pub enum Mode {
    Normal,
    Fault,
    Halted,
}

impl Mode {
    /// The word that bench prints for the mode.
    pub fn word(self) -> &'static str {
        match self {
            Mode::Normal => "normal",
            Mode::Fault => "fault",
            Mode::Halted => "halted",
        }
    }
}

/// A machine without its memory, which is lent to every entry.
#[derive(Clone, Debug, PartialEq, Eq)]
pub struct Machine {
    /// How many guests there are.
    pub n: u8,
    /// How many pages there are.
    pub m: u8,
    pub guests: [Guest; GUESTS],
    pub pages: [PageRecord; PAGES],
    pub transactions: [Transaction; HANDLES],
    pub current: VmId,
    pub mode: Mode,
}

impl Machine {
    /// The machine that a refused load gives back: without guests and pages, and halted.
    pub fn blank() -> Machine {
        Machine {
            n: 0,
            m: 0,
            guests: [Guest::BLANK; GUESTS],
            pages: [PageRecord::BLANK; PAGES],
            transactions: [Transaction::FREE; HANDLES],
            current: PRIMARY,
            mode: Mode::Halted,
        }
    }

    /// How many words of memory must be lent with the machine.
    pub fn memory_words(&self) -> usize {
        PAGE_WORDS * usize::from(self.m)
    }

    /// The guest with this number, if there is one: the number is judged whole, then narrowed.
    pub fn find_guest(&self, number: u32) -> Option<VmId> {
        (number < u32::from(self.n)).then_some(VmId(number as u8))
    }

    /// The page with this number, if there is one: the number is judged whole, then narrowed.
    pub fn find_page(&self, number: u32) -> Option<PageId> {
        (number < u32::from(self.m)).then_some(PageId(number as u8))
    }

    /// A guest's state. The number must be one of `GUESTS` places.
    pub fn guest(&self, vm: VmId) -> &Guest {
        &self.guests[usize::from(vm.0)]
    }

    /// A guest's state, to change it. The number must be one of `GUESTS` places.
    pub fn guest_mut(&mut self, vm: VmId) -> &mut Guest {
        &mut self.guests[usize::from(vm.0)]
    }

    /// A page's record. The number must be one of `PAGES` places.
    pub fn page(&self, page: PageId) -> &PageRecord {
        &self.pages[usize::from(page.0)]
    }

    /// A page's record, to change it. The number must be one of `PAGES` places.
    pub fn page_mut(&mut self, page: PageId) -> &mut PageRecord {
        &mut self.pages[usize::from(page.0)]
    }

    /// What stands behind a handle. The number must be one of `HANDLES` places.
    pub fn transaction(&self, handle: Handle) -> &Transaction {
        &self.transactions[usize::from(handle.0)]
    }

    /// What stands behind a handle, to change it. The number must be one of `HANDLES` places.
    pub fn transaction_mut(&mut self, handle: Handle) -> &mut Transaction {
        &mut self.transactions[usize::from(handle.0)]
    }
}

/// A set of pages: bit p stands for page p.
#[derive(Clone, Copy)]
pub(crate) struct PageSet(u64);

impl PageSet {
    /// The set without a page.
    pub(crate) const EMPTY: PageSet = PageSet(0);

    /// Whether the page is in the set. The number must be one of `PAGES` places.
    pub(crate) fn has(self, page: PageId) -> bool {
        self.0 >> page.0 & 1 != 0
    }

    /// Puts the page in and tells whether it is new there. The number must be one of `PAGES` places.
    pub(crate) fn insert(&mut self, page: PageId) -> bool {
        let new = !self.has(page);
        self.0 |= 1 << page.0;
        new
    }
}
