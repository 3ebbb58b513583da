//! Images: judging one, and loading it into a machine and its lent memory.
//!
//! An image is a row of records, each a payload length, a kind and a payload, all little-endian.
//! The first pass over it judges every record and builds the machine; the second writes the words.

mod rule;

pub use rule::Rule;

use crate::answers::Answer;
use crate::machine::{Machine, Mode, PageId, PageSet, VmId, VmSet, PAGE_WORDS};
use crate::sound::{guest_count_fits, mailbox_of, owned_by, page_count_fits};

/// What a good image says about its machine as a whole.
#[derive(Clone, Copy, Debug, PartialEq, Eq)]
pub struct Judged {
    pub n: u8,
    pub m: u8,
    pub budget: u32,
}

impl Judged {
    /// How many words of memory must be lent to load the image.
    pub fn memory_words(self) -> usize {
        PAGE_WORDS * usize::from(self.m)
    }
}

/// Where and why an image is broken.
#[derive(Clone, Copy, Debug, PartialEq, Eq)]
pub struct Broken {
    /// The first byte of the bad record, or the image's length where a record is missing.
    pub offset: usize,
    pub rule: Rule,
}

/// What a load gives back besides the words that it wrote.
#[derive(Clone, Debug, PartialEq, Eq)]
pub struct Loaded {
    pub answer: Answer,
    pub machine: Machine,
    pub budget: u32,
    /// Where the image is broken; 0 for any other answer than 4.
    pub offset: usize,
}

/// One record, its payload not yet looked at.
#[derive(Clone, Copy, Debug, PartialEq, Eq)]
pub struct Record<'a> {
    pub kind: u16,
    pub payload: &'a [u8],
    /// The offset of the byte after the record.
    pub end: usize,
}

/// What a record says; its numbers are as wide as the image has them.
#[derive(Clone, Copy, Debug, PartialEq, Eq)]
pub enum Content<'a> {
    Counts { n: u16, m: u16 },
    Guest { guest: u16, tx: u16, rx: u16, pc: u32 },
    Owner { page: u16, owner: u16 },
    Words { address: u32, words: &'a [u8] },
    Budget(u32),
}

/// The record that starts at this offset of the image, unless it is cut short.
pub fn record_at(image: &[u8], offset: usize) -> Result<Record<'_>, Rule> {
    let rest = image.get(offset..).unwrap_or_default();
    let Some((&[l0, l1, k0, k1], rest)) = rest.split_first_chunk() else {
        return Err(Rule::HeaderCutShort);
    };
    let length = usize::from(u16::from_le_bytes([l0, l1]));
    let payload = rest.get(..length).ok_or(Rule::PayloadCutShort)?;
    Ok(Record {
        kind: u16::from_le_bytes([k0, k1]),
        payload,
        end: offset + 4 + length,
    })
}

impl<'a> Record<'a> {
    /// What the record says, if its payload has its kind's form.
    pub fn content(&self) -> Result<Content<'a>, Rule> {
        let number = u16::from_le_bytes;
        let word = u32::from_le_bytes;
        match (self.kind, self.payload) {
            (1, &[a, b, c, d]) => Ok(Content::Counts {
                n: number([a, b]),
                m: number([c, d]),
            }),
            (1, _) => Err(Rule::CountsLength),
            (2, &[a, b, c, d, e, f, g, h, i, j]) => Ok(Content::Guest {
                guest: number([a, b]),
                tx: number([c, d]),
                rx: number([e, f]),
                pc: word([g, h, i, j]),
            }),
            (2, _) => Err(Rule::GuestLength),
            (3, &[a, b, c, d]) => Ok(Content::Owner {
                page: number([a, b]),
                owner: number([c, d]),
            }),
            (3, _) => Err(Rule::OwnerLength),
            (4, &[a, b, c, d, ref words @ ..]) if !words.is_empty() && words.len() % 4 == 0 => Ok(Content::Words {
                address: word([a, b, c, d]),
                words,
            }),
            (4, _) => Err(Rule::WordsLength),
            (5, &[a, b, c, d]) => Ok(Content::Budget(word([a, b, c, d]))),
            (5, _) => Err(Rule::BudgetLength),
            _ => Err(Rule::UnknownKind),
        }
    }
}

/// The machine that the records so far describe.
struct Draft {
    machine: Machine,
    /// The guests that have their record.
    described: VmSet,
    /// The mailbox pages of those guests.
    mailboxes: PageSet,
    /// Known once the image has said its last.
    budget: Option<u32>,
}

impl Draft {
    /// What is known before the first record.
    fn new() -> Draft {
        Draft {
            machine: Machine::blank(),
            described: VmSet::EMPTY,
            mailboxes: PageSet::EMPTY,
            budget: None,
        }
    }

    /// Judges one more record and takes it in.
    fn accept(&mut self, record: &Record) -> Result<(), Rule> {
        let first = self.machine.n == 0;
        if first && record.kind != 1 {
            return Err(Rule::FirstNotCounts);
        }
        match record.content()? {
            Content::Counts { .. } if !first => Err(Rule::CountsTwice),
            Content::Counts { n, m } => self.accept_counts(n, m),
            Content::Guest { guest, tx, rx, pc } => self.accept_guest(guest, tx, rx, pc),
            Content::Owner { page, owner } => self.accept_owner(page, owner),
            Content::Words { address, words } => self.accept_words(address, words),
            Content::Budget(budget) => self.accept_budget(budget),
        }
    }

    /// Kind 1: how many guests and pages there are.
    fn accept_counts(&mut self, n: u16, m: u16) -> Result<(), Rule> {
        let n = u8::try_from(n)
            .ok()
            .filter(|&n| guest_count_fits(n))
            .ok_or(Rule::GuestCountOutOfRange)?;
        let m = u8::try_from(m)
            .ok()
            .filter(|&m| page_count_fits(n, m))
            .ok_or(Rule::PageCountOutOfRange)?;
        self.machine.n = n;
        self.machine.m = m;
        Ok(())
    }

    /// Kind 2: a guest's mailboxes and where it starts.
    fn accept_guest(&mut self, guest: u16, tx: u16, rx: u16, pc: u32) -> Result<(), Rule> {
        let vm = self.machine.find_guest(u32::from(guest)).ok_or(Rule::GuestNotBelowN)?;
        if self.described.has(vm) {
            return Err(Rule::GuestTwice);
        }
        let tx = self.machine.find_page(u32::from(tx)).ok_or(Rule::TxNotBelowM)?;
        self.mailbox_may_be(tx, Rule::TxAlreadyMailbox, Rule::TxHasOwner)?;
        let rx = self.machine.find_page(u32::from(rx)).ok_or(Rule::RxNotBelowM)?;
        if rx == tx {
            return Err(Rule::RxIsTx);
        }
        self.mailbox_may_be(rx, Rule::RxAlreadyMailbox, Rule::RxHasOwner)?;
        self.described = self.described.with(vm);
        self.add_mailbox(tx, vm);
        self.add_mailbox(rx, vm);
        let guest = self.machine.guest_mut(vm);
        guest.tx = tx;
        guest.rx = rx;
        guest.registers.pc = pc;
        Ok(())
    }

    /// Whether a page can still become a mailbox page; if not, which of the two rules says so.
    fn mailbox_may_be(&self, page: PageId, already_mailbox: Rule, has_owner: Rule) -> Result<(), Rule> {
        if self.mailboxes.has(page) {
            return Err(already_mailbox);
        }
        if self.machine.page(page).owner.is_some() {
            return Err(has_owner);
        }
        Ok(())
    }

    /// Makes a page a mailbox page of the guest.
    fn add_mailbox(&mut self, page: PageId, vm: VmId) {
        self.mailboxes.insert(page);
        *self.machine.page_mut(page) = mailbox_of(vm);
    }

    /// Kind 3: a page's owner.
    fn accept_owner(&mut self, page: u16, owner: u16) -> Result<(), Rule> {
        let page = self
            .machine
            .find_page(u32::from(page))
            .ok_or(Rule::OwnedPageNotBelowM)?;
        let owner = self.machine.find_guest(u32::from(owner)).ok_or(Rule::OwnerNotBelowN)?;
        if self.machine.page(page).owner.is_some() {
            return Err(Rule::OwnerTwice);
        }
        if self.mailboxes.has(page) {
            return Err(Rule::OwnedPageIsMailbox);
        }
        *self.machine.page_mut(page) = owned_by(owner);
        Ok(())
    }

    /// Kind 4: words from an address on, which must all lie in memory.
    fn accept_words(&self, address: u32, words: &[u8]) -> Result<(), Rule> {
        let end = u64::from(address) + words.len() as u64 / 4;
        if end > self.machine.memory_words() as u64 {
            return Err(Rule::WordsOutsideMemory);
        }
        Ok(())
    }

    /// Kind 5: the budget, once every guest is known.
    fn accept_budget(&mut self, budget: u32) -> Result<(), Rule> {
        if !(0..self.machine.n).all(|number| self.described.has(VmId(number))) {
            return Err(Rule::GuestMissing);
        }
        self.budget = Some(budget);
        Ok(())
    }
}

/// Reads a whole image: the machine that it describes, ready to run, and the budget.
fn read(image: &[u8]) -> Result<(Machine, u32), Broken> {
    let mut draft = Draft::new();
    let mut offset = 0;
    while offset < image.len() {
        let broken = |rule| Broken { offset, rule };
        if draft.budget.is_some() {
            return Err(broken(Rule::AfterBudget));
        }
        let record = record_at(image, offset).map_err(broken)?;
        draft.accept(&record).map_err(broken)?;
        offset = record.end;
    }
    let budget = draft.budget.ok_or(Broken {
        offset,
        rule: Rule::BudgetMissing,
    })?;
    draft.machine.mode = Mode::Normal;
    Ok((draft.machine, budget))
}

/// Judges a whole image: what it says about its machine, or where and why it is broken.
pub fn judge(image: &[u8]) -> Result<Judged, Broken> {
    let (machine, budget) = read(image)?;
    Ok(Judged {
        n: machine.n,
        m: machine.m,
        budget,
    })
}

/// Loads an image. If it is good and the memory fits it, every lent word is written.
pub fn load(image: &[u8], memory: &mut [u32]) -> Loaded {
    let refused = |answer, offset| Loaded {
        answer,
        machine: Machine::blank(),
        budget: 0,
        offset,
    };
    let (machine, budget) = match read(image) {
        Ok(good) => good,
        Err(broken) => return refused(Answer::BrokenImage, broken.offset),
    };
    if memory.len() != machine.memory_words() {
        return refused(Answer::WrongMemory, 0);
    }
    write_words(image, memory);
    Loaded {
        answer: Answer::Done,
        machine,
        budget,
        offset: 0,
    }
}

/// Fills the memory of a good image: its words in their order, zero where it gives none.
fn write_words(image: &[u8], memory: &mut [u32]) {
    memory.fill(0);
    let mut offset = 0;
    while let Ok(record) = record_at(image, offset) {
        if let Ok(Content::Words { address, words }) = record.content() {
            let places = memory.iter_mut().skip(address as usize);
            for (place, bytes) in places.zip(words.chunks_exact(4)) {
                *place = u32::from_le_bytes([bytes[0], bytes[1], bytes[2], bytes[3]]);
            }
        }
        offset = record.end;
    }
}
