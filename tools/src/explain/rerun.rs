//! The image of a text, run again by the reference along with the lines of bench, to know what they
//! do not hold.

use reference::bench::{BENCH_PAGES, IMAGE_BYTES};
use reference::machine::DEAL_PAGES;
use reference::{advance, judge, load, Broken, Did, Machine, Mode, Registers, VmId};

/// The words of the longest descriptor: its length, kind and receiver, and the pages.
pub const DESCRIPTOR_WORDS: usize = 2 + DEAL_PAGES;

/// Why bench does not run an image.
pub enum Refusal {
    /// More bytes than bench takes.
    Bytes(usize),
    Broken(Broken),
    /// More pages than bench takes.
    Pages(u8),
}

/// A run of an image, up to some step.
pub struct Rerun {
    pub machine: Machine,
    pub memory: Vec<u32>,
    budget: u32,
    /// How many steps are done.
    steps: u32,
    /// What the last of them did; before the first, as if it had only moved.
    pub did: Did,
}

/// One step: the machine before and after it, and what it did.
pub struct Step {
    pub before: Machine,
    pub after: Machine,
    pub did: Did,
    /// What stood in the guest's TX page before it, as many words as a descriptor can have.
    pub tx: Vec<u32>,
}

impl Step {
    /// The guest whose step it was.
    pub fn guest(&self) -> VmId {
        self.before.current
    }

    /// That guest's registers before and after.
    pub fn registers(&self) -> [&Registers; 2] {
        [&self.before, &self.after].map(|machine| &machine.guest(self.guest()).registers)
    }
}

impl Rerun {
    /// Before the first step of an image that bench would run.
    pub fn start(image: &[u8]) -> Result<Rerun, Refusal> {
        if image.len() > IMAGE_BYTES {
            return Err(Refusal::Bytes(image.len()));
        }
        let judged = judge(image).map_err(Refusal::Broken)?;
        if judged.m > BENCH_PAGES {
            return Err(Refusal::Pages(judged.m));
        }
        let mut memory = vec![0; judged.memory_words()];
        let loaded = load(image, &mut memory);
        Ok(Rerun {
            machine: loaded.machine,
            memory,
            budget: loaded.budget,
            steps: 0,
            did: Did::Moved,
        })
    }

    /// Moves on to behind the step of that number, and gives that step; none if the run is past it
    /// already, or ends before.
    pub fn move_to(&mut self, number: u32) -> Option<Step> {
        let before_it = number.checked_sub(1)?;
        if before_it < self.steps {
            return None;
        }
        while self.steps < before_it {
            self.advance()?;
        }
        let before = self.machine.clone();
        let tx = before.guest(before.current).tx.base();
        let tx = self.memory.iter().skip(tx).take(DESCRIPTOR_WORDS).copied().collect();
        let did = self.advance()?;
        let after = self.machine.clone();
        Some(Step { before, after, did, tx })
    }

    /// One step; none if the run is over.
    fn advance(&mut self) -> Option<Did> {
        if self.machine.mode != Mode::Normal || self.steps == self.budget {
            return None;
        }
        self.did = advance(&mut self.machine, &mut self.memory);
        self.steps += 1;
        Some(self.did)
    }

    /// Moves on to behind that many steps, and tells whether the run ends there, in that mode.
    pub fn ends(&mut self, steps: u32, mode: Mode) -> bool {
        if steps > self.steps && self.move_to(steps).is_none() {
            return false;
        }
        let over = self.machine.mode != Mode::Normal || self.steps == self.budget;
        self.steps == steps && self.machine.mode == mode && over
    }
}
