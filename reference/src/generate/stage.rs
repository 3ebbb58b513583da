//! The stage: a machine that runs while its image is still being written.
//!
//! A word may be written into the image as long as nobody has used it, because then it was there from the start.

use super::call::Call;
use super::checked::{checked_step, next_instruction};
use super::layout::Layout;
use super::oracle::{Found, DESCRIPTOR_WORDS};
use super::random::Random;
use super::records::{good_image, Words};
use super::standing::{guests, may, page_of, pages, standing, Use};
use crate::answers::Answer;
use crate::entries::run;
use crate::image::load;
use crate::instructions::Instruction;
use crate::machine::{Machine, Mode, PageId, VmId, PAGE_WORDS};
use crate::step::Did;

/// What a word is kept for.
#[derive(Clone, Copy, Debug, PartialEq, Eq)]
enum Claim {
    Open,
    /// For loads, stores and messages.
    Data,
    /// For the instructions of this guest.
    Code(VmId),
}

/// A running machine and the image that it will have come from.
#[derive(Clone, Debug)]
pub struct Stage {
    pub layout: Layout,
    pub machine: Machine,
    pub memory: Vec<u32>,
    pub words: Words,
    /// Steps taken.
    pub steps: u32,
    /// What must be found wrong with the next call, if that is known.
    pub awaited: Option<Vec<Found>>,
    /// Words that the image cannot change any more.
    fixed: Vec<bool>,
    claims: Vec<Claim>,
}

/// Words that a guest takes for its code at a time.
const AREA: u32 = 200;
/// Words of a page that are kept for data.
const WINDOW: u32 = 128;

impl Stage {
    /// A machine of this layout before its first step; every guest starts where there is room for code.
    pub fn new(layout: Layout, random: &mut Random) -> Result<Stage, String> {
        let image = good_image(&layout, &Words::new(), 0, random);
        let mut memory = vec![0; PAGE_WORDS * usize::from(layout.m)];
        let loaded = load(&image, &mut memory);
        if loaded.answer != Answer::Done {
            return Err(format!("a layout was refused at {}: {layout:?}", loaded.offset));
        }
        let mut stage = Stage {
            layout,
            machine: loaded.machine,
            fixed: vec![false; memory.len()],
            claims: vec![Claim::Open; memory.len()],
            memory,
            words: Words::new(),
            steps: 0,
            awaited: None,
        };
        stage.keep_data(random);
        for vm in guests(&stage.machine) {
            let start = stage.find_area(vm, 80, random).unwrap_or(0);
            stage.layout.start[usize::from(vm.0)] = start;
            stage.machine.guest_mut(vm).registers.pc = start;
        }
        Ok(stage)
    }

    /// Keeps words of each page for data, and gives some of them a value: the whole of TX, the start of RX, a part of others.
    fn keep_data(&mut self, random: &mut Random) {
        for page in pages(&self.machine) {
            let (from, count) = if self.layout.tx.contains(&page) {
                (0, PAGE_WORDS as u32)
            } else if self.layout.rx.contains(&page) {
                (0, random.choose([16, 64, 256]))
            } else {
                let any = random.below(8);
                (random.choose([0, 7, 7, any]) * WINDOW, WINDOW)
            };
            let start = page.base() + from as usize;
            self.claims[start..start + count as usize].fill(Claim::Data);
            for _ in 0..random.below(9) {
                let address = start as u32 + random.below(count);
                let word = random.word();
                self.plan_word(address, word);
            }
        }
    }

    /// Whether the current guest has come to a place that it may fetch from and that has no code yet.
    pub fn wants_code(&self) -> bool {
        self.machine.mode == Mode::Normal && self.room() > 0
    }

    /// How many words of code there is room for at the current guest's pc.
    pub fn room(&self) -> u32 {
        let vm = self.machine.current;
        let pc = self.machine.guest(vm).registers.pc;
        self.room_at(vm, pc)
    }

    /// How many words of a guest's code there is room for from an address on.
    fn room_at(&self, vm: VmId, address: u32) -> u32 {
        (address..self.memory.len() as u32)
            .take_while(|&at| self.is_free(vm, at) && may(&self.machine, vm, at, Use::Fetch))
            .take(AREA as usize)
            .count() as u32
    }

    /// Whether a word can still become an instruction of this guest.
    fn is_free(&self, vm: VmId, address: u32) -> bool {
        let at = address as usize;
        !self.fixed[at] && (self.claims[at] == Claim::Open || self.claims[at] == Claim::Code(vm))
    }

    /// Takes an area for a guest's code with so many words at least, if there is one, and gives its address.
    pub fn find_area(&mut self, vm: VmId, want: u32, random: &mut Random) -> Option<u32> {
        let mut order: Vec<PageId> = pages(&self.machine)
            .filter(|&page| standing(&self.machine, vm, page).allows(Use::Fetch))
            .collect();
        random.shuffle(&mut order);
        for page in order {
            let base = page.base() as u32;
            for try_at in 0..8 {
                let inside = if try_at < 4 {
                    random.below(PAGE_WORDS as u32)
                } else {
                    (try_at - 4) * 256
                };
                if self.room_at(vm, base + inside) >= want {
                    let start = (base + inside) as usize;
                    self.claims[start..start + want as usize].fill(Claim::Code(vm));
                    return Some(base + inside);
                }
            }
        }
        None
    }

    /// Writes code at the current guest's pc; there must be room for it.
    pub fn write_code(&mut self, code: &[u32]) {
        let vm = self.machine.current;
        let pc = self.machine.guest(vm).registers.pc;
        for (address, &word) in (pc..).zip(code) {
            self.claims[address as usize] = Claim::Code(vm);
            self.plan_word(address, word);
        }
    }

    /// Writes a word into the image and tells whether that was still possible.
    pub fn plan_word(&mut self, address: u32, word: u32) -> bool {
        let at = address as usize;
        let possible = !self.fixed[at];
        if possible {
            self.fixed[at] = true;
            self.memory[at] = word;
            self.words.insert(address, word);
        }
        possible
    }

    /// An address of the page that is kept for data, more often than not at an end of what is kept.
    pub fn data_address(&self, page: PageId, random: &mut Random) -> Option<u32> {
        let base = page.base();
        let kept: Vec<u32> = (base..base + PAGE_WORDS)
            .filter(|&at| self.claims[at] == Claim::Data)
            .map(|at| at as u32)
            .collect();
        match random.below(4) {
            0 => kept.first().copied(),
            1 => kept.last().copied(),
            _ => random.pick(&kept),
        }
    }

    /// The addresses of the page that are kept for data, from the first to the one after the last.
    pub fn data_range(&self, page: PageId) -> Option<(u32, u32)> {
        let kept = |at: &u32| self.keeps_for_data(*at);
        let base = page.base() as u32;
        let mut all = (base..base + PAGE_WORDS as u32).filter(kept);
        let first = all.next()?;
        Some((first, all.next_back().unwrap_or(first) + 1))
    }

    /// Whether the word at an address is there and kept for data.
    pub fn keeps_for_data(&self, address: u32) -> bool {
        self.claims.get(address as usize) == Some(&Claim::Data)
    }

    /// Whether a message of so many words would write over code that the guest is about to come to.
    pub fn message_hits_code(&self, receiver: VmId, length: u32) -> bool {
        let guest = self.machine.guest(receiver);
        let start = guest.rx.base() as u32;
        (start..start + length).contains(&guest.registers.pc)
    }

    /// Fixes so many words from an address on.
    fn fix(&mut self, address: usize, count: usize) {
        let end = self.fixed.len().min(address.saturating_add(count));
        let start = end.min(address);
        self.fixed[start..end].fill(true);
    }

    /// Fixes the words that the next step uses.
    fn fix_used(&mut self) {
        let instruction = next_instruction(&self.machine, &self.memory);
        let guest = *self.machine.guest(self.machine.current);
        let registers = guest.registers;
        self.fix(registers.pc as usize, 1);
        match instruction {
            Some(Instruction::Ldr(_, s) | Instruction::Str(_, s)) => self.fix(registers.get(s) as usize, 1),
            Some(Instruction::Hvc) => {
                self.fix(guest.tx.base(), DESCRIPTOR_WORDS);
                let length = registers.get(2) as usize;
                if Call::of(registers.get(0)) == Call::Send && length <= PAGE_WORDS {
                    self.fix(guest.tx.base(), length);
                    if let Some(receiver) = self.machine.find_guest(registers.get(1)) {
                        self.fix(self.machine.guest(receiver).rx.base(), length);
                    }
                }
            }
            _ => {}
        }
    }

    /// One step, compared with what the oracle and the director await of it.
    pub fn step(&mut self) -> Result<(), String> {
        self.fix_used();
        self.steps += 1;
        let stepped = checked_step(&mut self.machine, &mut self.memory);
        let stepped = stepped.map_err(|complaint| format!("step {}: {complaint}", self.steps))?;
        match (stepped.did, self.awaited.take()) {
            (Did::Called, Some(awaited)) if awaited != stepped.flaws => {
                Err(format!("step {}: {:?} and not {awaited:?}", self.steps, stepped.flaws))
            }
            (Did::Called, _) => Ok(()),
            (_, awaited) => {
                self.awaited = awaited;
                Ok(())
            }
        }
    }

    /// The image with this budget; it must lead to the same machine after the same number of steps.
    pub fn image(&self, budget: u32, random: &mut Random) -> Result<Vec<u8>, String> {
        let image = good_image(&self.layout, &self.words, budget, random);
        let mut memory = vec![0; self.memory.len()];
        let mut loaded = load(&image, &mut memory);
        if (loaded.answer, loaded.budget) != (Answer::Done, budget) {
            return Err(format!("a program was refused at {}", loaded.offset));
        }
        let (_, steps) = run(&mut loaded.machine, &mut memory, self.steps);
        if steps != self.steps || loaded.machine != self.machine || memory != self.memory {
            return Err(format!(
                "the image does not lead to its program's end: {steps} of {} steps",
                self.steps
            ));
        }
        Ok(image)
    }

    /// The page that the current guest's pc lies in.
    pub fn home(&self) -> Option<PageId> {
        let pc = self.machine.guest(self.machine.current).registers.pc;
        page_of(&self.machine, pc)
    }
}
