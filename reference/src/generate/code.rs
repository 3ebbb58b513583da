//! The words of an act: a straight row of instructions for one guest, with the registers that they leave.

use super::random::Random;
use crate::instructions::{encode, Instruction};
use crate::machine::Registers;

/// Registers that no call looks at or changes.
pub const SCRATCH: [u8; 5] = [3, 4, 5, 6, 7];

/// Words to try an instruction with.
pub const EDGES: [u32; 9] = [
    0,
    1,
    2,
    0xFFFF,
    0x1_0000,
    0x7FFF_FFFF,
    0x8000_0000,
    0xFFFF_FFFE,
    0xFFFF_FFFF,
];

/// A row of instructions in the making.
#[derive(Clone, Debug)]
pub struct Code {
    start: u32,
    words: Vec<u32>,
    /// What the registers hold after the row so far, as far as its instructions are not skipped.
    r: [u32; 8],
}

impl Code {
    /// An empty row that starts at the guest's pc.
    pub fn new(registers: &Registers) -> Code {
        Code {
            start: registers.pc,
            words: Vec::new(),
            r: registers.r,
        }
    }

    /// The words so far.
    pub fn words(&self) -> &[u32] {
        &self.words
    }

    /// The address of the next word.
    pub fn here(&self) -> u32 {
        self.start + self.words.len() as u32
    }

    /// What a register holds by now.
    pub fn get(&self, register: u8) -> u32 {
        self.r[usize::from(register)]
    }

    /// Adds a word that need not be an instruction.
    pub fn word(&mut self, word: u32) {
        self.words.push(word);
    }

    /// Adds an instruction, all of whose fields must fit; follows what it does to the registers.
    pub fn push(&mut self, instruction: Instruction) {
        self.words.push(word_of(instruction));
        self.follow(instruction);
    }

    /// What an instruction does to the registers, unless that depends on more than them.
    fn follow(&mut self, instruction: Instruction) {
        let (d, word) = match instruction {
            Instruction::Movi(d, k) => (d, k),
            Instruction::Movt(d, k) => (d, self.get(d) & 0xFFFF | k << 16),
            Instruction::Mov(d, s) => (d, self.get(s)),
            Instruction::Add(d, s) => (d, self.get(d).wrapping_add(self.get(s))),
            Instruction::Sub(d, s) => (d, self.get(d).wrapping_sub(self.get(s))),
            Instruction::Addi(d, k) => (d, self.get(d).wrapping_add(k)),
            _ => return,
        };
        self.r[usize::from(d)] = word;
    }

    /// Gives a register a word, in one of the ways that the registers allow.
    pub fn set(&mut self, random: &mut Random, d: u8, word: u32) {
        if self.get(d) == word && !random.one_in(4) {
            return;
        }
        let mut short = Vec::new();
        for s in 0..8 {
            short.extend((self.get(s) == word).then_some(Instruction::Mov(d, s)));
            let added = self.get(d).wrapping_add(self.get(s));
            short.extend((added == word).then_some(Instruction::Add(d, s)));
            let taken = self.get(d).wrapping_sub(self.get(s));
            short.extend((taken == word).then_some(Instruction::Sub(d, s)));
        }
        let more = word.wrapping_sub(self.get(d));
        short.extend((more <= 0xFFFF).then_some(Instruction::Addi(d, more)));
        let same_low = self.get(d) & 0xFFFF == word & 0xFFFF;
        short.extend(same_low.then_some(Instruction::Movt(d, word >> 16)));
        match random.pick(&short) {
            Some(instruction) if !random.one_in(4) => self.push(instruction),
            _ => self.set_plainly(d, word),
        }
    }

    /// Gives a register a word by movi, and movt if needed.
    pub fn set_plainly(&mut self, d: u8, word: u32) {
        self.push(Instruction::Movi(d, word & 0xFFFF));
        if word > 0xFFFF {
            self.push(Instruction::Movt(d, word >> 16));
        }
    }

    /// Stores a word at an address.
    pub fn store(&mut self, random: &mut Random, address: u32, word: u32) {
        let [to, from] = two_scratch(random);
        self.set(random, to, address);
        self.set(random, from, word);
        self.push(Instruction::Str(from, to));
    }

    /// Loads the word at an address, which is known, into a register.
    pub fn load(&mut self, random: &mut Random, d: u8, address: u32, word: u32) {
        let [from, _] = two_scratch(random);
        self.set(random, from, address);
        self.push(Instruction::Ldr(d, from));
        self.r[usize::from(d)] = word;
    }

    /// Goes to an address.
    pub fn jump(&mut self, random: &mut Random, address: u32) {
        let [by, _] = two_scratch(random);
        self.set(random, by, address);
        self.push(Instruction::Br(by));
    }
}

/// The word of an instruction whose fields fit; 0, which is no instruction, for another.
pub fn word_of(instruction: Instruction) -> u32 {
    encode(instruction).unwrap_or(0)
}

/// Two different scratch registers.
pub fn two_scratch(random: &mut Random) -> [u8; 2] {
    let mut all = SCRATCH;
    random.shuffle(&mut all);
    [all[0], all[1]]
}

/// A word to try an instruction with: an edge, a small number or any.
pub fn trial_word(random: &mut Random) -> u32 {
    match random.below(4) {
        0 | 1 => random.choose(EDGES),
        2 => random.below(70),
        _ => random.word(),
    }
}
