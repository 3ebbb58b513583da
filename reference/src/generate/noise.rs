//! Random words as code: wholly random ones, random instructions, and good programs with one word changed.

use super::call::Call;
use super::code::{trial_word, word_of};
use super::layout::{Layout, Shape};
use super::program::program;
use super::random::Random;
use super::records::{good_image, Words};
use crate::instructions::Instruction;
use crate::machine::{PageId, VmId};

/// An image whose guests start in random words, or outside memory.
pub fn random_words(random: &mut Random) -> Vec<u8> {
    let mut layout = any_layout(random);
    let memory = u32::from(layout.m) * 1024;
    let mut words = Words::new();
    for vm in 0..layout.start.len() {
        let start = match random.below(6) {
            0 => random.word(),
            1 => memory - 1,
            _ => home_of(&layout, VmId(vm as u8), random).base() as u32 + random.below(1000),
        };
        layout.start[vm] = start;
        for address in start..start.saturating_add(20).min(memory) {
            // A code that could be one, so that some words are instructions.
            let word = random.word();
            let word = if random.one_in(2) { word & 0x0000_770F } else { word };
            words.insert(address, word);
        }
    }
    let budget = random.between(0, 300);
    good_image(&layout, &words, budget, random)
}

/// A layout of some shape for the bench.
fn any_layout(random: &mut Random) -> Layout {
    let shape = random.choose([Shape::Roomy, Shape::Roomy, Shape::Tight, Shape::Busy]);
    Layout::random(shape, random)
}

/// A page that a guest can fetch from: one of its own, or RX.
fn home_of(layout: &Layout, vm: VmId, random: &mut Random) -> PageId {
    let own: Vec<PageId> = (0..layout.m)
        .map(PageId)
        .filter(|page| layout.owners[usize::from(page.0)] == Some(vm))
        .collect();
    random.pick(&own).unwrap_or(layout.rx[usize::from(vm.0)])
}

/// How many random instructions a guest gets.
const ROW: u32 = 300;

/// An image whose guests execute random instructions, with registers that mostly point into their own pages.
pub fn random_instructions(random: &mut Random) -> Vec<u8> {
    let mut layout = any_layout(random);
    let mut words = Words::new();
    for number in 0..layout.n {
        let vm = VmId(number);
        let home = home_of(&layout, vm, random).base() as u32;
        let start = home + random.below(1024 - ROW - 8);
        layout.start[usize::from(number)] = start;
        let tx = layout.tx[usize::from(number)].base() as u32;
        let mut row = prelude(home, start, tx, random);
        while row.len() < ROW as usize {
            row.extend(random_group(tx, start, random).into_iter().map(word_of));
        }
        words.extend((start..).zip(row).take(ROW as usize));
    }
    let budget = random.between(50, 3000);
    good_image(&layout, &words, budget, random)
}

/// Words that give the upper registers addresses: of data, of code, of TX.
fn prelude(home: u32, start: u32, tx: u32, random: &mut Random) -> Vec<u32> {
    let rest = [
        Instruction::Movi(4, home + random.below(1024)),
        Instruction::Movi(5, tx + random.below(12)),
        Instruction::Movi(6, start + random.below(ROW)),
        Instruction::Movi(7, start + random.below(ROW)),
    ];
    rest.into_iter().map(word_of).collect()
}

/// One random instruction, or a few that make a call.
fn random_group(tx: u32, start: u32, random: &mut Random) -> Vec<Instruction> {
    let d = random.below(6) as u8;
    let s = random.below(8) as u8;
    let k = trial_word(random) & 0xFFFF;
    match random.below(16) {
        0 => vec![Instruction::Movi(d.min(3), k)],
        1 => vec![Instruction::Movt(d.min(3), k)],
        2 => vec![Instruction::Mov(d.min(3), s)],
        3 => vec![Instruction::Ldr(d.min(3), 4)],
        4 => vec![Instruction::Str(d, random.choose([4, 4, 4, 5, 5, s]))],
        5 => vec![Instruction::Add(d.min(3), s)],
        6 => vec![Instruction::Sub(d.min(3), s)],
        7 => vec![Instruction::Addi(d.min(3), k)],
        8 => vec![Instruction::Cmp(d, s)],
        9 => vec![Instruction::Movi(6, start + random.below(ROW)), Instruction::Bne(6)],
        10 if random.one_in(3) => vec![Instruction::Movi(7, start + random.below(ROW)), Instruction::Br(7)],
        11 => vec![Instruction::Movi(5, tx + random.below(11)), Instruction::Str(s, 5)],
        12 if random.one_in(60) => vec![Instruction::Halt],
        13 if random.one_in(40) => vec![Instruction::Ldr(d, s)],
        _ => random_call(random),
    }
}

/// A call with small arguments, which may be right.
fn random_call(random: &mut Random) -> Vec<Instruction> {
    let number = random.choose(Call::ALL).number();
    vec![
        Instruction::Movi(1, random.below(9)),
        Instruction::Movi(2, random.below(5)),
        Instruction::Movi(0, number & 0xFFFF),
        Instruction::Movt(0, number >> 16),
        Instruction::Hvc,
    ]
}

/// A good program with one word changed, which need not end by itself any more.
pub fn changed_program(number: u64, random: &mut Random) -> Result<Vec<u8>, String> {
    let program = program(number, random)?;
    let addresses: Vec<u32> = program.stage.words.keys().copied().collect();
    let mut words = program.stage.words;
    if let Some(address) = random.pick(&addresses) {
        let flip = match random.below(3) {
            0 => 1 << random.below(32),
            1 => random.below(16) << random.choose([0, 8, 12, 16]),
            _ => random.word(),
        };
        words.entry(address).and_modify(|word| *word ^= flip);
    }
    let more = random.below(500);
    let budget = program.budget.min(program.stage.steps + more);
    Ok(good_image(&program.stage.layout, &words, budget, random))
}
