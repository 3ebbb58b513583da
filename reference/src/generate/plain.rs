//! Acts without a plan for a call: arithmetic, branches, loops, loads, stores, and code that changes code.
//!
//! Every address of memory fits into one movi, which the branches here count on.

use super::call::Call;
use super::code::{trial_word, two_scratch, word_of, Code, EDGES, SCRATCH};
use super::random::Random;
use super::stage::Stage;
use super::standing::{pages, standing, Standing, Use};
use crate::instructions::{decode, Instruction};
use crate::machine::{PageId, PAGE_WORDS};

/// An empty row of code for the current guest.
pub fn fresh(stage: &Stage) -> Code {
    Code::new(&stage.machine.guest(stage.machine.current).registers)
}

/// One of the plain acts, if the one that was drawn is possible.
pub fn plain_act(stage: &Stage, random: &mut Random) -> Option<Code> {
    match random.below(19) {
        0 | 1 => Some(arithmetic(stage, random)),
        2 | 3 => Some(compare(stage, random)),
        4 => Some(branch_over(stage, random)),
        5 => Some(spin(stage, 2, 6, random)),
        6..=9 => load(stage, random),
        10..=13 => store(stage, random),
        14 => patch(stage, random),
        15 => execute_found(stage, random),
        16 => digest(stage, random),
        _ => stored_code(stage, random),
    }
}

/// Some arithmetic with words at the edges.
fn arithmetic(stage: &Stage, random: &mut Random) -> Code {
    let mut code = fresh(stage);
    for _ in 0..random.between(1, 5) {
        let d = random.below(8) as u8;
        let s = random.below(8) as u8;
        let word = trial_word(random);
        code.set(random, d, word);
        let any = random.below(0x1_0000);
        let k = random.choose([0, 1, 0x7FFF, 0x8000, 0xFFFF, any]);
        code.push(match random.below(6) {
            0 => Instruction::Mov(d, s),
            1 => Instruction::Add(d, s),
            2 => Instruction::Sub(d, s),
            3 => Instruction::Addi(d, k),
            4 => Instruction::Movt(d, k),
            _ => Instruction::Cmp(d, s),
        });
    }
    code
}

/// A comparison of words that are equal or nearly so, and bne after it, over words that it skips if it is taken.
fn compare(stage: &Stage, random: &mut Random) -> Code {
    let mut code = fresh(stage);
    let [d, s] = two_scratch(random);
    let word = random.choose(EDGES);
    code.set(random, d, word);
    let other = random.choose([word, word, word ^ 1, word ^ 0x8000_0000, word ^ 0x1_0000]);
    code.set(random, s, other);
    code.push(Instruction::Cmp(d, s));
    let skipped = random.between(0, 2);
    let taken = word != other;
    let by = random.choose(SCRATCH);
    code.set_plainly(by, code.here() + 2 + skipped);
    code.push(Instruction::Bne(by));
    for _ in 0..skipped {
        code.word(if taken {
            random.word()
        } else {
            word_of(Instruction::Addi(2, 1))
        });
    }
    code
}

/// A branch over words that are never executed.
fn branch_over(stage: &Stage, random: &mut Random) -> Code {
    let mut code = fresh(stage);
    let by = random.choose(SCRATCH);
    let skipped = random.between(0, 3);
    code.set_plainly(by, code.here());
    code.push(Instruction::Addi(by, 3 + skipped));
    code.push(Instruction::Br(by));
    for _ in 0..skipped {
        code.word(random.word());
    }
    code
}

/// A loop that counts, of so many rounds.
pub fn spin(stage: &Stage, low: u32, high: u32, random: &mut Random) -> Code {
    let mut code = fresh(stage);
    code.set_plainly(3, random.below(1000));
    let end = code.get(3).wrapping_add(random.between(low, high));
    code.set_plainly(4, end);
    code.set_plainly(5, 0);
    code.set_plainly(6, code.here() + 1);
    code.push(Instruction::Addi(3, 1));
    code.push(Instruction::Add(5, 3));
    code.push(Instruction::Cmp(3, 4));
    code.push(Instruction::Bne(6));
    code
}

/// A loop of calls of so many rounds: R0 and R1 are given anew in each.
pub fn call_loop(stage: &Stage, call: Call, r1: u32, rounds: u32) -> Code {
    let mut code = fresh(stage);
    code.set_plainly(3, call.number());
    code.set_plainly(4, r1);
    code.set_plainly(5, 0);
    code.set_plainly(6, rounds);
    code.set_plainly(7, code.here() + 1);
    code.push(Instruction::Mov(0, 3));
    code.push(Instruction::Mov(1, 4));
    code.push(Instruction::Hvc);
    code.push(Instruction::Addi(5, 1));
    code.push(Instruction::Cmp(5, 6));
    code.push(Instruction::Bne(7));
    code
}

/// Puts something that would not be seen otherwise into R2, which the bench shows at the next call: a register or a word.
pub fn show(stage: &Stage, code: &mut Code, random: &mut Random) {
    let page = usable_page(stage, Use::Load, random);
    match page.and_then(|page| stage.data_address(page, random)) {
        Some(address) if random.one_in(2) => code.load(random, 2, address, stage.memory[address as usize]),
        _ => code.push(Instruction::Mov(2, random.choose(SCRATCH))),
    }
}

/// A page that the current guest may use so; pages in transactions more often than others.
pub fn usable_page(stage: &Stage, how: Use, random: &mut Random) -> Option<PageId> {
    let vm = stage.machine.current;
    let all: Vec<PageId> = pages(&stage.machine)
        .filter(|&page| standing(&stage.machine, vm, page).allows(how))
        .collect();
    let plain = |&page: &PageId| {
        let standing = standing(&stage.machine, vm, page);
        standing == Standing::Own || standing == Standing::OwnTx
    };
    let special: Vec<PageId> = all.iter().copied().filter(|page| !plain(page)).collect();
    if special.is_empty() || random.one_in(3) {
        random.pick(&all)
    } else {
        random.pick(&special)
    }
}

/// A load from any page that the guest may read, into any register.
fn load(stage: &Stage, random: &mut Random) -> Option<Code> {
    let mut code = fresh(stage);
    for _ in 0..random.between(1, 3) {
        let page = usable_page(stage, Use::Load, random)?;
        let address = stage.data_address(page, random)?;
        let word = stage.memory[address as usize];
        let d = random.below(8) as u8;
        code.load(random, d, address, word);
    }
    Some(code)
}

/// A store to any page that the guest may write.
fn store(stage: &Stage, random: &mut Random) -> Option<Code> {
    let mut code = fresh(stage);
    for _ in 0..random.between(1, 3) {
        let page = usable_page(stage, Use::Store, random)?;
        let address = stage.data_address(page, random)?;
        let word = trial_word(random);
        code.store(random, address, word);
    }
    Some(code)
}

/// Adds up the data of a page and shows the sum in R2 of a call that leaves it.
fn digest(stage: &Stage, random: &mut Random) -> Option<Code> {
    let page = usable_page(stage, Use::Load, random)?;
    let (start, end) = stage.data_range(page)?;
    let mut code = fresh(stage);
    code.set_plainly(2, 0);
    code.set_plainly(4, start);
    code.set_plainly(5, end);
    code.set_plainly(6, code.here() + 1);
    code.push(Instruction::Ldr(3, 4));
    if random.one_in(2) {
        code.push(Instruction::Add(2, 2));
    }
    code.push(Instruction::Add(2, 3));
    code.push(Instruction::Addi(4, 1));
    code.push(Instruction::Cmp(4, 5));
    code.push(Instruction::Bne(6));
    code.set_plainly(0, Call::Yield.number());
    code.push(Instruction::Hvc);
    Some(code)
}

/// Whether the current guest can store into the page that it stands on.
fn home_is_writable(stage: &Stage) -> bool {
    let vm = stage.machine.current;
    stage
        .home()
        .is_some_and(|page| standing(&stage.machine, vm, page).allows(Use::Store))
}

/// A loop of two rounds whose first word is another instruction in the second round.
fn patch(stage: &Stage, random: &mut Random) -> Option<Code> {
    if !home_is_writable(stage) {
        return None;
    }
    let mut code = fresh(stage);
    let other = word_of(Instruction::Addi(2, random.below(0x1_0000)));
    code.set_plainly(3, 0);
    code.set_plainly(4, 2);
    code.set_plainly(5, other);
    code.set_plainly(6, code.here() + 1);
    code.push(random.choose([Instruction::Mov(2, 4), Instruction::Movi(1, 7), Instruction::Sub(2, 5)]));
    code.push(Instruction::Str(5, 6));
    code.push(Instruction::Addi(3, 1));
    code.push(Instruction::Cmp(3, 4));
    code.push(Instruction::Bne(6));
    Some(code)
}

/// Stores an instruction and a branch back into the data of a page, and goes there.
fn stored_code(stage: &Stage, random: &mut Random) -> Option<Code> {
    let vm = stage.machine.current;
    let page = usable_page(stage, Use::Store, random)?;
    let address = stage.data_address(page, random)?;
    if !stage.keeps_for_data(address + 1) || !standing(&stage.machine, vm, page).allows(Use::Fetch) {
        return None;
    }
    let mut code = fresh(stage);
    let k = random.below(0x1_0000);
    code.store(random, address, word_of(Instruction::Addi(2, k)));
    code.store(random, address + 1, word_of(Instruction::Br(7)));
    visit(&mut code, address);
    Some(code)
}

/// Goes to a row of code that ends with br R7, and comes back to the next word.
fn visit(code: &mut Code, address: u32) {
    code.set_plainly(6, address);
    code.set_plainly(7, code.here() + 2);
    code.push(Instruction::Br(6));
}

/// Executes a row of code that comes back by R7, where the guest finds one among data: in a message or stored by somebody.
fn execute_found(stage: &Stage, random: &mut Random) -> Option<Code> {
    let vm = stage.machine.current;
    let comes_back = |address: &u32| {
        let at = *address as usize;
        let row = [stage.memory[at], stage.memory[at + 1]].map(decode);
        matches!(row, [Some(Instruction::Addi(2, _)), Some(Instruction::Br(7))])
    };
    let found: Vec<u32> = pages(&stage.machine)
        .filter(|&page| standing(&stage.machine, vm, page).allows(Use::Fetch))
        .flat_map(|page| page.base() as u32..page.base() as u32 + PAGE_WORDS as u32 - 1)
        .filter(|&address| stage.keeps_for_data(address))
        .filter(comes_back)
        .collect();
    let mut code = fresh(stage);
    visit(&mut code, random.pick(&found)?);
    Some(code)
}
