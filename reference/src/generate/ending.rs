//! How a program ends, and the acts that make it fault.

use super::code::Code;
use super::plain::fresh;
use super::random::Random;
use super::stage::Stage;
use super::standing::{pages_standing, Standing, Use};
use crate::instructions::Instruction;

/// Why a word is no instruction.
#[derive(Clone, Copy, Debug, PartialEq, Eq)]
pub enum BadWord {
    CodeZero,
    CodeAbove13,
    RegisterD,
    RegisterS,
    FieldNotZero,
}

impl BadWord {
    /// Every reason.
    pub const ALL: [BadWord; 5] = [
        BadWord::CodeZero,
        BadWord::CodeAbove13,
        BadWord::RegisterD,
        BadWord::RegisterS,
        BadWord::FieldNotZero,
    ];

    /// Why a word is none that is known to be none.
    pub fn of(word: u32) -> BadWord {
        match (word & 0xFF, word >> 8 & 15, word >> 12 & 15) {
            (0, ..) => BadWord::CodeZero,
            (14.., ..) => BadWord::CodeAbove13,
            (_, 8.., _) => BadWord::RegisterD,
            (_, _, 8..) => BadWord::RegisterS,
            _ => BadWord::FieldNotZero,
        }
    }

    /// A word that is none for this reason.
    fn word(self, random: &mut Random) -> u32 {
        match self {
            BadWord::CodeZero => random.choose([0, 0x100, 0xFFFF_FF00]),
            BadWord::CodeAbove13 => random.choose([14, 15, 16, 0x8C, 0xFF, u32::MAX]),
            BadWord::RegisterD => random.choose([0x801, 0x0001_0F02, 0x1803, 0x0909, 0x080B, 0x080D]),
            BadWord::RegisterS => random.choose([0x8003, 0xF104, 0x9205, 0x800A, 0xF00B, 0x800C]),
            BadWord::FieldNotZero => random.choose([
                0x1001,
                0x7002,
                0x0001_2103,
                0x8000_1206,
                0x10A,
                0x70B,
                0x10C,
                0x1_000D,
                0x100D,
            ]),
        }
    }
}

/// Why a word is out of a guest's reach.
#[derive(Clone, Copy, Debug, PartialEq, Eq)]
pub enum Barrier {
    Outside,
    Page(Standing),
}

/// Why a program faults.
#[derive(Clone, Copy, Debug, PartialEq, Eq)]
pub enum Cause {
    Word(BadWord),
    Reach(Use, Barrier),
}

/// How a program ends.
#[derive(Clone, Copy, Debug, PartialEq, Eq)]
pub enum Ending {
    Halt,
    Fault(Cause),
    /// The budget is spent before the program's end.
    Cut,
    /// There is no budget.
    Zero,
}

impl Ending {
    /// Whether the ending needs transactions or several pages beside the mailboxes, so that it must be taken when it offers itself.
    pub fn is_rare(self) -> bool {
        let Ending::Fault(Cause::Reach(_, Barrier::Page(standing))) = self else {
            return false;
        };
        !matches!(standing, Standing::OwnTx | Standing::OwnRx | Standing::OtherMailbox)
    }
}

/// Every cause of a fault.
pub fn causes() -> Vec<Cause> {
    let mut causes: Vec<Cause> = BadWord::ALL.into_iter().map(Cause::Word).collect();
    for how in Use::ALL {
        causes.push(Cause::Reach(how, Barrier::Outside));
        let barred = Standing::ALL.into_iter().filter(|standing| !standing.allows(how));
        causes.extend(barred.map(|standing| Cause::Reach(how, Barrier::Page(standing))));
    }
    causes
}

/// Every ending, those that are easily reached more than once.
pub fn endings() -> Vec<Ending> {
    let mut endings: Vec<Ending> = causes().into_iter().map(Ending::Fault).collect();
    for place in [0, 8, 16, 24] {
        endings.insert(place, Ending::Halt);
        endings.insert(place + 3, Ending::Cut);
    }
    endings.push(Ending::Zero);
    endings
}

/// The act that ends the program by this fault, if the present state has it.
pub fn fault_act(stage: &Stage, cause: Cause, random: &mut Random) -> Option<Code> {
    let mut code = fresh(stage);
    match cause {
        Cause::Word(bad) => code.word(bad.word(random)),
        Cause::Reach(how, barrier) => {
            let address = barred_address(stage, barrier, random)?;
            let by = random.choose([3, 4, 5]);
            code.set(random, by, address);
            code.push(match how {
                Use::Fetch => Instruction::Br(by),
                Use::Load => Instruction::Ldr(random.below(8) as u8, by),
                Use::Store => Instruction::Str(random.below(8) as u8, by),
            });
        }
    }
    Some(code)
}

/// An address behind this barrier: the first or last word of a page, or any.
fn barred_address(stage: &Stage, barrier: Barrier, random: &mut Random) -> Option<u32> {
    let machine = &stage.machine;
    match barrier {
        Barrier::Outside => {
            let end = u32::from(machine.m) * 1024;
            Some(random.choose([
                end,
                end + 1,
                0x1_0000,
                0x1_0000 + end / 2,
                1 << 31,
                u32::MAX,
                0xFFFF_FC00,
            ]))
        }
        Barrier::Page(standing) => {
            let page = random.pick(&pages_standing(machine, machine.current, standing))?;
            let inside = random.below(1024);
            Some(page.base() as u32 + random.choose([0, 1023, inside]))
        }
    }
}
