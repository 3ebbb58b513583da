//! Acts that show whether the equal flag lasts: a comparison, one thing, and a bne that skips an instruction or not.

use super::call::Call;
use super::code::{word_of, Code};
use super::plain::{fresh, usable_page};
use super::random::Random;
use super::stage::Stage;
use super::standing::{may, Use};
use crate::instructions::Instruction;
use crate::machine::{Inbox, VmId, PRIMARY};

/// What stands between the comparison and bne.
#[derive(Clone, Copy, Debug, PartialEq, Eq)]
pub enum Between {
    Movi,
    Movt,
    Mov,
    Ldr,
    Str,
    Add,
    Sub,
    Addi,
    Br,
    Bne,
    Success,
    Error,
    /// A call that makes another guest current; bne comes when control is back.
    Switch,
}

impl Between {
    /// Everything that can stand there; the switch twice, because control need not come back.
    const ALL: [Between; 14] = [
        Between::Movi,
        Between::Movt,
        Between::Mov,
        Between::Ldr,
        Between::Str,
        Between::Add,
        Between::Sub,
        Between::Switch,
        Between::Addi,
        Between::Br,
        Between::Bne,
        Between::Success,
        Between::Error,
        Between::Switch,
    ];
}

/// What the flag is to last over, and whether it is set.
#[derive(Clone, Copy, Debug, PartialEq, Eq)]
pub struct Hold {
    pub over: Between,
    pub equal: bool,
}

/// How many of these acts each program is asked for.
const HOLDS: usize = 3;

/// The acts of the program with this number: all come in turn.
pub fn holds(number: u64) -> Vec<Hold> {
    let both = [true, false];
    let all: Vec<Hold> = Between::ALL
        .into_iter()
        .flat_map(|over| both.map(|equal| Hold { over, equal }))
        .collect();
    (0..HOLDS)
        .map(|place| all[(number as usize * HOLDS + place) % all.len()])
        .collect()
}

/// The code of such an act for the current guest, if the state has it.
pub fn hold_act(stage: &Stage, hold: Hold, random: &mut Random) -> Option<Code> {
    let mut code = fresh(stage);
    let middle = prepare(stage, hold.over, &mut code, random)?;
    let word = random.choose([0, 1, 0xFFFF, 0x8000]);
    code.set_plainly(3, word);
    code.set_plainly(4, if hold.equal { word } else { word ^ 1 });
    // The two branches lead to bne and over the instruction behind it.
    let cmp = code.here() + 2;
    code.set_plainly(6, cmp + 2);
    code.set_plainly(7, cmp + 4);
    code.push(Instruction::Cmp(3, 4));
    code.push(middle);
    code.push(Instruction::Bne(7));
    code.word(word_of(Instruction::Addi(5, 1)));
    Some(code)
}

/// Prepares what the instruction between needs, and gives that instruction.
fn prepare(stage: &Stage, over: Between, code: &mut Code, random: &mut Random) -> Option<Instruction> {
    let k = random.below(0x1_0000);
    let k = random.choose([0, 1, k]);
    Some(match over {
        Between::Movi => Instruction::Movi(2, k),
        Between::Movt => Instruction::Movt(2, k),
        Between::Mov => Instruction::Mov(2, 3),
        Between::Add => Instruction::Add(2, 3),
        Between::Sub => Instruction::Sub(2, random.choose([2, 3])),
        Between::Addi => Instruction::Addi(2, k),
        Between::Br => Instruction::Br(6),
        Between::Bne => Instruction::Bne(6),
        Between::Ldr | Between::Str => {
            let how = if over == Between::Ldr { Use::Load } else { Use::Store };
            let page = usable_page(stage, how, random)?;
            code.set_plainly(5, stage.data_address(page, random)?);
            if how == Use::Load {
                Instruction::Ldr(2, 5)
            } else {
                Instruction::Str(2, 5)
            }
        }
        Between::Success | Between::Error | Between::Switch => {
            let (r0, r1) = call_between(stage, over, random)?;
            code.set_plainly(1, r1);
            code.set_plainly(0, r0);
            Instruction::Hvc
        }
    })
}

/// R0 and R1 of a call that ends like this, if the state has one.
fn call_between(stage: &Stage, over: Between, random: &mut Random) -> Option<(u32, u32)> {
    let machine = &stage.machine;
    let primary = machine.current == PRIMARY;
    let message = machine.guest(machine.current).inbox != Inbox::Empty;
    let able = |vm: &VmId| may(machine, *vm, machine.guest(*vm).registers.pc, Use::Fetch);
    let secondaries: Vec<VmId> = (1..machine.n).map(VmId).filter(able).collect();
    match over {
        Between::Success if message => Some((Call::Poll.number(), 0)),
        Between::Success if primary => Some((Call::Yield.number(), 0)),
        Between::Success => None,
        Between::Switch if primary => Some((Call::Run.number(), u32::from(random.pick(&secondaries)?.0))),
        Between::Switch => Some((Call::Yield.number(), 0)),
        _ if message => Some((random.choose([Call::Run.number(), Call::Retrieve.number(), 0]), 255)),
        _ => Some((random.choose([Call::Run, Call::Poll, Call::Retrieve]).number(), 255)),
    }
}
