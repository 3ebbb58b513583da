//! One step of the reference, compared with what the oracle says of its call or fault.

use super::oracle::{flaws_of, outcome_of, Found, Outcome, DESCRIPTOR_WORDS};
use super::standing::{may, Use};
use crate::instructions::{decode, Instruction};
use crate::machine::Machine;
use crate::step::{advance, Did};

/// What a step was.
#[derive(Clone, Debug)]
pub struct Stepped {
    pub did: Did,
    /// All that was wrong with the call, if it was one.
    pub flaws: Vec<Found>,
}

/// The word at the current guest's pc as an instruction, if the guest may fetch it and it is one.
pub fn next_instruction(machine: &Machine, memory: &[u32]) -> Option<Instruction> {
    let vm = machine.current;
    let pc = machine.guest(vm).registers.pc;
    if !may(machine, vm, pc, Use::Fetch) {
        return None;
    }
    decode(memory[pc as usize])
}

/// Whether a step with this instruction must fault.
fn must_fault(machine: &Machine, instruction: Option<Instruction>) -> bool {
    let vm = machine.current;
    let registers = machine.guest(vm).registers;
    match instruction {
        None => true,
        Some(Instruction::Ldr(_, s)) => !may(machine, vm, registers.get(s), Use::Load),
        Some(Instruction::Str(_, s)) => !may(machine, vm, registers.get(s), Use::Store),
        Some(_) => false,
    }
}

/// One step, or what it did that it should not have done.
pub fn checked_step(machine: &mut Machine, memory: &mut [u32]) -> Result<Stepped, String> {
    let instruction = next_instruction(machine, memory);
    let fault = must_fault(machine, instruction);
    let mut flaws = Vec::new();
    let mut due = None;
    if instruction == Some(Instruction::Hvc) {
        let tx = machine.guest(machine.current).tx.base();
        flaws = flaws_of(machine, &memory[tx..tx + DESCRIPTOR_WORDS]);
        due = Some(outcome_of(machine, &flaws));
    }
    let did = advance(machine, memory);
    if fault != matches!(did, Did::Faulted(_)) {
        return Err(format!("{did:?}, but a fault was due: {fault}"));
    }
    let is = Outcome::of(machine);
    match due {
        Some(due) if due != is => Err(format!("a call with {flaws:?} left {is:?} and not {due:?}")),
        _ => Ok(Stepped { did, flaws }),
    }
}
