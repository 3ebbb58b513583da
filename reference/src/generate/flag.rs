//! What the equal flag of a guest lasted over, where its bne shows that it did.

use super::call::FAILURE;
use super::counts::Tally;
use crate::instructions::Instruction;
use crate::machine::{Machine, VmId, GUESTS};

/// What happened since a guest's last comparison.
#[derive(Clone, Debug, Default)]
struct Since {
    /// The first two things that the guest did, if it ever compared.
    over: Option<Vec<&'static str>>,
    /// What the last comparison of another guest found since then.
    foreign: Option<bool>,
}

/// The flags of all guests.
#[derive(Clone, Debug, Default)]
pub struct Flags {
    since: [Since; GUESTS],
    /// What is met as soon as a number of steps is printed.
    hidden: Vec<String>,
}

impl Flags {
    /// Follows an instruction that is about to be executed, but for hvc.
    pub fn before(&mut self, machine: &Machine, instruction: Instruction) {
        let vm = machine.current;
        let registers = machine.guest(vm).registers;
        let name = match instruction {
            Instruction::Cmp(d, s) => return self.compared(vm, registers.get(d) == registers.get(s)),
            Instruction::Movi(..) => "movi",
            Instruction::Movt(..) => "movt",
            Instruction::Mov(..) => "mov",
            Instruction::Ldr(..) => "ldr",
            Instruction::Str(..) => "str",
            Instruction::Add(..) => "add",
            Instruction::Sub(..) => "sub",
            Instruction::Addi(..) => "addi",
            Instruction::Br(_) => "br",
            Instruction::Bne(s) => {
                // A branch to the next word anyway shows nothing.
                if registers.get(s) != registers.pc.wrapping_add(1) {
                    self.tested(vm, registers.equal);
                }
                "bne"
            }
            Instruction::Hvc | Instruction::Halt => return,
        };
        self.did(vm, name);
    }

    /// Follows a call that was made.
    pub fn called(&mut self, before: &Machine, after: &Machine) {
        let caller = before.current;
        let failed = after.guest(caller).registers.get(0) == FAILURE;
        self.did(
            caller,
            match failed {
                true => "call with error",
                false if after.current != caller => "a switch",
                false => "call with success",
            },
        );
    }

    /// Counts what the number of steps, which is printed now, has shown.
    pub fn shown(&mut self, tally: &mut Tally) {
        for label in self.hidden.drain(..) {
            tally.meet(&label);
        }
    }

    /// A guest compared.
    fn compared(&mut self, vm: VmId, equal: bool) {
        for since in &mut self.since {
            since.foreign = Some(equal);
        }
        self.since[usize::from(vm.0)] = Since {
            over: Some(Vec::new()),
            foreign: None,
        };
    }

    /// A guest did something that must leave its flag.
    fn did(&mut self, vm: VmId, name: &'static str) {
        if let Some(over) = &mut self.since[usize::from(vm.0)].over {
            if over.len() < 2 {
                over.push(name);
            }
        }
    }

    /// A guest's bne looked at its flag: if it did one thing only since the comparison, that thing left the flag.
    fn tested(&mut self, vm: VmId, equal: bool) {
        let since = &self.since[usize::from(vm.0)];
        let Some([name]) = since.over.as_deref() else {
            return;
        };
        let flag = if equal { "set" } else { "clear" };
        self.hidden.push(format!("flag {flag} kept over {name}"));
        if *name == "a switch" && since.foreign == Some(!equal) {
            self.hidden.push(format!("flag {flag} kept over another guest's cmp"));
        }
    }
}
