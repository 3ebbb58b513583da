//! The entries that take a machine and its lent memory, and test both before they do anything.

use crate::answers::Answer;
use crate::calls;
use crate::machine::{Inbox, Machine, Mode, VmId};
use crate::sound::is_sound;
use crate::step::advance;

/// Whether the memory fits the machine and the machine is sound.
pub fn check(machine: &Machine, memory: &[u32]) -> Answer {
    if memory.len() != machine.memory_words() {
        return Answer::WrongMemory;
    }
    if !is_sound(machine) {
        return Answer::Unsound;
    }
    Answer::Done
}

/// As `check`, and then whether the machine still steps.
fn check_normal(machine: &Machine, memory: &[u32]) -> Answer {
    match check(machine, memory) {
        Answer::Done if machine.mode != Mode::Normal => Answer::Stopped,
        answer => answer,
    }
}

/// One step. A step that faults or halts is done as well.
pub fn step(machine: &mut Machine, memory: &mut [u32]) -> Answer {
    let answer = check_normal(machine, memory);
    if answer == Answer::Done {
        advance(machine, memory);
    }
    answer
}

/// Steps until the budget is spent or the mode leaves normal, and how many steps were taken.
pub fn run(machine: &mut Machine, memory: &mut [u32], budget: u32) -> (Answer, u32) {
    let answer = check(machine, memory);
    if answer != Answer::Done {
        return (answer, 0);
    }
    let mut steps = 0;
    while steps < budget && machine.mode == Mode::Normal {
        advance(machine, memory);
        steps += 1;
    }
    (Answer::Done, steps)
}

/// The current guest's call alone: its pc is neither read nor moved.
pub fn call(machine: &mut Machine, memory: &mut [u32]) -> Answer {
    let answer = check_normal(machine, memory);
    if answer == Answer::Done {
        calls::perform(machine, memory);
    }
    answer
}

/// The message that waits for a guest, as a part of the lent memory itself; empty if none does or all is refused.
pub fn message<'a>(machine: &Machine, memory: &'a [u32], guest: VmId) -> &'a [u32] {
    if check(machine, memory) != Answer::Done || guest.0 >= machine.n {
        return &[];
    }
    let guest = machine.guest(guest);
    match guest.inbox {
        Inbox::Empty => &[],
        Inbox::Full { length, .. } => &memory[guest.rx.base()..][..length as usize],
    }
}
