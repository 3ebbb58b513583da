//! A run of a generated machine is as many steps, and can be cut in two.

mod generated_help;

use generated_help::machines;
use reference::generate::Class;
use reference::{run, step, Answer, Mode};

/// Classes whose images are good.
const GOOD: [Class; 5] = [
    Class::Program,
    Class::Loops,
    Class::RandomWords,
    Class::RandomInstructions,
    Class::ChangedProgram,
];

#[test]
fn a_run_is_as_many_steps() {
    for ready in machines(21, 160, &GOOD) {
        let budget = ready.budget.min(3000);
        let (mut machine, mut memory) = (ready.machine.clone(), ready.memory.clone());
        let mut steps = 0;
        while steps < budget && machine.mode == Mode::Normal {
            assert_eq!(step(&mut machine, &mut memory), Answer::Done);
            steps += 1;
        }
        let (mut other, mut other_memory) = (ready.machine, ready.memory);
        assert_eq!(run(&mut other, &mut other_memory, budget), (Answer::Done, steps));
        assert_eq!((machine, memory), (other, other_memory));
    }
}

#[test]
fn a_run_in_two_parts_is_one_run() {
    for (number, ready) in (0..).zip(machines(22, 160, &GOOD)) {
        let (mut whole, mut whole_memory) = (ready.machine.clone(), ready.memory.clone());
        let budget = ready.budget.min(70_000);
        let (_, steps) = run(&mut whole, &mut whole_memory, budget);
        for first in [
            0,
            steps.min(1),
            steps / 2,
            steps.saturating_sub(1),
            steps,
            number % (steps + 1),
        ] {
            let (mut machine, mut memory) = (ready.machine.clone(), ready.memory.clone());
            assert_eq!(run(&mut machine, &mut memory, first), (Answer::Done, first));
            let (answer, rest) = run(&mut machine, &mut memory, budget - first);
            assert_eq!((answer, first + rest), (Answer::Done, steps));
            assert_eq!((&machine, &memory), (&whole, &whole_memory));
        }
    }
}

#[test]
fn a_stopped_machine_runs_no_step() {
    let mut stopped = 0;
    for mut ready in machines(23, 64, &[Class::Program]) {
        run(&mut ready.machine, &mut ready.memory, ready.budget);
        let (before, memory) = (ready.machine.clone(), ready.memory.clone());
        if before.mode != Mode::Normal {
            assert_eq!(run(&mut ready.machine, &mut ready.memory, 100), (Answer::Done, 0));
            assert_eq!(step(&mut ready.machine, &mut ready.memory), Answer::Stopped);
            assert_eq!((ready.machine, ready.memory), (before, memory));
            stopped += 1;
        }
    }
    assert!(stopped >= 8, "{stopped} machines stopped");
}
