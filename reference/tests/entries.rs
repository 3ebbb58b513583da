//! The entries' answers, their order, and that a refusal changes nothing.

mod common;

use common::*;
use reference::*;

/// All entries on a copy of the machine with this memory: the answers of check, step, run and call.
/// If an entry refuses, machine and memory must stay.
fn answers(machine: &Machine, memory: &[u32]) -> [Answer; 4] {
    let mut stepped = machine.clone();
    let mut words = memory.to_vec();
    let by_step = step(&mut stepped, &mut words);
    if by_step != Answer::Done {
        assert_eq!(stepped, *machine);
        assert!(words == memory);
    }
    let mut called = machine.clone();
    let mut words = memory.to_vec();
    let by_call = call(&mut called, &mut words);
    if by_call != Answer::Done {
        assert_eq!(called, *machine);
        assert!(words == memory);
    }
    let mut ran = machine.clone();
    let mut words = memory.to_vec();
    let (by_run, steps) = run(&mut ran, &mut words, 5);
    if by_run != Answer::Done {
        assert_eq!(steps, 0);
        assert_eq!(ran, *machine);
        assert!(words == memory);
    }
    [check(machine, memory), by_step, by_run, by_call]
}

/// The case machine with a message for guest 2, and memory without a zero word, so that changes show.
fn with_message() -> (Machine, Vec<u32>) {
    let (mut machine, _) = case_machine();
    machine.guests[2].inbox = Inbox::Full { length: 3, sender: G0 };
    (machine, (1..=10_240).collect())
}

#[test]
fn a_sound_machine_is_done_by_all() {
    let (machine, memory) = with_message();
    assert_eq!(answers(&machine, &memory), [Answer::Done; 4]);
}

#[test]
fn wrong_memory_comes_first() {
    let (mut machine, memory) = with_message();
    for mode in [Mode::Normal, Mode::Halted] {
        machine.mode = mode;
        for length in [0, 9216, 10_239] {
            assert_eq!(answers(&machine, &memory[..length]), [Answer::WrongMemory; 4]);
            assert_eq!(message(&machine, &memory[..length], G2), []);
        }
        let longer = vec![1; 10_241];
        assert_eq!(answers(&machine, &longer), [Answer::WrongMemory; 4]);
        assert_eq!(message(&machine, &longer, G2), []);
    }
    machine.pages[9].exclusive = false;
    assert_eq!(answers(&machine, &memory[1..]), [Answer::WrongMemory; 4]);
}

#[test]
fn an_unsound_machine_comes_before_a_stopped_one() {
    let (mut machine, memory) = with_message();
    machine.pages[9].exclusive = false;
    for mode in [Mode::Normal, Mode::Fault, Mode::Halted] {
        machine.mode = mode;
        assert_eq!(answers(&machine, &memory), [Answer::Unsound; 4]);
        assert_eq!(message(&machine, &memory, G2), []);
    }
}

#[test]
fn only_step_and_call_refuse_a_stopped_machine() {
    let (mut machine, memory) = with_message();
    for mode in [Mode::Fault, Mode::Halted] {
        machine.mode = mode;
        assert_eq!(
            answers(&machine, &memory),
            [Answer::Done, Answer::Stopped, Answer::Done, Answer::Stopped]
        );
    }
}

#[test]
fn a_message_is_that_part_of_the_lent_memory_itself() {
    let (machine, memory) = with_message();
    let part = message(&machine, &memory, G2);
    assert_eq!(part, [8193, 8194, 8195]);
    assert!(std::ptr::eq(part, &memory[8192..8195]));
}

#[test]
fn no_message_for_an_empty_rx_or_a_guest_that_there_is_not() {
    let (machine, memory) = with_message();
    for guest in [0, 1, 3, 7, 8, 255] {
        assert_eq!(message(&machine, &memory, VmId(guest)), []);
    }
}

#[test]
fn loading_tests_the_image_before_the_memory() {
    let broken = two_guests(4, 0, 0);
    let blank = blank();
    assert_eq!(Machine::blank(), blank);
    for length in [0, 1, 4096, 4097] {
        let mut memory = vec![7; length];
        let expected = Loaded {
            answer: Answer::BrokenImage,
            machine: blank.clone(),
            budget: 0,
            offset: 36,
        };
        assert_eq!(load(&broken.0, &mut memory), expected);
        assert_eq!(memory, vec![7; length]);
    }
    let good = broken.words(0, &[5]).budget(9);
    for length in [0, 1, 4095, 4097] {
        let mut memory = vec![7; length];
        let expected = Loaded {
            answer: Answer::WrongMemory,
            machine: blank.clone(),
            budget: 0,
            offset: 0,
        };
        assert_eq!(load(&good.0, &mut memory), expected);
        assert_eq!(memory, vec![7; length]);
    }
}
