//! Single steps: what each instruction changes, when a step faults, and how far a run goes.

mod common;

use common::*;
use reference::*;

/// The case machine with one word at guest 0's pc 5 and these registers of guest 0.
fn at_word(word: u32, r: [u32; 8]) -> (Machine, Vec<u32>) {
    let (mut machine, mut memory) = case_machine();
    machine.guests[0].registers.pc = 5;
    machine.guests[0].registers.r = r;
    memory[5] = word;
    (machine, memory)
}

/// One step of the word: only guest 0's registers may change, and pc must move on by one, with either flag. Gives R0 to R7.
fn after_word(word: u32, r: [u32; 8]) -> [u32; 8] {
    let [clear, set] = [false, true].map(|equal| after_word_with(word, r, equal));
    assert_eq!(clear, set);
    clear
}

/// One step of the word with this flag, which must stay as it is.
fn after_word_with(word: u32, r: [u32; 8], equal: bool) -> [u32; 8] {
    let (mut machine, mut memory) = at_word(word, r);
    machine.guests[0].registers.equal = equal;
    let (mut expected, words) = (machine.clone(), memory.clone());
    assert_eq!(advance(&mut machine, &mut memory), Did::Moved);
    let after = machine.guests[0].registers.r;
    expected.guests[0].registers.r = after;
    expected.guests[0].registers.pc = 6;
    assert_eq!(machine, expected);
    assert!(memory == words);
    after
}

/// One step of the machine: it must fault so, and change nothing but the mode.
fn expect_fault(machine: &mut Machine, memory: &mut [u32], fault: Fault) {
    let (mut expected, words) = (machine.clone(), memory.to_vec());
    expected.mode = Mode::Fault;
    let mut by_step = machine.clone();
    assert_eq!(step(&mut by_step, memory), Answer::Done);
    assert_eq!(by_step, expected);
    assert_eq!(advance(machine, memory), Did::Faulted(fault));
    assert_eq!(*machine, expected);
    assert!(memory == words);
}

#[test]
fn movi_sets_the_whole_register() {
    let r = [9, 0xFFFF_FFFF, 9, 9, 9, 9, 9, 9];
    assert_eq!(after_word(0x8001_0101, r), [9, 0x0000_8001, 9, 9, 9, 9, 9, 9]);
}

#[test]
fn movt_keeps_the_low_half() {
    let r = [9, 9, 9, 9, 9, 9, 9, 0x1234_5678];
    assert_eq!(after_word(0x8400_0702, r), [9, 9, 9, 9, 9, 9, 9, 0x8400_5678]);
}

#[test]
fn mov_add_and_sub_read_s_and_write_d() {
    let r = [10, 3, 0, 0, 0, 0, 0, 0];
    assert_eq!(after_word(0x0000_1003, r), [3, 3, 0, 0, 0, 0, 0, 0]);
    assert_eq!(after_word(0x0000_1006, r), [13, 3, 0, 0, 0, 0, 0, 0]);
    assert_eq!(after_word(0x0000_1007, r), [7, 3, 0, 0, 0, 0, 0, 0]);
    assert_eq!(after_word(0x0000_0107, r), [10, 0xFFFF_FFF9, 0, 0, 0, 0, 0, 0]);
    assert_eq!(after_word(0x0000_0007, r), [0, 3, 0, 0, 0, 0, 0, 0]);
}

#[test]
fn arithmetic_wraps() {
    assert_eq!(
        after_word(0x0000_1006, [0x8000_0000, 0x8000_0001, 0, 0, 0, 0, 0, 0])[0],
        1
    );
    assert_eq!(after_word(0xFFFF_0008, [0xFFFF_FFFF, 0, 0, 0, 0, 0, 0, 0])[0], 0xFFFE);
    assert_eq!(after_word(0x0000_1007, [0, 1, 0, 0, 0, 0, 0, 0])[0], 0xFFFF_FFFF);
}

#[test]
fn cmp_sets_and_clears_the_flag() {
    for (r1, equal) in [(7, true), (8, false)] {
        for flag_before in [false, true] {
            let (mut machine, mut memory) = at_word(0x0000_1009, [7, r1, 0, 0, 0, 0, 0, 0]);
            machine.guests[0].registers.equal = flag_before;
            let mut expected = machine.clone();
            expected.guests[0].registers.equal = equal;
            expected.guests[0].registers.pc = 6;
            assert_eq!(advance(&mut machine, &mut memory), Did::Moved);
            assert_eq!(machine, expected);
        }
    }
}

#[test]
fn bne_branches_if_the_flag_is_clear() {
    for (equal, pc) in [(false, 0xFFFF_FFFF), (true, 6)] {
        let (mut machine, mut memory) = at_word(0x0000_200A, [0, 0, 0xFFFF_FFFF, 0, 0, 0, 0, 0]);
        machine.guests[0].registers.equal = equal;
        let mut expected = machine.clone();
        expected.guests[0].registers.pc = pc;
        assert_eq!(advance(&mut machine, &mut memory), Did::Moved);
        assert_eq!(machine, expected);
    }
}

#[test]
fn br_branches_with_any_flag() {
    for equal in [false, true] {
        let (mut machine, mut memory) = at_word(0x0000_200B, [0, 0, 17, 0, 0, 0, 0, 0]);
        machine.guests[0].registers.equal = equal;
        let mut expected = machine.clone();
        expected.guests[0].registers.pc = 17;
        assert_eq!(advance(&mut machine, &mut memory), Did::Moved);
        assert_eq!(machine, expected);
    }
}

#[test]
fn ldr_reads_the_word_at_rs() {
    let (mut machine, mut memory) = at_word(0x0000_1004, [0, 1023, 0, 0, 0, 0, 0, 0]);
    memory[1023] = 0xABCD_0123;
    assert_eq!(step(&mut machine, &mut memory), Answer::Done);
    assert_eq!(machine.guests[0].registers.r, [0xABCD_0123, 1023, 0, 0, 0, 0, 0, 0]);
    assert_eq!(machine.guests[0].registers.pc, 6);
}

#[test]
fn str_writes_rd_at_rs() {
    let (mut machine, mut memory) = at_word(0x0000_1005, [0xABCD_0123, 1023, 0, 0, 0, 0, 0, 0]);
    let (mut expected, mut words) = (machine.clone(), memory.clone());
    expected.guests[0].registers.pc = 6;
    words[1023] = 0xABCD_0123;
    assert_eq!(advance(&mut machine, &mut memory), Did::Moved);
    assert_eq!(machine, expected);
    assert!(memory == words);
}

#[test]
fn a_fetch_needs_an_instruction_in_reach() {
    let (machine, mut memory) = case_machine();
    let at = |pc| {
        let mut machine = machine.clone();
        machine.guests[0].registers.pc = pc;
        machine
    };
    expect_fault(&mut at(0), &mut memory, Fault::NotAnInstruction);
    for pc in [10_240, 65_536, 0x4000_0000, 0xFFFF_FFFF] {
        expect_fault(&mut at(pc), &mut memory, Fault::Fetch(Miss::Outside));
    }
    // Pages of guest 1, mailboxes of others, and the last word of guest 1's page 9.
    memory.fill(0x0000_000D);
    for pc in [1024, 2047, 5120, 6144, 9216, 10_239] {
        expect_fault(&mut at(pc), &mut memory, Fault::Fetch(Miss::NoAccess));
    }
    for pc in [3072, 4095] {
        expect_fault(&mut at(pc), &mut memory, Fault::Fetch(Miss::OwnMailbox));
    }
    for pc in [0, 1023, 4096, 5119] {
        assert_eq!(advance(&mut at(pc), &mut memory), Did::Halted, "{pc}");
    }
}

#[test]
fn a_load_misses_what_is_outside_foreign_or_the_own_tx_page() {
    let load_from = |address| at_word(0x0000_1004, [0, address, 0, 0, 0, 0, 0, 0]);
    let misses = [
        (10_240, Miss::Outside),
        (0xFFFF_FFFF, Miss::Outside),
        (1024, Miss::NoAccess),
        (7168, Miss::NoAccess),
        (3072, Miss::OwnMailbox),
        (4095, Miss::OwnMailbox),
    ];
    for (address, miss) in misses {
        let (mut machine, mut memory) = load_from(address);
        expect_fault(&mut machine, &mut memory, Fault::Load(miss));
    }
    let (mut machine, mut memory) = load_from(4096);
    assert_eq!(advance(&mut machine, &mut memory), Did::Moved);
}

#[test]
fn a_store_misses_what_is_outside_foreign_or_the_own_rx_page() {
    let store_to = |address| at_word(0x0000_1005, [1, address, 0, 0, 0, 0, 0, 0]);
    let misses = [
        (10_240, Miss::Outside),
        (0xFFFF_FFFF, Miss::Outside),
        (1024, Miss::NoAccess),
        (7168, Miss::NoAccess),
        (4096, Miss::OwnMailbox),
        (5119, Miss::OwnMailbox),
    ];
    for (address, miss) in misses {
        let (mut machine, mut memory) = store_to(address);
        expect_fault(&mut machine, &mut memory, Fault::Store(miss));
    }
    let (mut machine, mut memory) = store_to(4095);
    assert_eq!(advance(&mut machine, &mut memory), Did::Moved);
    assert_eq!(memory[4095], 1);
}

#[test]
fn a_shared_page_is_in_reach_of_both_and_a_lent_one_of_the_receiver() {
    for (number, sender_reaches) in [(SHARE, true), (LEND, false)] {
        let (mut machine, mut memory) = case_machine();
        open(&mut machine, &mut memory, G1, number, 2, &[9216]);
        make_call(&mut machine, &mut memory, G2, [RETRIEVE, 0, 0]);
        memory[9216] = 0x0000_000D;
        for (vm, reaches) in [(G1, sender_reaches), (G2, true), (G0, false)] {
            let mut machine = machine.clone();
            machine.current = vm;
            machine.guests[usize::from(vm.0)].registers.pc = 9216;
            let did = advance(&mut machine, &mut memory);
            let miss = Did::Faulted(Fault::Fetch(Miss::NoAccess));
            assert_eq!(did, if reaches { Did::Halted } else { miss }, "{vm:?}");
        }
    }
}

#[test]
fn a_foreign_page_that_became_own_is_in_reach() {
    let (mut machine, mut memory) = case_machine();
    open(&mut machine, &mut memory, G1, DONATE, 2, &[9216]);
    make_call(&mut machine, &mut memory, G2, [RETRIEVE, 0, 0]);
    memory[10_239] = 0x0000_000D;
    machine.guests[2].registers.pc = 10_239;
    assert_eq!(advance(&mut machine, &mut memory), Did::Halted);
}

#[test]
fn hvc_moves_the_callers_pc_whatever_the_call_answers() {
    // Guest 0 runs guest 1: the caller's pc moves, the other's does not.
    let (mut machine, mut memory) = at_word(0x0000_000C, [RUN, 1, 0, 0, 0, 0, 0, 0]);
    machine.guests[1].registers.pc = 1030;
    assert_eq!(advance(&mut machine, &mut memory), Did::Called);
    assert_eq!(machine.current, G1);
    assert_eq!(machine.guests[0].registers.pc, 6);
    assert_eq!(machine.guests[1].registers.pc, 1030);
    // Guest 1 yields back.
    memory[1030] = 0x0000_000C;
    machine.guests[1].registers.r[0] = YIELD;
    assert_eq!(advance(&mut machine, &mut memory), Did::Called);
    assert_eq!(machine.current, G0);
    assert_eq!(machine.guests[0].registers.pc, 6);
    assert_eq!(machine.guests[1].registers.pc, 1031);
    // An error moves it too.
    let (mut machine, mut memory) = at_word(0x0000_000C, [0, 0, 0, 0, 0, 0, 0, 0]);
    assert_eq!(step(&mut machine, &mut memory), Answer::Done);
    assert_eq!(machine.guests[0].registers.r, [ERROR, 0, NOT_SUPPORTED, 0, 0, 0, 0, 0]);
    assert_eq!(machine.guests[0].registers.pc, 6);
}

#[test]
fn halt_changes_the_mode_alone() {
    let (mut machine, mut memory) = at_word(0x0000_000D, [1; 8]);
    let (mut expected, words) = (machine.clone(), memory.clone());
    expected.mode = Mode::Halted;
    assert_eq!(advance(&mut machine, &mut memory), Did::Halted);
    assert_eq!(machine, expected);
    assert!(memory == words);
}

/// The case machine whose guest 0 adds 1 to R0 six times and then halts.
fn seven_steps() -> (Machine, Vec<u32>) {
    let (machine, mut memory) = case_machine();
    memory[..6].fill(0x0001_0008);
    memory[6] = 0x0000_000D;
    (machine, memory)
}

#[test]
fn a_run_stops_at_its_budget_or_with_the_step_that_halts() {
    let expected = [
        (0, 0, Mode::Normal),
        (3, 3, Mode::Normal),
        (6, 6, Mode::Normal),
        (7, 7, Mode::Halted),
    ];
    let beyond = [(8, 7, Mode::Halted), (u32::MAX, 7, Mode::Halted)];
    for (budget, steps, mode) in expected.into_iter().chain(beyond) {
        let (mut machine, mut memory) = seven_steps();
        assert_eq!(run(&mut machine, &mut memory, budget), (Answer::Done, steps));
        assert_eq!(machine.mode, mode);
        assert_eq!(machine.guests[0].registers.r[0], steps.min(6));
        assert_eq!(machine.guests[0].registers.pc, steps.min(6));
    }
}

#[test]
fn a_run_counts_the_step_that_faults() {
    let (mut machine, mut memory) = seven_steps();
    memory[4] = 0;
    assert_eq!(run(&mut machine, &mut memory, 100), (Answer::Done, 5));
    assert_eq!(machine.mode, Mode::Fault);
    assert_eq!(machine.guests[0].registers.pc, 4);
}

#[test]
fn a_run_is_its_steps() {
    let (mut machine, mut memory) = seven_steps();
    let (mut stepped, mut stepped_memory) = seven_steps();
    for _ in 0..5 {
        assert_eq!(step(&mut stepped, &mut stepped_memory), Answer::Done);
    }
    assert_eq!(run(&mut machine, &mut memory, 2), (Answer::Done, 2));
    assert_eq!(run(&mut machine, &mut memory, 3), (Answer::Done, 3));
    assert_eq!(machine, stepped);
    assert_eq!(memory, stepped_memory);
}

#[test]
fn a_run_on_a_stopped_machine_takes_0_steps() {
    for mode in [Mode::Fault, Mode::Halted] {
        let (mut machine, mut memory) = seven_steps();
        machine.mode = mode;
        let (before, words) = (machine.clone(), memory.clone());
        assert_eq!(run(&mut machine, &mut memory, 9), (Answer::Done, 0));
        assert_eq!(machine, before);
        assert_eq!(memory, words);
    }
}

#[test]
fn a_guest_that_leaves_the_last_page_faults_outside() {
    // Guest 1 owns page 9; its last word is an addition.
    let (mut machine, mut memory) = case_machine();
    machine.current = G1;
    machine.guests[1].registers.pc = 10_239;
    memory[10_239] = 0x0001_0008;
    assert_eq!(advance(&mut machine, &mut memory), Did::Moved);
    expect_fault(&mut machine, &mut memory, Fault::Fetch(Miss::Outside));
}
