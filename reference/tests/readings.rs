//! One test for each reading of the scope document that can be seen from outside, named by what it says.
//!
//! Where another file tests the same thing closely, the test here is its shortest form.

mod common;

use common::*;
use reference::*;

/// One step of guest 0 of the case machine with this word at its pc 0 and these registers.
fn stepped(word: u32, r: [u32; 8]) -> Machine {
    let (mut machine, mut memory) = case_machine();
    machine.guests[0].registers.r = r;
    memory[0] = word;
    assert_eq!(step(&mut machine, &mut memory), Answer::Done);
    machine
}

#[test]
fn numbers_are_judged_whole_before_they_are_narrowed() {
    let (mut machine, mut memory) = case_machine();
    expect_error(&mut machine, &mut memory, G0, [RUN, 257, 0], INVALID);
    expect_error(&mut machine, &mut memory, G1, [SEND, 256, 1], INVALID);
    open(&mut machine, &mut memory, G1, SHARE, 2, &[9216]);
    expect_error(&mut machine, &mut memory, G2, [RETRIEVE, 256, 0], INVALID);
    for bad in [
        Image::new().counts(2, 4).guest(256, 0, 1, 0),
        Image::new().counts(2, 4).guest(0, 256, 1, 0),
        Image::new().counts(2, 4).guest(0, 0, 257, 0),
        Image::new().counts(2, 4).owner(256, 0),
        Image::new().counts(2, 4).owner(0, 256),
    ] {
        assert_eq!(judge(&bad.0).map_err(|broken| broken.offset), Err(8));
    }
}

#[test]
fn answer_1_is_about_m_in_range_or_not() {
    let blank = Machine::blank();
    assert_eq!(check(&blank, &[]), Answer::Unsound);
    assert_eq!(check(&blank, &[0]), Answer::WrongMemory);
    assert_eq!(check(&blank, &[0; 1024]), Answer::WrongMemory);
    let memory = vec![0; 255 * 1024];
    for m in [65u8, 255] {
        let machine = plain(2, m);
        let length = 1024 * usize::from(m);
        assert_eq!(check(&machine, &memory[..length]), Answer::Unsound);
        assert_eq!(check(&machine, &memory[..length - 1]), Answer::WrongMemory);
    }
}

#[test]
fn check_and_message_ignore_the_mode() {
    let (mut machine, mut memory) = case_machine();
    machine.guests[1].inbox = Inbox::Full { length: 2, sender: G0 };
    memory[6144] = 5;
    for mode in [Mode::Normal, Mode::Fault, Mode::Halted] {
        machine.mode = mode;
        assert_eq!(check(&machine, &memory), Answer::Done);
        assert_eq!(message(&machine, &memory, G1), [5, 0]);
    }
}

#[test]
fn a_step_that_faults_or_halts_answers_0() {
    assert_eq!(stepped(0x0000_0000, [0; 8]).mode, Mode::Fault);
    assert_eq!(stepped(0x0000_000D, [0; 8]).mode, Mode::Halted);
}

#[test]
fn a_call_reads_no_pc_and_never_faults() {
    for pc in [0, 3072, 1024, 0xFFFF_FFFF] {
        let (mut machine, mut memory) = case_machine();
        machine.guests[0].registers.pc = pc;
        assert_eq!(make_call(&mut machine, &mut memory, G0, [YIELD, 0, 0]), [SUCCESS, 0, 0]);
        assert_eq!(machine.mode, Mode::Normal);
        assert_eq!(machine.guests[0].registers.pc, pc);
    }
}

#[test]
fn a_run_tests_1_and_2_before_the_mode_and_the_budget() {
    let (mut machine, mut memory) = case_machine();
    machine.mode = Mode::Halted;
    assert_eq!(run(&mut machine, &mut memory, 0), (Answer::Done, 0));
    assert_eq!(run(&mut machine, &mut memory[1..], 0), (Answer::WrongMemory, 0));
    machine.current = VmId(3);
    assert_eq!(run(&mut machine, &mut memory, 0), (Answer::Unsound, 0));
}

#[test]
fn rd_is_the_first_operand_and_the_result() {
    let r = [50, 8, 0, 0, 0, 0, 0, 0];
    assert_eq!(stepped(0x0000_1003, r).guests[0].registers.r[..2], [8, 8]);
    assert_eq!(stepped(0x0000_1006, r).guests[0].registers.r[..2], [58, 8]);
    assert_eq!(stepped(0x0000_1007, r).guests[0].registers.r[..2], [42, 8]);
    assert_eq!(stepped(0x0000_100B, r).guests[0].registers.pc, 8);
}

#[test]
fn addi_has_no_sign() {
    assert_eq!(
        stepped(0xFFFF_0008, [1, 0, 0, 0, 0, 0, 0, 0]).guests[0].registers.r[0],
        65_536
    );
}

#[test]
fn pc_stays_on_a_halt_and_on_a_fault() {
    for word in [0x0000_000D, 0x0000_0000, 0x0000_1004, 0x0000_1005] {
        // The two last ones load from and store to page 1, which is guest 1's.
        let machine = stepped(word, [0, 1024, 0, 0, 0, 0, 0, 0]);
        assert_ne!(machine.mode, Mode::Normal);
        assert_eq!(machine.guests[0].registers.pc, 0);
        assert_eq!(machine.guests[0].registers.r, [0, 1024, 0, 0, 0, 0, 0, 0]);
    }
}

#[test]
fn a_guest_may_fetch_from_its_rx_page_and_store_to_its_tx_page() {
    let (mut machine, mut memory) = case_machine();
    machine.guests[0].registers.pc = 4096;
    machine.guests[0].registers.r = [99, 3072, 0, 0, 0, 0, 0, 0];
    memory[4096] = 0x0000_1005;
    assert_eq!(advance(&mut machine, &mut memory), Did::Moved);
    assert_eq!(memory[3072], 99);
    assert_eq!(machine.guests[0].registers.pc, 4097);
}

#[test]
fn registers_and_descriptor_fields_are_whole() {
    let (mut machine, mut memory) = case_machine();
    expect_error(&mut machine, &mut memory, G0, [0x0000_006C, 0, 0], NOT_SUPPORTED);
    expect_error(&mut machine, &mut memory, G1, [SEND, 0x1_0000, 1], INVALID);
    expect_error(&mut machine, &mut memory, G1, [SEND, 0, 0x1_0001], INVALID);
    for (r1, words) in [
        (0x1_0003, [0x1_0003, 0x0002_0003, 9216]),
        (3, [0x1_0003, 0x0002_0003, 9216]),
        (3, [3, 0x0002_0103, 9216]),
        (3, [3, 0x0102_0003, 9216]),
    ] {
        write_tx(&machine, &mut memory, G1, &words);
        expect_error(&mut machine, &mut memory, G1, [SHARE, r1, 0], INVALID);
    }
}

#[test]
fn success_without_a_rule_of_its_own_is_r0_alone() {
    let (mut machine, mut memory) = case_machine();
    for (vm, number) in [(G0, YIELD), (G1, YIELD), (G2, WAIT)] {
        assert_eq!(
            make_call(&mut machine, &mut memory, vm, [number, 31, 32]),
            [SUCCESS, 31, 32]
        );
    }
    assert_eq!(
        make_call(&mut machine, &mut memory, G0, [SEND, 1, 32]),
        [SUCCESS, 1, 32]
    );
    open(&mut machine, &mut memory, G1, LEND, 2, &[9216]);
    for (vm, number) in [(G2, RETRIEVE), (G2, RELINQUISH), (G1, RECLAIM)] {
        assert_eq!(
            make_call(&mut machine, &mut memory, vm, [number, 0, 32]),
            [SUCCESS, 0, 32]
        );
    }
}

#[test]
fn a_successful_run_changes_no_register_and_a_failed_one_is_an_error() {
    let (mut machine, mut memory) = case_machine();
    prepare(&mut machine, G1, [41, 42, 43]);
    assert_eq!(make_call(&mut machine, &mut memory, G0, [RUN, 1, 33]), [RUN, 1, 33]);
    assert_eq!(registers(&machine, G1), [41, 42, 43]);
    expect_error(&mut machine, &mut memory, G0, [RUN, 0, 33], INVALID);
}

#[test]
fn a_secondarys_send_to_guest_0_fills_its_rx_and_names_it_in_r2() {
    let (mut machine, mut memory) = case_machine();
    write_tx(&machine, &mut memory, G2, &[70, 71]);
    prepare(&mut machine, G0, [1, 1, 1]);
    assert_eq!(make_call(&mut machine, &mut memory, G2, [SEND, 0, 2]), [SUCCESS, 0, 2]);
    assert_eq!(machine.current, G0);
    assert_eq!(registers(&machine, G0), [0x8400_006E, 2, 0]);
    assert_eq!(machine.guests[0].inbox, Inbox::Full { length: 2, sender: G2 });
    assert_eq!(message(&machine, &memory, G0), [70, 71]);
}

#[test]
fn a_mailbox_or_spare_page_is_some_page_and_then_denied() {
    // Page 10 is spare in a machine of eleven pages; 11 is none.
    let (mut machine, _) = case_machine();
    machine.m = 11;
    let mut memory = memory_for(&machine);
    for (base, code) in [
        (3072, DENIED),
        (5120, DENIED),
        (8192, DENIED),
        (10_240, DENIED),
        (11_264, INVALID),
    ] {
        write_tx(&machine, &mut memory, G1, &[3, 0x0002_0003, base]);
        expect_error(&mut machine, &mut memory, G1, [SHARE, 3, 0], code);
    }
}

#[test]
fn retrieve_by_the_sender_and_relinquish_of_a_donation_are_denied() {
    let (mut machine, mut memory) = case_machine();
    open(&mut machine, &mut memory, G1, DONATE, 2, &[9216]);
    expect_error(&mut machine, &mut memory, G1, [RETRIEVE, 0, 0], DENIED);
    expect_error(&mut machine, &mut memory, G2, [RELINQUISH, 0, 0], DENIED);
}

#[test]
fn a_sends_copying_is_no_store_by_a_guest() {
    // The sender has no access to the page that is written, and the receiver may not write it.
    let (mut machine, mut memory) = case_machine();
    write_tx(&machine, &mut memory, G0, &[5]);
    assert!(!machine.pages[6].access.has(G0));
    assert_eq!(make_call(&mut machine, &mut memory, G0, [SEND, 1, 1]), [SUCCESS, 1, 1]);
    assert_eq!(memory[6144], 5);
    assert_eq!(machine.mode, Mode::Normal);
}

/// The offset at which an image is broken, or none.
fn broken_at(image: &Image) -> Option<usize> {
    judge(&image.0).err().map(|broken| broken.offset)
}

#[test]
fn a_payload_has_exactly_its_kinds_form() {
    for (kind, good) in [(2, 10), (3, 4), (5, 4)] {
        for length in (0..20).filter(|&length| length != good) {
            let image = Image::new().counts(2, 4).record(kind, &vec![0; length]);
            assert_eq!(broken_at(&image), Some(8), "kind {kind}, {length} bytes");
        }
    }
    for length in 0..20 {
        let image = two_guests(4, 0, 0).record(4, &vec![0; length]).budget(0);
        let good = [8, 12, 16].contains(&length);
        assert_eq!(broken_at(&image), (!good).then_some(36), "kind 4, {length} bytes");
    }
    assert_eq!(broken_at(&two_guests(4, 0, 0).record(6, &[]).budget(0)), Some(36));
}

#[test]
fn kinds_2_3_and_4_come_in_any_order() {
    let counts = Image::new().counts(2, 6);
    let mixed = counts
        .words(0, &[1])
        .owner(4, 0)
        .guest(1, 2, 3, 0)
        .words(1, &[1])
        .guest(0, 0, 1, 0)
        .owner(5, 1);
    assert_eq!(judge(&mixed.budget(3).0), Ok(Judged { n: 2, m: 6, budget: 3 }));
}

#[test]
fn of_two_records_that_clash_the_later_is_bad() {
    let counts = || Image::new().counts(2, 6);
    assert_eq!(broken_at(&counts().guest(0, 0, 1, 0).guest(1, 1, 2, 0)), Some(22));
    assert_eq!(broken_at(&counts().guest(0, 0, 1, 0).owner(1, 0)), Some(22));
    assert_eq!(broken_at(&counts().owner(1, 0).guest(0, 0, 1, 0)), Some(16));
    assert_eq!(broken_at(&counts().owner(1, 0).owner(1, 1)), Some(16));
}

#[test]
fn the_first_record_is_kind_1_and_kind_5_needs_every_guest() {
    assert_eq!(broken_at(&Image::new().words(0, &[1]).counts(2, 4)), Some(0));
    let early = Image::new().counts(2, 4).guest(0, 0, 1, 0).budget(5).guest(1, 2, 3, 0);
    assert_eq!(broken_at(&early), Some(22));
}

#[test]
fn left_over_bytes_are_bad_at_their_first_and_a_missing_kind_5_at_the_end() {
    for bytes in [&[0][..], &[0, 0], &[4, 0, 5]] {
        assert_eq!(broken_at(&Image::new().raw(bytes)), Some(0));
        assert_eq!(broken_at(&Image::new().counts(2, 4).raw(bytes)), Some(8));
        assert_eq!(broken_at(&two_guests(4, 0, 0).raw(bytes)), Some(36));
        assert_eq!(broken_at(&two_guests(4, 0, 0).budget(1).raw(bytes)), Some(44));
    }
    assert_eq!(broken_at(&two_guests(4, 0, 0).budget(1).counts(2, 4)), Some(44));
    assert_eq!(broken_at(&two_guests(4, 0, 0)), Some(36));
    assert_eq!(broken_at(&Image::new()), Some(0));
}

#[test]
fn a_start_pc_may_lie_outside_memory_and_words_in_any_page() {
    // Words in a mailbox page, in a spare page and across the border between two pages.
    let image = two_guests(5, 0xFFFF_FFFF, 5120)
        .words(0, &[1])
        .words(4096, &[2])
        .words(2047, &[3, 4])
        .budget(1);
    let mut memory = vec![9; 5120];
    let loaded = load(&image.0, &mut memory);
    assert_eq!(loaded.answer, Answer::Done);
    assert_eq!(loaded.machine.guests[0].registers.pc, 0xFFFF_FFFF);
    assert_eq!(loaded.machine.guests[1].registers.pc, 5120);
    assert_eq!([memory[0], memory[2047], memory[2048], memory[4096]], [1, 3, 4, 2]);
}

#[test]
fn a_load_that_succeeds_writes_every_lent_word() {
    let mut memory = vec![9; 4096];
    assert_eq!(
        load(&two_guests(4, 0, 0).words(7, &[1, 2]).budget(1).0, &mut memory).answer,
        Answer::Done
    );
    let mut expected = vec![0; 4096];
    expected[7..9].copy_from_slice(&[1, 2]);
    assert!(memory == expected);
}

#[test]
fn a_bench_line_shows_the_caller_also_where_guest_0_is_current_afterwards() {
    // Guest 0 runs guest 1, which sends one word to guest 0 and so hands it R0, R1 and R2.
    let mut zero = vec![0x0001_0101];
    zero.extend(call_program(RUN));
    zero.push(0x0000_000D);
    let mut one = vec![0x0001_0201];
    one.extend(call_program(SEND));
    let image = two_guests(6, 4096, 5120)
        .owner(4, 0)
        .owner(5, 1)
        .words(4096, &zero)
        .words(5120, &one);
    let lines = "4 0 8400006d 8400006d 00000000\n8 1 8400006e 84000061 00000001\nend 9 halted\n";
    assert_eq!(bench_text(&image.budget(50).0), lines);
}

#[test]
fn the_bench_judges_the_size_first_and_m_last() {
    assert_eq!(bench_text(&[0; 65_537]), "refused 1\n");
    assert_eq!(bench_text(&two_guests(17, 0, 0).0), "refused 4 36\n");
    assert_eq!(bench_text(&two_guests(17, 0, 0).budget(1).0), "refused 1\n");
}
