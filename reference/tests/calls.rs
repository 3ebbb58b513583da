//! The calls: what each changes on success, when it answers which error, and in which order it tests.

mod common;

use common::*;
use reference::*;

/// The case machine after one successful transaction by guest 1 about page 9 with guest 2.
fn opened(number: u32) -> (Machine, Vec<u32>) {
    let (mut machine, mut memory) = case_machine();
    assert_eq!(open(&mut machine, &mut memory, G1, number, 2, &[9216]), [SUCCESS, 3, 0]);
    (machine, memory)
}

/// As `opened`, and guest 2 has retrieved it.
fn retrieved(number: u32) -> (Machine, Vec<u32>) {
    let (mut machine, mut memory) = opened(number);
    assert_eq!(
        make_call(&mut machine, &mut memory, G2, [RETRIEVE, 0, 4]),
        [SUCCESS, 0, 4]
    );
    (machine, memory)
}

/// Makes the call and expects this machine and unchanged memory.
fn expect_machine(machine: &mut Machine, memory: &mut [u32], expected: &Machine) {
    let words = memory.to_vec();
    assert_eq!(call(machine, memory), Answer::Done);
    assert_eq!(machine, expected);
    assert!(memory == words);
}

#[test]
fn run_makes_the_named_guest_current() {
    let (mut machine, mut memory) = case_machine();
    for vm in [1, 2] {
        prepare(&mut machine, G0, [RUN, vm, 8]);
        let mut expected = machine.clone();
        expected.current = VmId(vm as u8);
        expect_machine(&mut machine, &mut memory, &expected);
    }
}

#[test]
fn run_refuses_a_secondary_first_and_then_the_number() {
    let (mut machine, mut memory) = case_machine();
    expect_error(&mut machine, &mut memory, G1, [RUN, 2, 0], DENIED);
    expect_error(&mut machine, &mut memory, G1, [RUN, 0, 0], DENIED);
    expect_error(&mut machine, &mut memory, G2, [RUN, 9, 0], DENIED);
    for number in [0, 3, 8, 256, 257, 0x1_0001, 0xFFFF_FFFF] {
        expect_error(&mut machine, &mut memory, G0, [RUN, number, 0], INVALID);
    }
}

#[test]
fn yield_by_the_primary_is_a_bare_success() {
    let (mut machine, mut memory) = case_machine();
    prepare(&mut machine, G0, [YIELD, 5, 6]);
    let mut expected = machine.clone();
    prepare(&mut expected, G0, [SUCCESS, 5, 6]);
    expect_machine(&mut machine, &mut memory, &expected);
}

#[test]
fn yield_by_a_secondary_gives_control_to_the_primary() {
    for vm in [G1, G2] {
        let (mut machine, mut memory) = case_machine();
        prepare(&mut machine, G0, [11, 12, 13]);
        prepare(&mut machine, vm, [YIELD, 5, 6]);
        let mut expected = machine.clone();
        prepare(&mut expected, vm, [SUCCESS, 5, 6]);
        prepare(&mut expected, G0, [YIELD, vm.0.into(), 13]);
        expect_machine(&mut machine, &mut memory, &expected);
    }
}

#[test]
fn poll_and_wait_take_the_waiting_message() {
    for number in [POLL, WAIT] {
        for vm in [G0, G1] {
            let (mut machine, mut memory) = case_machine();
            memory.fill(6);
            prepare(&mut machine, vm, [number, 5, 5]);
            machine.guests[usize::from(vm.0)].inbox = Inbox::Full {
                length: 900,
                sender: G2,
            };
            let mut expected = machine.clone();
            prepare(&mut expected, vm, [0x8400_006E, 2, 900]);
            expected.guests[usize::from(vm.0)].inbox = Inbox::Empty;
            expect_machine(&mut machine, &mut memory, &expected);
            assert_eq!(message(&machine, &memory, vm), []);
        }
    }
}

#[test]
fn poll_of_an_empty_rx_has_no_data() {
    let (mut machine, mut memory) = case_machine();
    for vm in [G0, G1, G2] {
        expect_error(&mut machine, &mut memory, vm, [POLL, 1, 2], NO_DATA);
    }
}

#[test]
fn wait_with_an_empty_rx() {
    let (mut machine, mut memory) = case_machine();
    expect_error(&mut machine, &mut memory, G0, [WAIT, 1, 2], NO_DATA);
    prepare(&mut machine, G0, [11, 12, 13]);
    prepare(&mut machine, G2, [WAIT, 5, 6]);
    let mut expected = machine.clone();
    prepare(&mut expected, G2, [SUCCESS, 5, 6]);
    prepare(&mut expected, G0, [WAIT, 2, 13]);
    expect_machine(&mut machine, &mut memory, &expected);
}

#[test]
fn send_by_the_primary_keeps_control() {
    let (mut machine, mut memory) = case_machine();
    write_tx(&machine, &mut memory, G0, &[10, 20, 30]);
    prepare(&mut machine, G0, [SEND, 2, 2]);
    let (mut expected, mut words) = (machine.clone(), memory.clone());
    prepare(&mut expected, G0, [SUCCESS, 2, 2]);
    expected.guests[2].inbox = Inbox::Full { length: 2, sender: G0 };
    words[8192..8194].copy_from_slice(&[10, 20]);
    assert_eq!(call(&mut machine, &mut memory), Answer::Done);
    assert_eq!(machine, expected);
    assert!(memory == words);
}

#[test]
fn send_by_a_secondary_gives_control_to_the_primary() {
    let (mut machine, mut memory) = case_machine();
    write_tx(&machine, &mut memory, G1, &[10, 20, 30]);
    prepare(&mut machine, G0, [11, 12, 13]);
    prepare(&mut machine, G1, [SEND, 2, 1]);
    let (mut expected, mut words) = (machine.clone(), memory.clone());
    prepare(&mut expected, G1, [SUCCESS, 2, 1]);
    prepare(&mut expected, G0, [SEND, 1, 2]);
    expected.guests[2].inbox = Inbox::Full { length: 1, sender: G1 };
    words[8192] = 10;
    assert_eq!(call(&mut machine, &mut memory), Answer::Done);
    assert_eq!(machine, expected);
    assert!(memory == words);
}

#[test]
fn send_tests_the_receiver_and_the_length_before_the_rx_state() {
    let (mut machine, mut memory) = case_machine();
    machine.guests[2].inbox = Inbox::Full { length: 4, sender: G0 };
    for receiver in [1, 3, 8, 256 + 2, 0x1_0002, 0xFFFF_FFFF] {
        expect_error(&mut machine, &mut memory, G1, [SEND, receiver, 1], INVALID);
    }
    expect_error(&mut machine, &mut memory, G0, [SEND, 0, 1], INVALID);
    // A guest that has a message itself: to send to itself is invalid all the same.
    expect_error(&mut machine, &mut memory, G2, [SEND, 2, 1], INVALID);
    for length in [0, 1025, 0x1_0001, 0xFFFF_FFFF] {
        expect_error(&mut machine, &mut memory, G1, [SEND, 2, length], INVALID);
    }
    for length in [1, 1024] {
        expect_error(&mut machine, &mut memory, G1, [SEND, 2, length], BUSY);
    }
}

#[test]
fn a_message_that_was_polled_leaves_room_for_the_next() {
    let (mut machine, mut memory) = case_machine();
    write_tx(&machine, &mut memory, G0, &[1, 2, 3, 4]);
    assert_eq!(make_call(&mut machine, &mut memory, G0, [SEND, 1, 4]), [SUCCESS, 1, 4]);
    expect_error(&mut machine, &mut memory, G2, [SEND, 1, 1], BUSY);
    assert_eq!(make_call(&mut machine, &mut memory, G1, [POLL, 0, 0]), [SEND, 0, 4]);
    write_tx(&machine, &mut memory, G2, &[9]);
    assert_eq!(make_call(&mut machine, &mut memory, G2, [SEND, 1, 1]), [SUCCESS, 1, 1]);
    assert_eq!(message(&machine, &memory, G1), [9]);
    assert_eq!(memory[6144..6149], [9, 2, 3, 4, 0]);
}

#[test]
fn sending_pages_tests_the_length() {
    let (mut machine, mut memory) = case_machine();
    for number in [DONATE, LEND, SHARE] {
        let kind = number - DONATE + 1;
        for length in [0, 1, 2, 11, 12, 1024, 0x1_0003, 0xFFFF_FFFF] {
            write_tx(&machine, &mut memory, G1, &[length, 2 << 16 | kind, 9216]);
            expect_error(&mut machine, &mut memory, G1, [number, length, 0], INVALID);
        }
        // The descriptor's own length is another one.
        for word in [0, 2, 4, 0x1_0003] {
            write_tx(&machine, &mut memory, G1, &[word, 2 << 16 | kind, 9216]);
            expect_error(&mut machine, &mut memory, G1, [number, 3, 0], INVALID);
        }
    }
}

#[test]
fn sending_pages_tests_kind_and_receiver() {
    let (mut machine, mut memory) = case_machine();
    for number in [DONATE, LEND, SHARE] {
        let kind = number - DONATE + 1;
        for other in (0..=4).chain([kind + 0x100, 0xFFFF]).filter(|&other| other != kind) {
            write_tx(&machine, &mut memory, G1, &[3, 2 << 16 | other, 9216]);
            expect_error(&mut machine, &mut memory, G1, [number, 3, 0], INVALID);
        }
        for receiver in [1, 3, 7, 8, 0x0102, 0xFFFF] {
            write_tx(&machine, &mut memory, G1, &[3, receiver << 16 | kind, 9216]);
            expect_error(&mut machine, &mut memory, G1, [number, 3, 0], INVALID);
        }
    }
}

#[test]
fn sending_pages_tests_the_bases() {
    let (mut machine, mut memory) = case_machine();
    let bad: [&[u32]; 9] = [
        &[1],
        &[1025],
        &[10_240],
        &[262_144],
        &[0xFFFF_FC00],
        &[9216, 1024],
        &[1024, 1024],
        &[1024, 9216, 9216],
        &[1024, 9216, 10_240],
    ];
    for bases in bad {
        let length = 2 + bases.len() as u32;
        let words: Vec<u32> = [length, 2 << 16 | 2].into_iter().chain(bases.iter().copied()).collect();
        write_tx(&machine, &mut memory, G1, &words);
        expect_error(&mut machine, &mut memory, G1, [LEND, length, 0], INVALID);
    }
}

#[test]
fn sending_pages_is_denied_for_any_page_that_is_not_the_callers_alone() {
    let (mut machine, mut memory) = retrieved(SHARE);
    // Page 9 is shared with guest 2; 1 is guest 1's own; 0 is foreign, 6 a mailbox page.
    for number in [DONATE, LEND, SHARE] {
        let kind = number - DONATE + 1;
        for (vm, receiver, bases) in [
            (G1, 2, vec![9216]),
            (G1, 2, vec![1024, 9216]),
            (G1, 2, vec![0, 1024]),
            (G1, 2, vec![1024, 6144]),
            (G2, 1, vec![9216]),
            (G2, 0, vec![2048, 9216]),
        ] {
            let length = 2 + bases.len() as u32;
            let words: Vec<u32> = [length, receiver << 16 | kind].into_iter().chain(bases).collect();
            write_tx(&machine, &mut memory, vm, &words);
            expect_error(&mut machine, &mut memory, vm, [number, length, 0], DENIED);
        }
    }
    // Lent pages, before and after the retrieval, are neither's to send.
    for (mut machine, mut memory) in [opened(LEND), retrieved(LEND), opened(DONATE)] {
        for (vm, receiver) in [(G1, 2), (G2, 1)] {
            write_tx(&machine, &mut memory, vm, &[3, receiver << 16 | 3, 9216]);
            expect_error(&mut machine, &mut memory, vm, [SHARE, 3, 0], DENIED);
        }
    }
}

/// Guest 0 has lent pages 4 to 19 singly, so that no handle is free; 20 is still its own and 21 is guest 1's.
fn without_free_handle() -> (Machine, Vec<u32>) {
    let mut machine = plain(2, 22);
    for page in 4..21 {
        set_owner(&mut machine, page, 0);
    }
    set_owner(&mut machine, 21, 1);
    let mut memory = memory_for(&machine);
    for handle in 0..16 {
        let after = open(&mut machine, &mut memory, G0, LEND, 1, &[1024 * (4 + handle)]);
        assert_eq!(after, [SUCCESS, 3, handle]);
    }
    (machine, memory)
}

#[test]
fn sending_pages_tests_invalid_then_denied_then_no_memory() {
    let (mut machine, mut memory) = without_free_handle();
    for (base, code) in [(20_481, INVALID), (21_504, DENIED), (4096, DENIED), (20_480, NO_MEMORY)] {
        write_tx(&machine, &mut memory, G0, &[3, 1 << 16 | 1, base]);
        expect_error(&mut machine, &mut memory, G0, [DONATE, 3, 0], code);
    }
}

#[test]
fn sending_pages_tests_every_base_before_any_page() {
    let (mut machine, mut memory) = case_machine();
    // Page 0 is another guest's, which would be denied; what else is wrong comes first.
    for bases in [[9216, 0], [0, 0], [0, 10_240], [0, 9217], [9217, 0]] {
        for (number, kind) in [(DONATE, 1), (LEND, 2), (SHARE, 3)] {
            write_tx(&machine, &mut memory, G1, &[4, 2 << 16 | kind, bases[0], bases[1]]);
            expect_error(&mut machine, &mut memory, G1, [number, 4, 0], INVALID);
        }
    }
    write_tx(&machine, &mut memory, G1, &[4, 2 << 16 | 3, 0, 9216]);
    expect_error(&mut machine, &mut memory, G1, [SHARE, 4, 0], DENIED);
}

#[test]
fn a_freed_handle_is_free_at_once_and_the_lowest_is_taken() {
    let (mut machine, mut memory) = without_free_handle();
    for handle in [9, 5] {
        let after = make_call(&mut machine, &mut memory, G0, [RECLAIM, handle, 1]);
        assert_eq!(after, [SUCCESS, handle, 1]);
    }
    let donated = open(&mut machine, &mut memory, G0, DONATE, 1, &[20_480]);
    assert_eq!(donated, [SUCCESS, 3, 5]);
    let received = make_call(&mut machine, &mut memory, G1, [RETRIEVE, 5, 1]);
    assert_eq!(received, [SUCCESS, 5, 1]);
    for (base, handle) in [(20_480, 5), (21_504, 9)] {
        let shared = open(&mut machine, &mut memory, G1, SHARE, 0, &[base]);
        assert_eq!(shared, [SUCCESS, 3, handle]);
    }
}

#[test]
fn eight_pages_go_together() {
    for (number, kind) in [(DONATE, Kind::Donate), (LEND, Kind::Lend), (SHARE, Kind::Share)] {
        let mut machine = plain(2, 12);
        for page in 4..12 {
            set_owner(&mut machine, page, 0);
        }
        let mut memory = memory_for(&machine);
        let bases: Vec<u32> = (4..12).map(|page| 1024 * page).collect();
        assert_eq!(open(&mut machine, &mut memory, G0, number, 1, &bases), [SUCCESS, 10, 0]);
        let pages = [4, 5, 6, 7, 8, 9, 10, 11];
        assert_eq!(machine.transactions[0], transaction(0, 1, kind, false, &pages));
        let due = if kind == Kind::Share {
            record(Some(0), 1, false)
        } else {
            record(Some(0), 0, true)
        };
        assert_eq!(machine.pages[4..12], [due; 8]);
        assert_eq!(
            make_call(&mut machine, &mut memory, G1, [RETRIEVE, 0, 0]),
            [SUCCESS, 0, 0]
        );
        let due = match kind {
            Kind::Donate => record(Some(1), 0b10, true),
            Kind::Lend => record(Some(0), 0b10, true),
            Kind::Share => record(Some(0), 0b11, false),
        };
        assert_eq!(machine.pages[4..12], [due; 8]);
    }
}

#[test]
fn nine_pages_are_too_many() {
    let mut machine = plain(2, 13);
    for page in 4..13 {
        set_owner(&mut machine, page, 0);
    }
    let mut memory = memory_for(&machine);
    for number in [DONATE, LEND, SHARE] {
        let mut words = vec![11, 1 << 16 | (number - DONATE + 1)];
        words.extend((4..13).map(|page| 1024 * page));
        write_tx(&machine, &mut memory, G0, &words);
        expect_error(&mut machine, &mut memory, G0, [number, 11, 0], INVALID);
    }
}

#[test]
fn a_free_handle_is_invalid_for_everybody() {
    let (mut machine, mut memory) = opened(SHARE);
    for number in [RETRIEVE, RELINQUISH, RECLAIM] {
        for handle in (1..16).chain([16, 17, 255, 256, 0xFFFF_FFFF]) {
            for vm in [G0, G1, G2] {
                expect_error(&mut machine, &mut memory, vm, [number, handle, 0], INVALID);
            }
        }
    }
}

#[test]
fn only_the_named_guest_may_and_only_in_the_right_state() {
    for number in [DONATE, LEND, SHARE] {
        let (mut machine, mut memory) = opened(number);
        for (vm, forbidden) in [
            (G0, vec![RETRIEVE, RELINQUISH, RECLAIM]),
            (G1, vec![RETRIEVE, RELINQUISH]),
            (G2, vec![RELINQUISH, RECLAIM]),
        ] {
            for call_number in forbidden {
                expect_error(&mut machine, &mut memory, vm, [call_number, 0, 0], DENIED);
            }
        }
    }
    for number in [LEND, SHARE] {
        let (mut machine, mut memory) = retrieved(number);
        for vm in [G0, G1] {
            for call_number in [RETRIEVE, RELINQUISH, RECLAIM] {
                expect_error(&mut machine, &mut memory, vm, [call_number, 0, 0], DENIED);
            }
        }
        for call_number in [RETRIEVE, RECLAIM] {
            expect_error(&mut machine, &mut memory, G2, [call_number, 0, 0], DENIED);
        }
    }
}

#[test]
fn relinquish_restores_the_state_before_the_retrieval() {
    for number in [LEND, SHARE] {
        let (before, _) = opened(number);
        let (mut machine, mut memory) = retrieved(number);
        assert_eq!(
            make_call(&mut machine, &mut memory, G2, [RELINQUISH, 0, 3]),
            [SUCCESS, 0, 3]
        );
        assert_eq!(machine.pages, before.pages);
        assert_eq!(machine.transactions, before.transactions);
        let (again, _) = retrieved(number);
        assert_eq!(
            make_call(&mut machine, &mut memory, G2, [RETRIEVE, 0, 4]),
            [SUCCESS, 0, 4]
        );
        assert_eq!(machine, again);
    }
}

#[test]
fn reclaim_restores_the_state_before_the_transaction() {
    let (before, _) = case_machine();
    for number in [DONATE, LEND, SHARE] {
        let (mut machine, mut memory) = opened(number);
        assert_eq!(
            make_call(&mut machine, &mut memory, G1, [RECLAIM, 0, 3]),
            [SUCCESS, 0, 3]
        );
        assert_eq!(machine.pages, before.pages);
        assert_eq!(machine.transactions, before.transactions);
    }
}

#[test]
fn a_transaction_leaves_other_transactions_alone() {
    let (mut machine, mut memory) = opened(SHARE);
    assert_eq!(open(&mut machine, &mut memory, G1, LEND, 0, &[1024]), [SUCCESS, 3, 1]);
    assert_eq!(open(&mut machine, &mut memory, G2, SHARE, 0, &[2048]), [SUCCESS, 3, 2]);
    assert_eq!(
        make_call(&mut machine, &mut memory, G0, [RETRIEVE, 1, 0]),
        [SUCCESS, 1, 0]
    );
    assert_eq!(
        make_call(&mut machine, &mut memory, G2, [RECLAIM, 2, 0]),
        [SUCCESS, 2, 0]
    );
    assert_eq!(machine.transactions[0], transaction(1, 2, Kind::Share, false, &[9]));
    assert_eq!(machine.transactions[1], transaction(1, 0, Kind::Lend, true, &[1]));
    assert_eq!(machine.pages[9], record(Some(1), 0b010, false));
    assert_eq!(machine.pages[1], record(Some(1), 0b001, true));
    assert_eq!(machine.pages[2], record(Some(2), 0b100, true));
}

#[test]
fn any_other_number_is_not_supported() {
    let (mut machine, mut memory) = case_machine();
    let near = [
        0x8400_0060,
        0x8400_0061,
        0x8400_0069,
        0x8400_006F,
        0x8400_0070,
        0x8400_0075,
        0x8400_0078,
    ];
    for number in near
        .into_iter()
        .chain([0, 0x6C, 0x0400_006C, 0xC400_006C, 0x8400_016C, 0xFFFF_FFFF])
    {
        for vm in [G0, G1] {
            expect_error(&mut machine, &mut memory, vm, [number, 1, 1], NOT_SUPPORTED);
        }
        assert_eq!(call_name(number), None);
    }
}

#[test]
fn calls_and_errors_have_names() {
    let calls = [
        (RUN, "Run"),
        (YIELD, "Yield"),
        (POLL, "Poll"),
        (WAIT, "Wait"),
        (SEND, "Send"),
        (DONATE, "Donate"),
        (LEND, "Lend"),
        (SHARE, "Share"),
        (RETRIEVE, "Retrieve"),
        (RELINQUISH, "Relinquish"),
        (RECLAIM, "Reclaim"),
    ];
    for (number, name) in calls {
        assert_eq!(call_name(number), Some(name));
    }
    let errors = [
        (NOT_SUPPORTED, "NOT_SUPPORTED"),
        (INVALID, "INVALID_PARAMETERS"),
        (NO_MEMORY, "NO_MEMORY"),
        (BUSY, "BUSY"),
        (DENIED, "DENIED"),
        (ABORTED, "ABORTED"),
        (NO_DATA, "NO_DATA"),
    ];
    for (code, name) in errors {
        assert_eq!(error_name(code), Some(name));
    }
    for code in [0, 1, 0xFFFF_FFFB, 0xFFFF_FFF9, 0xFFFF_FFF6, SUCCESS] {
        assert_eq!(error_name(code), None);
    }
}
