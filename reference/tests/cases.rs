//! The bench cases of the scope document, each with the whole machine that it must leave.

mod common;

use common::*;
use reference::*;

/// The handle that P1 and its variants open.
const HANDLE_0: usize = 0;
const PAGE_9: usize = 9;

/// The case machine after guest 1 has sent page 9 to guest 2, with what the caller's registers then hold.
fn sent(number: u32, kind_and_receiver: u32) -> (Machine, Vec<u32>, [u32; 3]) {
    let (mut machine, mut memory) = case_machine();
    write_tx(&machine, &mut memory, G1, &[3, kind_and_receiver, 9216]);
    let after = make_call(&mut machine, &mut memory, G1, [number, 3, 55]);
    (machine, memory, after)
}

/// As `sent`, and guest 2 has retrieved handle 0.
fn sent_and_retrieved(number: u32, kind_and_receiver: u32) -> (Machine, Vec<u32>) {
    let (mut machine, mut memory, _) = sent(number, kind_and_receiver);
    let after = make_call(&mut machine, &mut memory, G2, [RETRIEVE, 0, 66]);
    assert_eq!(after, [SUCCESS, 0, 66]);
    (machine, memory)
}

/// The case machine with one page record, one transaction and the registers of the guests that called.
fn expected(page: PageRecord, transaction: Transaction, calls: &[(VmId, [u32; 3])]) -> Machine {
    let (mut machine, _) = case_machine();
    machine.pages[PAGE_9] = page;
    machine.transactions[HANDLE_0] = transaction;
    for &(vm, values) in calls {
        prepare(&mut machine, vm, values);
    }
    machine
}

#[test]
fn the_case_machine_is_sound_and_is_what_its_image_loads() {
    let (machine, memory) = case_machine();
    assert_eq!(check(&machine, &memory), Answer::Done);
    let image = Image::new()
        .counts(3, 10)
        .guest(0, 3, 4, 0)
        .guest(1, 5, 6, 0)
        .guest(2, 7, 8, 0);
    let image = image.owner(0, 0).owner(1, 1).owner(2, 2).owner(9, 1).budget(6);
    let mut lent = vec![9; 10_240];
    let loaded = load(&image.0, &mut lent);
    assert_eq!(
        loaded,
        Loaded {
            answer: Answer::Done,
            machine,
            budget: 6,
            offset: 0
        }
    );
    assert_eq!(lent, memory);
}

#[test]
fn p1_share() {
    let (machine, memory, after) = sent(SHARE, 0x0002_0003);
    assert_eq!(after, [SUCCESS, 3, 0]);
    let shared = transaction(1, 2, Kind::Share, false, &[9]);
    assert_eq!(
        machine,
        expected(record(Some(1), 0b010, false), shared, &[(G1, [SUCCESS, 3, 0])])
    );
    let mut expected_memory = vec![0; 10_240];
    expected_memory[5120..5123].copy_from_slice(&[3, 0x0002_0003, 9216]);
    assert_eq!(memory, expected_memory);
}

#[test]
fn p2_share_retrieved() {
    let (machine, _) = sent_and_retrieved(SHARE, 0x0002_0003);
    let shared = transaction(1, 2, Kind::Share, true, &[9]);
    let calls = [(G1, [SUCCESS, 3, 0]), (G2, [SUCCESS, 0, 66])];
    assert_eq!(machine, expected(record(Some(1), 0b110, false), shared, &calls));
}

#[test]
fn p3_reclaim_while_retrieved_changes_r0_and_r2_only() {
    let (mut machine, mut memory) = sent_and_retrieved(SHARE, 0x0002_0003);
    prepare(&mut machine, G1, [RECLAIM, 0, 55]);
    let mut expected = machine.clone();
    assert_eq!(call(&mut machine, &mut memory), Answer::Done);
    expected.guests[1].registers.r[0] = 0x8400_0060;
    expected.guests[1].registers.r[2] = 4_294_967_290;
    assert_eq!(machine, expected);
}

#[test]
fn p4_relinquish_then_reclaim() {
    let (mut machine, mut memory) = sent_and_retrieved(SHARE, 0x0002_0003);
    assert_eq!(
        make_call(&mut machine, &mut memory, G2, [RELINQUISH, 0, 5]),
        [SUCCESS, 0, 5]
    );
    assert_eq!(machine.pages[PAGE_9], record(Some(1), 0b010, false));
    assert_eq!(
        machine.transactions[HANDLE_0],
        transaction(1, 2, Kind::Share, false, &[9])
    );
    assert_eq!(
        make_call(&mut machine, &mut memory, G1, [RECLAIM, 0, 8]),
        [SUCCESS, 0, 8]
    );
    let calls = [(G2, [SUCCESS, 0, 5]), (G1, [SUCCESS, 0, 8])];
    let free = Transaction {
        deal: None,
        pages: [PageId(0); 8],
    };
    assert_eq!(machine, expected(record(Some(1), 0b010, true), free, &calls));
}

#[test]
fn p5_lend_retrieved() {
    let (machine, _, after) = sent(LEND, 0x0002_0002);
    assert_eq!(after, [SUCCESS, 3, 0]);
    let lent = transaction(1, 2, Kind::Lend, false, &[9]);
    assert_eq!(
        machine,
        expected(record(Some(1), 0, true), lent, &[(G1, [SUCCESS, 3, 0])])
    );
    let (machine, _) = sent_and_retrieved(LEND, 0x0002_0002);
    let lent = transaction(1, 2, Kind::Lend, true, &[9]);
    let calls = [(G1, [SUCCESS, 3, 0]), (G2, [SUCCESS, 0, 66])];
    assert_eq!(machine, expected(record(Some(1), 0b100, true), lent, &calls));
}

#[test]
fn p6_donate_retrieved() {
    let (machine, _, after) = sent(DONATE, 0x0002_0001);
    assert_eq!(after, [SUCCESS, 3, 0]);
    let donated = transaction(1, 2, Kind::Donate, false, &[9]);
    assert_eq!(
        machine,
        expected(record(Some(1), 0, true), donated, &[(G1, [SUCCESS, 3, 0])])
    );
    let (machine, _) = sent_and_retrieved(DONATE, 0x0002_0001);
    let calls = [(G1, [SUCCESS, 3, 0]), (G2, [SUCCESS, 0, 66])];
    let free = Transaction {
        deal: None,
        pages: [PageId(0); 8],
    };
    assert_eq!(machine, expected(record(Some(2), 0b100, true), free, &calls));
}

#[test]
fn p7_retrieve_by_a_third_guest_is_denied() {
    let (mut machine, mut memory, _) = sent(SHARE, 0x0002_0003);
    expect_error(&mut machine, &mut memory, G0, [RETRIEVE, 0, 1], DENIED);
}

#[test]
fn p8_base_inside_a_page_is_invalid() {
    let (mut machine, mut memory) = case_machine();
    write_tx(&machine, &mut memory, G1, &[3, 0x0002_0003, 9217]);
    expect_error(&mut machine, &mut memory, G1, [SHARE, 3, 0], 4_294_967_294);
}

#[test]
fn p9_own_mailbox_page_is_denied() {
    let (mut machine, mut memory) = case_machine();
    write_tx(&machine, &mut memory, G1, &[3, 0x0002_0003, 5120]);
    expect_error(&mut machine, &mut memory, G1, [SHARE, 3, 0], 4_294_967_290);
}

#[test]
fn p10_send_lengths() {
    let (mut machine, mut memory) = case_machine();
    expect_error(&mut machine, &mut memory, G1, [SEND, 2, 0], INVALID);
    expect_error(&mut machine, &mut memory, G1, [SEND, 2, 1025], INVALID);
    let words: Vec<u32> = (1..=1024).collect();
    write_tx(&machine, &mut memory, G1, &words);
    assert_eq!(
        make_call(&mut machine, &mut memory, G1, [SEND, 2, 1024]),
        [SUCCESS, 2, 1024]
    );
    assert_eq!(
        machine.guests[2].inbox,
        Inbox::Full {
            length: 1024,
            sender: G1
        }
    );
    assert_eq!(memory[8192..9216], words);
    assert_eq!(message(&machine, &memory, G2), words);
}

#[test]
fn p11_the_highest_word_and_1_is_0() {
    let (mut machine, mut memory) = case_machine();
    for word in [0x0001_0008, 0x0000_1006] {
        // addi R0 1, then add R0 R1.
        machine.guests[0].registers.r = [0xFFFF_FFFF, 1, 0, 0, 0, 0, 0, 0];
        machine.guests[0].registers.pc = 0;
        memory[0] = word;
        assert_eq!(step(&mut machine, &mut memory), Answer::Done);
        assert_eq!(machine.guests[0].registers.r[0], 0);
        assert_eq!(machine.guests[0].registers.pc, 1);
    }
}

#[test]
fn p12_two_words() {
    assert_eq!(decode(0x006C_0001), Some(Instruction::Movi(0, 108)));
    assert_eq!(decode(0x0000_0801), None);
    let numbers = [0x006C_0001, 0x0000_0801].map(|word| Answer::of_found(&decode(word)).number());
    assert_eq!(numbers, [0, 5]);
}

#[test]
fn seventeen_single_shares_take_sixteen_handles() {
    let mut machine = plain(2, 21);
    for page in 4..21 {
        set_owner(&mut machine, page, 1);
    }
    let mut memory = memory_for(&machine);
    for handle in 0..16 {
        let after = open(&mut machine, &mut memory, G1, SHARE, 0, &[1024 * (4 + handle)]);
        assert_eq!(after, [SUCCESS, 3, handle]);
    }
    write_tx(&machine, &mut memory, G1, &[3, 0x0000_0003, 1024 * 20]);
    expect_error(&mut machine, &mut memory, G1, [SHARE, 3, 0], NO_MEMORY);
    for handle in 0..16u8 {
        let shared = transaction(1, 0, Kind::Share, false, &[4 + handle]);
        assert_eq!(machine.transactions[usize::from(handle)], shared);
        assert_eq!(machine.pages[usize::from(4 + handle)], record(Some(1), 0b10, false));
    }
    assert_eq!(machine.pages[20], record(Some(1), 0b10, true));
}

#[test]
fn budget_0_takes_0_steps() {
    let (mut machine, mut memory) = case_machine();
    memory[0] = 0x0000_000D;
    let (before, words) = (machine.clone(), memory.clone());
    assert_eq!(run(&mut machine, &mut memory, 0), (Answer::Done, 0));
    assert_eq!(machine, before);
    assert_eq!(memory, words);
    assert_eq!(bench_text(&two_guests(4, 0, 0).budget(0).0), "end 0 normal\n");
}
