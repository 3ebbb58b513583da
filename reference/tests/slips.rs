//! One test for each slip that the scope document warns of, named after it.

mod common;

use common::*;
use reference::*;

#[test]
fn reclaim_while_retrieved() {
    for number in [LEND, SHARE] {
        let (mut machine, mut memory) = case_machine();
        assert_eq!(open(&mut machine, &mut memory, G1, number, 2, &[9216]), [SUCCESS, 3, 0]);
        assert_eq!(make_call(&mut machine, &mut memory, G2, [RETRIEVE, 0, 0])[0], SUCCESS);
        expect_error(&mut machine, &mut memory, G1, [RECLAIM, 0, 0], DENIED);
    }
}

#[test]
fn leaving_the_sender_access_after_lend() {
    let (mut machine, mut memory) = case_machine();
    open(&mut machine, &mut memory, G1, LEND, 2, &[9216]);
    assert_eq!(machine.pages[9].access, VmSet(0));
    // The sender's next fetch from the page faults, before the retrieval and after it.
    machine.guests[1].registers.pc = 9216;
    let mut stopped = machine.clone();
    assert_eq!(
        advance(&mut stopped, &mut memory),
        Did::Faulted(Fault::Fetch(Miss::NoAccess))
    );
    make_call(&mut machine, &mut memory, G2, [RETRIEVE, 0, 0]);
    assert_eq!(machine.pages[9].access, VmSet(0b100));
    machine.current = G1;
    assert_eq!(
        advance(&mut machine, &mut memory),
        Did::Faulted(Fault::Fetch(Miss::NoAccess))
    );
}

#[test]
fn clearing_the_exclusive_mark_at_retrieve_instead_of_share() {
    let (mut machine, mut memory) = case_machine();
    open(&mut machine, &mut memory, G1, SHARE, 2, &[9216]);
    assert!(!machine.pages[9].exclusive);
    let (mut machine, mut memory) = case_machine();
    open(&mut machine, &mut memory, G1, LEND, 2, &[9216]);
    make_call(&mut machine, &mut memory, G2, [RETRIEVE, 0, 0]);
    assert!(machine.pages[9].exclusive);
}

#[test]
fn a_handle_above_15_taken_modulo_16() {
    for number in [RETRIEVE, RELINQUISH, RECLAIM] {
        let (mut machine, mut memory) = case_machine();
        open(&mut machine, &mut memory, G1, SHARE, 2, &[9216]);
        if number == RELINQUISH {
            make_call(&mut machine, &mut memory, G2, [RETRIEVE, 0, 0]);
        }
        let caller = if number == RECLAIM { G1 } else { G2 };
        for handle in [16, 32, 256, 0x1_0000, 0x8000_0000, 0xFFFF_FFF0] {
            expect_error(&mut machine, &mut memory, caller, [number, handle, 0], INVALID);
        }
        assert_eq!(
            make_call(&mut machine, &mut memory, caller, [number, 0, 9]),
            [SUCCESS, 0, 9]
        );
    }
}

#[test]
fn freeing_the_handle_at_relinquish() {
    let (mut machine, mut memory) = case_machine();
    open(&mut machine, &mut memory, G1, SHARE, 2, &[9216]);
    make_call(&mut machine, &mut memory, G2, [RETRIEVE, 0, 0]);
    make_call(&mut machine, &mut memory, G2, [RELINQUISH, 0, 0]);
    assert_eq!(machine.transactions[0], transaction(1, 2, Kind::Share, false, &[9]));
    // The next transaction gets another handle, and the old one can be retrieved again.
    assert_eq!(open(&mut machine, &mut memory, G1, LEND, 2, &[1024]), [SUCCESS, 3, 1]);
    assert_eq!(make_call(&mut machine, &mut memory, G2, [RETRIEVE, 0, 0])[0], SUCCESS);
}

#[test]
fn bases_9216_and_9216_taken_as_one_page() {
    for number in [DONATE, LEND, SHARE] {
        let (mut machine, mut memory) = case_machine();
        write_tx(
            &machine,
            &mut memory,
            G1,
            &[4, 2 << 16 | (number - DONATE + 1), 9216, 9216],
        );
        expect_error(&mut machine, &mut memory, G1, [number, 4, 0], INVALID);
    }
}

#[test]
fn copying_the_whole_tx_page_on_send() {
    let (mut machine, mut memory) = case_machine();
    memory[5120..6144].fill(7);
    memory[8192..9216].fill(1);
    let mut expected = memory.clone();
    expected[8192..8195].fill(7);
    assert_eq!(make_call(&mut machine, &mut memory, G1, [SEND, 2, 3]), [SUCCESS, 2, 3]);
    assert!(memory == expected);
    assert_eq!(message(&machine, &memory, G2), [7, 7, 7]);
}
