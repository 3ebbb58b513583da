//! Long walks of calls and steps chosen by a fixed row of numbers: soundness and the number of owned pages stay.

mod common;

use common::*;
use reference::*;

/// A row of numbers that looks random and is always the same.
struct Row(u64);

impl Row {
    /// The next number of the row, below the limit.
    fn below(&mut self, limit: u32) -> u32 {
        self.0 = self
            .0
            .wrapping_mul(6_364_136_223_846_793_005)
            .wrapping_add(1_442_695_040_888_963_407);
        ((self.0 >> 33) % u64::from(limit)) as u32
    }

    /// One of the values.
    fn pick<T: Copy>(&mut self, values: &[T]) -> T {
        values[self.below(values.len() as u32) as usize]
    }
}

const CALLS: [u32; 11] = [
    RUN, YIELD, POLL, WAIT, SEND, DONATE, LEND, SHARE, RETRIEVE, RELINQUISH, RECLAIM,
];

/// How many pages have an owner.
fn owned_pages(machine: &Machine) -> usize {
    machine.pages.iter().filter(|record| record.owner.is_some()).count()
}

/// Three guests with six pages each, next to their mailboxes.
fn start() -> (Machine, Vec<u32>) {
    let mut machine = plain(3, 24);
    for page in 6..24 {
        set_owner(&mut machine, page, page % 3);
    }
    let memory = memory_for(&machine);
    (machine, memory)
}

/// Gives some guest a call with arguments that are often good ones.
fn choose_call(row: &mut Row, machine: &mut Machine, memory: &mut [u32]) -> (VmId, u32) {
    let vm = VmId(row.below(3) as u8);
    let number = row.pick(&CALLS);
    let (mut r1, r2) = (row.below(4), row.below(6));
    if [DONATE, LEND, SHARE].contains(&number) {
        let count = 1 + row.below(3);
        let mut words = vec![2 + count, row.below(3) << 16 | (number - DONATE + 1)];
        let first = 6 + row.below(14);
        words.extend((0..count).map(|position| 1024 * (first + 3 * position)));
        write_tx(machine, memory, vm, &words);
        r1 = 2 + count;
    } else if [RETRIEVE, RELINQUISH, RECLAIM].contains(&number) {
        r1 = row.below(17);
    }
    prepare(machine, vm, [number, r1, r2]);
    (vm, number)
}

#[test]
fn calls_keep_a_machine_sound_and_its_owned_pages_as_many() {
    let (mut machine, mut memory) = start();
    let mut row = Row(1);
    let mut successes = [0; CALLS.len()];
    for _ in 0..40_000 {
        let (vm, number) = choose_call(&mut row, &mut machine, &mut memory);
        assert_eq!(call(&mut machine, &mut memory), Answer::Done);
        assert_eq!(check(&machine, &memory), Answer::Done);
        assert_eq!(owned_pages(&machine), 18);
        let position = CALLS
            .iter()
            .position(|&known| known == number)
            .expect("the call is one of the list");
        successes[position] += u32::from(registers(&machine, vm)[0] != ERROR);
        assert_ne!(registers(&machine, vm)[2], ABORTED);
    }
    for (number, count) in CALLS.iter().zip(successes) {
        assert!(count > 100, "{number:08x} succeeded only {count} times");
    }
}

/// A word that is likely an instruction, with registers, constants and codes of all kinds.
fn choose_word(row: &mut Row) -> u32 {
    let code = row.pick(&[1, 1, 1, 2, 3, 4, 5, 6, 7, 8, 8, 9, 10, 11, 12, 12, 12, 13, 14]);
    let (d, s) = (row.below(8), row.below(8));
    match code {
        1 => (row.below(24) * 1024 + row.below(8)) << 16 | d << 8 | code,
        2 | 8 => row.below(3) << 16 | d << 8 | code,
        10 | 11 => s << 12 | code,
        12..=14 => code,
        _ => s << 12 | d << 8 | code,
    }
}

#[test]
fn steps_keep_a_machine_sound_and_its_owned_pages_as_many() {
    let mut row = Row(2);
    let mut did = [0; 4];
    for _ in 0..300 {
        let (mut machine, mut memory) = start();
        memory.fill_with(|| choose_word(&mut row));
        for vm in 0..3 {
            machine.guests[vm].registers.pc = 1024 * (6 + vm as u32);
            machine.guests[vm].registers.r = std::array::from_fn(|_| row.pick(&CALLS));
        }
        for _ in 0..100 {
            if machine.mode != Mode::Normal {
                break;
            }
            did[match advance(&mut machine, &mut memory) {
                Did::Moved => 0,
                Did::Called => 1,
                Did::Faulted(_) => 2,
                Did::Halted => 3,
            }] += 1;
            assert_eq!(check(&machine, &memory), Answer::Done);
            assert_eq!(owned_pages(&machine), 18);
        }
    }
    assert!(did.iter().all(|&count| count > 20), "{did:?}");
}
