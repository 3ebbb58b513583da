//! Every step of generated programs changes what it must and nothing else: machine and memory are compared whole.

mod generated_help;

use generated_help::{machines, Ready};
use reference::generate::Class;
use reference::{advance, decode, Did, Inbox, Instruction, Machine, Mode, Registers};

const SUCCESS: u32 = 0x8400_0061;
const SEND: u32 = 0x8400_006E;

/// What an instruction other than hvc and halt leaves of a guest's registers; `loaded` is the word at the address in Rs.
fn after(instruction: Instruction, before: Registers, loaded: u32) -> Registers {
    let r = before.r;
    let value = |register: u8| r[usize::from(register)];
    let mut left = before;
    left.pc = before.pc.wrapping_add(1);
    let (d, word) = match instruction {
        Instruction::Movi(d, k) => (d, k),
        Instruction::Movt(d, k) => (d, k * 65_536 + value(d) % 65_536),
        Instruction::Mov(d, s) => (d, value(s)),
        Instruction::Ldr(d, _) => (d, loaded),
        Instruction::Add(d, s) => (d, (u64::from(value(d)) + u64::from(value(s))) as u32),
        Instruction::Sub(d, s) => (d, (i64::from(value(d)) - i64::from(value(s))) as u32),
        Instruction::Addi(d, k) => (d, (u64::from(value(d)) + u64::from(k)) as u32),
        _ => (0, value(0)),
    };
    left.r[usize::from(d)] = word;
    match instruction {
        Instruction::Cmp(d, s) => left.equal = value(d) == value(s),
        Instruction::Bne(s) if !before.equal => left.pc = value(s),
        Instruction::Br(s) => left.pc = value(s),
        _ => {}
    }
    left
}

/// The machine and the memory that a step without a call must leave.
fn due(before: &Machine, memory: &[u32], did: Did, instruction: Option<Instruction>) -> (Machine, Vec<u32>) {
    let (mut machine, mut memory) = (before.clone(), memory.to_vec());
    let guest = usize::from(before.current.0);
    let registers = before.guests[guest].registers;
    match (did, instruction) {
        (Did::Halted, _) => machine.mode = Mode::Halted,
        (Did::Faulted(_), _) => machine.mode = Mode::Fault,
        (_, Some(instruction)) => {
            let address = match instruction {
                Instruction::Ldr(_, s) | Instruction::Str(_, s) => registers.r[usize::from(s)] as usize,
                _ => 0,
            };
            machine.guests[guest].registers = after(instruction, registers, memory[address]);
            if let Instruction::Str(d, _) = instruction {
                memory[address] = registers.r[usize::from(d)];
            }
        }
        (_, None) => panic!("a word that is no instruction was executed"),
    }
    (machine, memory)
}

/// A call moves the caller's pc by 1, leaves R3 to R7, flags, other pcs, counts, mailboxes and mode, and writes no word
/// but those of a Send that works, into the receiver's RX page.
fn assert_call_frame(before: &Machine, old: &[u32], after: &Machine, memory: &[u32]) {
    let caller = usize::from(before.current.0);
    for (i, (was, is)) in before.guests.iter().zip(&after.guests).enumerate() {
        let moved = u32::from(i == caller);
        assert_eq!(is.registers.pc, was.registers.pc.wrapping_add(moved), "pc of guest {i}");
        assert_eq!(is.registers.equal, was.registers.equal, "flag of guest {i}");
        assert_eq!(is.registers.r[3..], was.registers.r[3..], "R3 to R7 of guest {i}");
        assert_eq!((is.tx, is.rx), (was.tx, was.rx), "mailboxes of guest {i}");
    }
    assert_eq!((after.n, after.m, after.mode), (before.n, before.m, Mode::Normal));
    let mut due = old.to_vec();
    let [call, receiver, length, ..] = before.guests[caller].registers.r;
    if call == SEND && after.guests[caller].registers.r[0] == SUCCESS {
        let (receiver, length) = (receiver as usize, length as usize);
        let (tx, rx) = (before.guests[caller].tx, before.guests[receiver].rx);
        let (from, to) = (1024 * usize::from(tx.0), 1024 * usize::from(rx.0));
        due.copy_within(from..from + length, to);
        let sender = before.current;
        let inbox = Inbox::Full {
            length: length as u32,
            sender,
        };
        assert_eq!(after.guests[receiver].inbox, inbox);
    }
    assert!(memory == due, "a call wrote words that it must not");
}

/// Runs one machine and holds every step against what it must leave; gives steps and calls.
fn judge_all(ready: Ready) -> (u32, u32) {
    let Ready {
        mut machine,
        mut memory,
        budget,
    } = ready;
    let (mut steps, mut calls) = (0, 0);
    while steps < budget.min(3_000) && machine.mode == Mode::Normal {
        let (before, old) = (machine.clone(), memory.clone());
        let pc = before.guests[usize::from(before.current.0)].registers.pc as usize;
        let instruction = old.get(pc).and_then(|&word| decode(word));
        let did = advance(&mut machine, &mut memory);
        steps += 1;
        if did == Did::Called {
            calls += 1;
            assert_call_frame(&before, &old, &machine, &memory);
        } else {
            let due = due(&before, &old, did, instruction);
            assert!((&machine, &memory) == (&due.0, &due.1), "step {steps}: {instruction:?}");
        }
    }
    (steps, calls)
}

#[test]
fn a_step_changes_what_it_must_and_nothing_else() {
    let classes = [
        Class::Program,
        Class::Loops,
        Class::RandomInstructions,
        Class::ChangedProgram,
    ];
    let (mut steps, mut calls) = (0, 0);
    for (more_steps, more_calls) in machines(21, 160, &classes).into_iter().map(judge_all) {
        steps += more_steps;
        calls += more_calls;
    }
    assert!(steps > 30_000 && calls > 3_000, "{steps} steps, {calls} calls");
}
