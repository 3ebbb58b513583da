//! One step: the check of an address, the fetch and the execution of an instruction.

use crate::calls;
use crate::instructions::{decode, Instruction};
use crate::machine::{Machine, Mode, PageId, Registers, PAGE_WORDS};

/// What one step did.
#[derive(Clone, Copy, Debug, PartialEq, Eq)]
pub enum Did {
    /// An instruction other than hvc and halt was executed.
    Moved,
    /// A call was made, whatever it answered.
    Called,
    /// The machine went into mode fault.
    Faulted(Fault),
    /// The machine went into mode halted.
    Halted,
}

/// Why a step faulted.
#[derive(Clone, Copy, Debug, PartialEq, Eq)]
pub enum Fault {
    /// The word at pc is no instruction.
    NotAnInstruction,
    /// The word at pc was out of reach.
    Fetch(Miss),
    /// The word that ldr asked for was out of reach.
    Load(Miss),
    /// The word that str was to change was out of reach.
    Store(Miss),
}

/// Why an address is out of a guest's reach; tested in this order.
#[derive(Clone, Copy, Debug, PartialEq, Eq)]
pub enum Miss {
    /// There is no such word.
    Outside,
    /// The guest has no access to its page.
    NoAccess,
    /// Its page is the guest's own mailbox for the other direction.
    OwnMailbox,
}

/// One step of a machine that is sound and in normal mode, with its memory; the caller has tested both.
pub fn advance(machine: &mut Machine, memory: &mut [u32]) -> Did {
    let did = fetch(machine, memory)
        .and_then(|instruction| execute(machine, memory, instruction))
        .unwrap_or_else(Did::Faulted);
    match did {
        Did::Moved | Did::Called => {}
        Did::Faulted(_) => machine.mode = Mode::Fault,
        Did::Halted => machine.mode = Mode::Halted,
    }
    did
}

/// Where in memory the address lies that the current guest wants to use, if it may:
/// any page that it has access to, but for the one page that is barred to this kind of use.
fn reach(machine: &Machine, address: u32, barred: PageId) -> Result<usize, Miss> {
    let page = machine.find_page(address / PAGE_WORDS as u32).ok_or(Miss::Outside)?;
    if !machine.page(page).access.has(machine.current) {
        return Err(Miss::NoAccess);
    }
    if page == barred {
        return Err(Miss::OwnMailbox);
    }
    Ok(address as usize)
}

/// The word at an address that the current guest wants to read: its TX page is write-only.
fn read(machine: &Machine, memory: &[u32], address: u32) -> Result<u32, Miss> {
    let barred = machine.guest(machine.current).tx;
    Ok(memory[reach(machine, address, barred)?])
}

/// Changes the word at an address for the current guest: its RX page is read-only.
fn write(machine: &Machine, memory: &mut [u32], address: u32, word: u32) -> Result<(), Miss> {
    let barred = machine.guest(machine.current).rx;
    memory[reach(machine, address, barred)?] = word;
    Ok(())
}

/// The instruction at the current guest's pc.
fn fetch(machine: &Machine, memory: &[u32]) -> Result<Instruction, Fault> {
    let pc = machine.guest(machine.current).registers.pc;
    let word = read(machine, memory, pc).map_err(Fault::Fetch)?;
    decode(word).ok_or(Fault::NotAnInstruction)
}

/// Does what an instruction says and moves pc; on a fault or halt everything is left as it was.
fn execute(machine: &mut Machine, memory: &mut [u32], instruction: Instruction) -> Result<Did, Fault> {
    let caller = machine.current;
    let registers = &mut machine.guest_mut(caller).registers;
    let mut did = Did::Moved;
    match instruction {
        Instruction::Movi(d, k) => registers.set(d, k),
        Instruction::Movt(d, k) => registers.set(d, registers.get(d) & 0xFFFF | k << 16),
        Instruction::Mov(d, s) => registers.set(d, registers.get(s)),
        Instruction::Ldr(d, s) => {
            let address = registers.get(s);
            let word = read(machine, memory, address).map_err(Fault::Load)?;
            machine.guest_mut(caller).registers.set(d, word);
        }
        Instruction::Str(d, s) => {
            let (address, word) = (registers.get(s), registers.get(d));
            write(machine, memory, address, word).map_err(Fault::Store)?;
        }
        Instruction::Add(d, s) => registers.set(d, registers.get(d).wrapping_add(registers.get(s))),
        Instruction::Sub(d, s) => registers.set(d, registers.get(d).wrapping_sub(registers.get(s))),
        Instruction::Addi(d, k) => registers.set(d, registers.get(d).wrapping_add(k)),
        Instruction::Cmp(d, s) => registers.equal = registers.get(d) == registers.get(s),
        Instruction::Bne(s) if !registers.equal => return Ok(branch(registers, s)),
        Instruction::Bne(_) => {}
        Instruction::Br(s) => return Ok(branch(registers, s)),
        Instruction::Hvc => {
            calls::perform(machine, memory);
            did = Did::Called;
        }
        Instruction::Halt => return Ok(Did::Halted),
    }
    let pc = &mut machine.guest_mut(caller).registers.pc;
    *pc = pc.wrapping_add(1);
    Ok(did)
}

/// Moves pc to the address in Rs.
fn branch(registers: &mut Registers, s: u8) -> Did {
    registers.pc = registers.get(s);
    Did::Moved
}
