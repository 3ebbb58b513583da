//! The calls: the effect of the current guest's hvc, but for the move of its pc.
//!
//! Here stand their numbers, the choice among them and what several have in common;
//! the calls themselves are in the modules below, in the scope document's order.

mod message;
mod schedule;
mod send_pages;
mod transfer;

use crate::machine::{Kind, Machine, VmId, PRIMARY};

pub const RUN: u32 = 0x8400_006D;
pub const YIELD: u32 = 0x8400_006C;
pub const POLL: u32 = 0x8400_006A;
pub const WAIT: u32 = 0x8400_006B;
pub const SEND: u32 = 0x8400_006E;
pub const DONATE: u32 = 0x8400_0071;
pub const LEND: u32 = 0x8400_0072;
pub const SHARE: u32 = 0x8400_0073;
pub const RETRIEVE: u32 = 0x8400_0074;
pub const RELINQUISH: u32 = 0x8400_0076;
pub const RECLAIM: u32 = 0x8400_0077;

/// R0 after a success that has no R0 of its own.
pub const SUCCESS: u32 = 0x8400_0061;
/// R0 after an error.
pub const ERROR: u32 = 0x8400_0060;

pub const NOT_SUPPORTED: u32 = -1i32 as u32;
pub const INVALID_PARAMETERS: u32 = -2i32 as u32;
pub const NO_MEMORY: u32 = -3i32 as u32;
pub const BUSY: u32 = -4i32 as u32;
pub const DENIED: u32 = -6i32 as u32;
pub const ABORTED: u32 = -8i32 as u32;
pub const NO_DATA: u32 = -9i32 as u32;

/// The name of the call that a number in R0 chooses, if it chooses one.
pub fn call_name(number: u32) -> Option<&'static str> {
    match number {
        RUN => Some("Run"),
        YIELD => Some("Yield"),
        POLL => Some("Poll"),
        WAIT => Some("Wait"),
        SEND => Some("Send"),
        DONATE => Some("Donate"),
        LEND => Some("Lend"),
        SHARE => Some("Share"),
        RETRIEVE => Some("Retrieve"),
        RELINQUISH => Some("Relinquish"),
        RECLAIM => Some("Reclaim"),
        _ => None,
    }
}

/// The name of an error code as R2 shows it, if it is one.
pub fn error_name(code: u32) -> Option<&'static str> {
    match code {
        NOT_SUPPORTED => Some("NOT_SUPPORTED"),
        INVALID_PARAMETERS => Some("INVALID_PARAMETERS"),
        NO_MEMORY => Some("NO_MEMORY"),
        BUSY => Some("BUSY"),
        DENIED => Some("DENIED"),
        ABORTED => Some("ABORTED"),
        NO_DATA => Some("NO_DATA"),
        _ => None,
    }
}

/// What a call leaves to be written: nothing, or the error code in its caller's registers.
type Outcome = Result<(), u32>;

/// Makes the current guest's call on a sound machine with its memory; the caller has tested both.
pub(crate) fn perform(machine: &mut Machine, memory: &mut [u32]) {
    let caller = machine.current;
    let [number, r1, r2, ..] = machine.guest(caller).registers.r;
    let outcome = match number {
        RUN => schedule::run(machine, r1),
        YIELD => schedule::yield_control(machine),
        POLL => message::poll(machine),
        WAIT => message::wait(machine),
        SEND => message::send(machine, memory, r1, r2),
        DONATE => send_pages::send_pages(machine, memory, r1, Kind::Donate),
        LEND => send_pages::send_pages(machine, memory, r1, Kind::Lend),
        SHARE => send_pages::send_pages(machine, memory, r1, Kind::Share),
        RETRIEVE => transfer::retrieve(machine, r1),
        RELINQUISH => transfer::relinquish(machine, r1),
        RECLAIM => transfer::reclaim(machine, r1),
        _ => Err(NOT_SUPPORTED),
    };
    if let Err(code) = outcome {
        let registers = &mut machine.guest_mut(caller).registers;
        registers.set(0, ERROR);
        registers.set(2, code);
    }
}

/// Answers success to the current guest.
fn succeed(machine: &mut Machine) {
    machine.guest_mut(machine.current).registers.set(0, SUCCESS);
}

/// Takes control from the current guest, a secondary, to guest 0: R0 tells it why and R1 who called.
fn hand_to_primary(machine: &mut Machine, reason: u32) {
    let VmId(caller) = machine.current;
    machine.current = PRIMARY;
    let registers = &mut machine.guest_mut(PRIMARY).registers;
    registers.set(0, reason);
    registers.set(1, u32::from(caller));
}
