//! Poll, Wait and Send: messages between mailbox pages.

use super::{hand_to_primary, succeed, Outcome, BUSY, INVALID_PARAMETERS, NO_DATA, SEND, WAIT};
use crate::machine::{Inbox, Machine, PAGE_WORDS, PRIMARY};

/// Poll: tells the caller of its waiting message and empties its RX state.
pub(super) fn poll(machine: &mut Machine) -> Outcome {
    let guest = machine.guest_mut(machine.current);
    let Inbox::Full { length, sender } = guest.inbox else {
        return Err(NO_DATA);
    };
    guest.registers.set(0, SEND);
    guest.registers.set(1, u32::from(sender.0));
    guest.registers.set(2, length);
    guest.inbox = Inbox::Empty;
    Ok(())
}

/// Wait: as Poll if a message waits; otherwise a secondary gives control to the primary.
pub(super) fn wait(machine: &mut Machine) -> Outcome {
    if machine.guest(machine.current).inbox != Inbox::Empty {
        return poll(machine);
    }
    if machine.current == PRIMARY {
        return Err(NO_DATA);
    }
    succeed(machine);
    hand_to_primary(machine, WAIT);
    Ok(())
}

/// Send: copies the first R2 words of the caller's TX page to the RX page of the guest that R1 names.
pub(super) fn send(machine: &mut Machine, memory: &mut [u32], r1: u32, r2: u32) -> Outcome {
    let caller = machine.current;
    let receiver = machine
        .find_guest(r1)
        .filter(|&vm| vm != caller)
        .ok_or(INVALID_PARAMETERS)?;
    if !(1..=PAGE_WORDS as u32).contains(&r2) {
        return Err(INVALID_PARAMETERS);
    }
    if machine.guest(receiver).inbox != Inbox::Empty {
        return Err(BUSY);
    }
    let from = machine.guest(caller).tx.base();
    let to = machine.guest(receiver).rx.base();
    memory.copy_within(from..from + r2 as usize, to);
    machine.guest_mut(receiver).inbox = Inbox::Full {
        length: r2,
        sender: caller,
    };
    succeed(machine);
    if caller != PRIMARY {
        hand_to_primary(machine, SEND);
        machine.guest_mut(PRIMARY).registers.set(2, u32::from(receiver.0));
    }
    Ok(())
}
