//! Run and Yield: the primary gives control to a secondary and gets it back.

use super::{hand_to_primary, succeed, Outcome, DENIED, INVALID_PARAMETERS, YIELD};
use crate::machine::{Machine, PRIMARY};

/// Run: makes the guest that R1 names current. No register changes.
pub(super) fn run(machine: &mut Machine, r1: u32) -> Outcome {
    if machine.current != PRIMARY {
        return Err(DENIED);
    }
    let chosen = machine
        .find_guest(r1)
        .filter(|&vm| vm != PRIMARY)
        .ok_or(INVALID_PARAMETERS)?;
    machine.current = chosen;
    Ok(())
}

/// Yield: a secondary gives control back to the primary.
pub(super) fn yield_control(machine: &mut Machine) -> Outcome {
    succeed(machine);
    if machine.current != PRIMARY {
        hand_to_primary(machine, YIELD);
    }
    Ok(())
}
