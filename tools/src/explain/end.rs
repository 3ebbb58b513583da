//! Where and why a run ended, which bench does not print.

use super::pages::Wanted;
use super::rerun::Rerun;
use super::{counted, guest};
use crate::asm::Assembly;
use crate::numbers::address_text;
use reference::machine::PAGE_WORDS;
use reference::{decode, Did, Fault, Instruction, Machine, Miss, Mode};

/// The sentence for the last line of a run; the rerun, if there is one, stands where the run ended.
pub fn sentence(steps: u32, mode: Mode, known: Option<(&Assembly, &Rerun)>) -> String {
    let place = known.map(|(text, rerun)| standing(text, &rerun.machine));
    let reason = match (mode, known) {
        (Mode::Halted, _) => None,
        (Mode::Normal, None) => Some("the budget is used up".to_string()),
        (Mode::Normal, Some(_)) => Some("it would go on here, but the budget is used up".to_string()),
        (Mode::Fault, None) => {
            Some("a guest reached for a word that it may not reach, or ran one that is no instruction".to_string())
        }
        (Mode::Fault, Some((text, rerun))) => reason(text, rerun),
    };
    let parts = [Some(mode.word().to_string()), place, reason];
    let parts: Vec<String> = parts.into_iter().flatten().collect();
    format!("end: {}, {}", counted(steps, "step"), parts.join(": "))
}

/// The current guest and where it stands, with the line of the text that gave the word there.
fn standing(text: &Assembly, machine: &Machine) -> String {
    let pc = pc(machine);
    let line = text.line_of_word(pc).map(|line| format!(", line {line} of the text"));
    let place = address_text(u64::from(pc));
    let guest = guest(machine.current, Some(text));
    format!("{guest} at {place}{}", line.unwrap_or_default())
}

/// The current guest's pc.
fn pc(machine: &Machine) -> u32 {
    machine.guest(machine.current).registers.pc
}

/// Why the last step faulted; none if it did not.
fn reason(text: &Assembly, rerun: &Rerun) -> Option<String> {
    let machine = &rerun.machine;
    let Did::Faulted(fault) = rerun.did else { return None };
    let pc = pc(machine);
    let word = rerun.memory.get(pc as usize).copied().unwrap_or_default();
    let register = |s: u8| machine.guest(machine.current).registers.get(s);
    let (what, miss, address) = match (fault, decode(word)) {
        (Fault::NotAnInstruction, _) => return Some(format!("the word there, 0x{word:08x}, is no instruction")),
        (Fault::Fetch(miss), _) => ("run the word there".to_string(), miss, pc),
        (Fault::Load(miss), Some(Instruction::Ldr(_, s))) => {
            let address = register(s);
            (format!("load from {}", address_text(u64::from(address))), miss, address)
        }
        (Fault::Store(miss), Some(Instruction::Str(_, s))) => {
            let address = register(s);
            (format!("store to {}", address_text(u64::from(address))), miss, address)
        }
        _ => return None,
    };
    Some(format!("it cannot {what}: {}", miss_text(text, machine, miss, address)))
}

/// Why an address is out of the current guest's reach.
fn miss_text(text: &Assembly, machine: &Machine, miss: Miss, address: u32) -> String {
    let page = machine.find_page(address / PAGE_WORDS as u32);
    let Some(page) = page.filter(|_| miss != Miss::Outside) else {
        return "that is outside memory".to_string();
    };
    let wanted = Wanted {
        machine,
        page,
        by: machine.current,
        text: Some(text),
    };
    match miss {
        Miss::OwnMailbox => wanted.sentence(),
        _ => format!("it has no access to {}", wanted.clause()),
    }
}
