//! The sentences for calls: what a line of bench says of itself, and what a rerun adds.

use super::pages;
use super::refused::refused;
use super::rerun::Step;
use super::{counted, guest};
use crate::asm::Assembly;
use reference::calls;
use reference::machine::{HANDLES, PAGE_WORDS, PRIMARY};
use reference::{call_name, error_name, Did, Handle, Machine, VmId};

/// A line for a call.
pub struct Call {
    pub step: u32,
    pub caller: VmId,
    /// R0 before.
    pub number: u32,
    /// R0 and R2 after.
    pub r0: u32,
    pub r2: u32,
}

impl Call {
    /// Whether bench prints this line for that step.
    pub fn is_of(&self, step: &Step) -> bool {
        let [before, after] = step.registers();
        step.did == Did::Called
            && self.caller == step.guest()
            && [self.number, self.r0, self.r2] == [before.get(0), after.get(0), after.get(2)]
    }

    /// Who calls what and what the answer is; the step, if it is known, is this call's.
    pub fn sentence(&self, text: Option<&Assembly>, step: Option<&Step>) -> String {
        let caller = guest(self.caller, text);
        let call = match call_name(self.number) {
            Some(name) => name.to_string(),
            None => format!("0x{:08x}, which is no call", self.number),
        };
        let success = self.success(text).map(|plain| {
            let detail = step.and_then(|step| self.detail(step, text));
            match detail.unwrap_or(plain) {
                detail if detail.is_empty() => "success".to_string(),
                detail => format!("success, {detail}"),
            }
        });
        let answer = success.or_else(|| self.error(text, step));
        let answer =
            answer.unwrap_or_else(|| format!("R0 = 0x{:08x}, R2 = 0x{:08x}, which it never answers", self.r0, self.r2));
        format!("step {}: {caller} calls {call}: {answer}", self.step)
    }

    /// What the line says of a call that worked; none if it did not, or cannot answer so.
    fn success(&self, text: Option<&Assembly>) -> Option<String> {
        let primary = self.caller == PRIMARY;
        let plain = self.r0 == calls::SUCCESS;
        let handed = || match primary {
            true => String::new(),
            false => format!("{} goes on", guest(PRIMARY, text)),
        };
        match self.number {
            calls::RUN => (primary && self.r0 == calls::RUN).then(|| "the guest in R1 goes on".to_string()),
            calls::YIELD | calls::SEND => plain.then(handed),
            calls::WAIT if plain && !primary => Some(handed()),
            calls::POLL | calls::WAIT => self.message().map(|message| message + ", its sender in R1"),
            calls::DONATE | calls::LEND | calls::SHARE => handle(self.r2)
                .filter(|_| plain)
                .map(|Handle(handle)| format!("handle {handle}")),
            calls::RETRIEVE | calls::RELINQUISH | calls::RECLAIM => plain.then(String::new),
            _ => None,
        }
    }

    /// The message that a Poll or Wait found.
    fn message(&self) -> Option<String> {
        let found = self.r0 == calls::SEND && (1..=PAGE_WORDS as u32).contains(&self.r2);
        found.then(|| format!("a message of {}", counted(self.r2, "word")))
    }

    /// What the step shows of a call that worked; none if that is no more than the line says.
    fn detail(&self, step: &Step, text: Option<&Assembly>) -> Option<String> {
        let [before, after] = step.registers();
        let named = |machine: &Machine, number| machine.find_guest(number).map(|vm| guest(vm, text));
        match self.number {
            calls::RUN => Some(format!("{} goes on", guest(step.after.current, text))),
            calls::POLL | calls::WAIT => Some(format!(
                "{} from {}",
                self.message()?,
                named(&step.after, after.get(1))?
            )),
            calls::SEND => {
                let receiver = named(&step.before, before.get(1))?;
                let sent = format!("{} to {receiver}", counted(before.get(2), "word"));
                Some(match self.caller == PRIMARY {
                    true => sent,
                    false => format!("{sent}; {} goes on", guest(PRIMARY, text)),
                })
            }
            calls::DONATE | calls::LEND | calls::SHARE => deal(&step.after, after.get(2), text, self.number),
            calls::RETRIEVE | calls::RELINQUISH | calls::RECLAIM => {
                deal(&step.before, before.get(1), text, self.number)
            }
            _ => None,
        }
    }

    /// The error by name, with its reason, which a step knows better than the line; none if the answer
    /// is no error that this call gives.
    fn error(&self, text: Option<&Assembly>, step: Option<&Step>) -> Option<String> {
        let name = error_name(self.r2).filter(|_| self.r0 == calls::ERROR)?;
        let reason = self.reason()?;
        let refused = step.and_then(|step| refused(step, text));
        match refused.filter(|refused| refused.code == self.r2) {
            Some(refused) => Some(format!("error {name} ({})", refused.why)),
            None => Some(format!("error {name} ({reason})")),
        }
    }

    /// When this call gives this error, as far as the line tells.
    fn reason(&self) -> Option<&'static str> {
        const BAD_HANDLE: &str = "R1 is no handle in use";
        const BAD_PAGE: &str = "a page is not as the transaction left it";
        let reason = match (self.number, self.r2) {
            (calls::RUN, calls::DENIED) => "only guest 0 may call it",
            (calls::RUN, calls::INVALID_PARAMETERS) => "R1 is 0 or no guest's number",
            (calls::POLL, calls::NO_DATA) => "no message is there",
            (calls::WAIT, calls::NO_DATA) => "no message is there, and guest 0 cannot wait for one",
            (calls::SEND, calls::INVALID_PARAMETERS) => "R1 is not another guest's number, or R2 not 1 to 1024",
            (calls::SEND, calls::BUSY) => "the receiver has not taken its last message",
            (calls::DONATE | calls::LEND | calls::SHARE, code) => match code {
                calls::INVALID_PARAMETERS => "R1 or the descriptor in TX is wrong",
                calls::DENIED => "a page is not the caller's own, or is donated, lent or shared already",
                calls::NO_MEMORY => "all 16 handles are in use",
                _ => return None,
            },
            (calls::RETRIEVE | calls::RELINQUISH | calls::RECLAIM, calls::INVALID_PARAMETERS) => BAD_HANDLE,
            (calls::RETRIEVE | calls::RELINQUISH | calls::RECLAIM, calls::ABORTED) => BAD_PAGE,
            (calls::RETRIEVE, calls::DENIED) => "the caller is not the receiver, or has retrieved already",
            (calls::RELINQUISH, calls::DENIED) => "the caller is not the receiver, or has not retrieved",
            (calls::RECLAIM, calls::DENIED) => "the caller is not the sender, or the receiver has not relinquished",
            (number, calls::NOT_SUPPORTED) if call_name(number).is_none() => "R0 chooses none",
            _ => return None,
        };
        Some(reason)
    }
}

/// The handle that a register names.
pub fn handle(word: u32) -> Option<Handle> {
    u8::try_from(word)
        .ok()
        .map(Handle)
        .filter(|handle| usize::from(handle.0) < HANDLES)
}

/// What a call does in the transaction behind a handle: which pages, and with whom.
fn deal(machine: &Machine, word: u32, text: Option<&Assembly>, call: u32) -> Option<String> {
    let handle = handle(word)?;
    let transaction = machine.transaction(handle);
    let deal = transaction.deal?;
    let (sender, receiver) = (guest(deal.sender, text), guest(deal.receiver, text));
    let party = match call {
        calls::RETRIEVE => format!(" from {sender}"),
        calls::RELINQUISH => format!(" back to {sender}"),
        calls::RECLAIM => format!(", no longer for {receiver}"),
        _ => format!(" to {receiver}"),
    };
    Some(format!("handle {}: {}{party}", handle.0, pages::listed(transaction)))
}
