//! Counts what finished images meet when they are loaded and run from their start.

use std::collections::{BTreeMap, BTreeSet};

use super::call::{Call, FAILURE};
use super::checked::{checked_step, next_instruction, Stepped};
use super::ending::BadWord;
use super::flag::Flags;
use super::flaw::first_flaws;
use super::plan::answers;
use super::possible::{possible, size_labels, SHOWN};
use super::standing::{page_of, standing, Use};
use super::story::Story;
use super::wrong::first_and_next;
use super::{make, Made};
use crate::bench::{bench_text, BENCH_PAGES, IMAGE_BYTES};
use crate::calls::error_name;
use crate::image::{judge, load, Broken, Judged};
use crate::instructions::Instruction;
use crate::machine::{Handle, Inbox, Kind, Machine, Mode, PRIMARY};
use crate::step::{Did, Fault, Miss};

/// How often each thing was met.
#[derive(Clone, Debug, Default)]
pub struct Tally {
    met: BTreeMap<String, u64>,
}

impl Tally {
    /// Counts one thing.
    pub fn meet(&mut self, label: &str) {
        match self.met.get_mut(label) {
            Some(count) => *count += 1,
            None => {
                self.met.insert(label.to_string(), 1);
            }
        }
    }

    /// How often a thing was met.
    pub fn count(&self, label: &str) -> u64 {
        self.met.get(label).copied().unwrap_or(0)
    }

    /// The tally as if one thing had not been met.
    pub fn without(&self, label: &str) -> Tally {
        let mut other = self.clone();
        other.met.remove(label);
        other
    }

    /// What was met, by name.
    pub fn entries(&self) -> impl Iterator<Item = (&String, &u64)> {
        self.met.iter()
    }

    /// What of this list was not met.
    pub fn missing(&self, list: &[String]) -> Vec<String> {
        list.iter().filter(|label| self.count(label) == 0).cloned().collect()
    }

    /// What was met and is not on this list, because it cannot occur.
    pub fn impossible(&self, list: &[String]) -> Vec<String> {
        let list: BTreeSet<&String> = list.iter().collect();
        self.met.keys().filter(|label| !list.contains(label)).cloned().collect()
    }

    /// Counts all of another tally, each name with this before it.
    fn add(&mut self, prefix: &str, other: &Tally) {
        for (label, count) in &other.met {
            *self.met.entry(format!("{prefix}{label}")).or_default() += count;
        }
    }
}

/// What so many images of a seed meet.
pub fn tally(seed: u64, count: u64) -> Result<Tally, String> {
    let mut tally = Tally::default();
    for number in 0..count {
        let made = make(seed, number)?;
        measure(&made, &mut tally).map_err(|complaint| format!("image {number} of seed {seed}: {complaint}"))?;
    }
    Ok(tally)
}

/// The tables of a tally, and whether everything was met that can be and nothing else.
pub fn report(tally: &Tally) -> (String, bool) {
    let list = possible();
    let mut text = String::new();
    let mut table = "";
    for (label, count) in tally.entries() {
        let (heading, entry) = label.split_once(' ').unwrap_or((label, ""));
        if heading != table {
            text += &format!("{heading}\n");
            table = heading;
        }
        text += &format!("{count:>10}  {entry}\n");
    }
    let (missing, impossible) = (tally.missing(&list), tally.impossible(&list));
    for label in &missing {
        text += &format!("not met: {label}\n");
    }
    for label in &impossible {
        text += &format!("met, but cannot occur: {label}\n");
    }
    let good = missing.is_empty() && impossible.is_empty();
    if good {
        text += &format!("all {0} of {0} met\n", list.len());
    } else {
        text += &format!("{} of {} met\n", list.len() - missing.len(), list.len());
    }
    (text, good)
}

/// Counts what one image meets; what its run meets is counted again as shown, if the bench runs it.
pub fn measure(made: &Made, tally: &mut Tally) -> Result<(), String> {
    let image = &made.bytes;
    tally.meet(&format!("class {}", made.class.name()));
    if let Some((rule, way)) = made.damage {
        tally.meet(&format!("damage {rule:?} way {way}"));
    }
    let judged = judge(image);
    for label in size_labels(image, judged.ok().map(|judged| judged.m)) {
        tally.meet(&label);
    }
    measure_bench(image, judged, tally)?;
    match judged {
        Err(Broken { rule, .. }) => tally.meet(&format!("rule {rule:?}")),
        Ok(judged) => {
            let mut of_run = Tally::default();
            Watch::new(image, judged).run(&mut of_run)?;
            tally.add("", &of_run);
            if image.len() <= IMAGE_BYTES && judged.m <= BENCH_PAGES {
                tally.add(SHOWN, &of_run);
            }
        }
    }
    Ok(())
}

/// Counts what the bench says to an image, and compares a refusal with what it must be.
fn measure_bench(image: &[u8], judged: Result<Judged, Broken>, tally: &mut Tally) -> Result<(), String> {
    let (label, due) = match judged {
        _ if image.len() > IMAGE_BYTES => ("bench too long", "refused 1\n".to_string()),
        Err(broken) => ("bench broken", format!("refused 4 {}\n", broken.offset)),
        Ok(judged) if judged.m > BENCH_PAGES => ("bench too many pages", "refused 1\n".to_string()),
        Ok(_) => {
            tally.meet("bench run");
            return Ok(());
        }
    };
    tally.meet(label);
    let is = bench_text(image);
    if is != due {
        return Err(format!("the bench says {is:?} and not {due:?}"));
    }
    Ok(())
}

/// A loaded image that is watched while it runs.
struct Watch {
    machine: Machine,
    memory: Vec<u32>,
    budget: u32,
    steps: u32,
    /// The step of the last call; 0 if there was none.
    last_call: u32,
    story: Story,
    flags: Flags,
}

impl Watch {
    /// A good image, loaded.
    fn new(image: &[u8], judged: Judged) -> Watch {
        let mut memory = vec![0; judged.memory_words()];
        let loaded = load(image, &mut memory);
        Watch {
            story: Story::new(memory.len()),
            flags: Flags::default(),
            machine: loaded.machine,
            memory,
            budget: loaded.budget,
            steps: 0,
            last_call: 0,
        }
    }

    /// Runs to the end and counts on the way.
    fn run(mut self, tally: &mut Tally) -> Result<(), String> {
        tally.meet(&format!("machine guests {}", self.machine.n));
        if self.machine.m == 2 * self.machine.n {
            tally.meet("machine pages 2n");
        }
        let mut last = Did::Moved;
        let mut calls = 0;
        while self.steps < self.budget && self.machine.mode == Mode::Normal {
            self.steps += 1;
            last = self
                .step(tally)
                .map_err(|complaint| format!("step {}: {complaint}", self.steps))?;
            if last == Did::Called {
                calls += 1;
                self.last_call = self.steps;
            }
        }
        if calls > 200 && self.steps < 10 * calls {
            tally.meet("pace many calls in few steps");
        }
        if self.steps > 2000 && self.steps > 500 * calls {
            tally.meet("pace few calls in many steps");
        }
        self.measure_width(tally);
        self.measure_end(last, tally);
        Ok(())
    }

    /// One step.
    fn step(&mut self, tally: &mut Tally) -> Result<Did, String> {
        let instruction = next_instruction(&self.machine, &self.memory);
        if let Some(instruction) = instruction {
            self.measure_instruction(instruction, tally);
            self.story.before(&self.machine, &self.memory, instruction, tally);
            self.flags.before(&self.machine, instruction);
        }
        let before = (instruction == Some(Instruction::Hvc)).then(|| self.machine.clone());
        let word = self.word_at_pc();
        let stepped = checked_step(&mut self.machine, &mut self.memory)?;
        if let Some(before) = before {
            measure_call(&before, &self.machine, &stepped, tally);
            self.story.called(&before, &self.machine, &self.memory, tally);
            self.flags.called(&before, &self.machine);
        }
        if let Did::Faulted(fault) = stepped.did {
            tally.meet(&self.fault_label(fault, word));
        }
        if stepped.did != Did::Moved {
            self.flags.shown(tally);
        }
        Ok(stepped.did)
    }

    /// The word at the current guest's pc; 0 if that is outside memory.
    fn word_at_pc(&self) -> u32 {
        let pc = self.machine.guest(self.machine.current).registers.pc;
        self.memory.get(pc as usize).copied().unwrap_or(0)
    }

    /// Counts an instruction that is about to be executed and the words that it uses, if it can.
    fn measure_instruction(&self, instruction: Instruction, tally: &mut Tally) {
        let registers = self.machine.guest(self.machine.current).registers;
        self.measure_use(Use::Fetch, registers.pc, tally);
        match instruction {
            Instruction::Ldr(_, s) if !self.measure_use(Use::Load, registers.get(s), tally) => return,
            Instruction::Str(_, s) if !self.measure_use(Use::Store, registers.get(s), tally) => return,
            _ => {}
        }
        tally.meet(match instruction {
            Instruction::Movi(..) => "step movi",
            Instruction::Movt(..) => "step movt",
            Instruction::Mov(..) => "step mov",
            Instruction::Ldr(..) => "step ldr",
            Instruction::Str(..) => "step str",
            Instruction::Add(..) => "step add",
            Instruction::Sub(..) => "step sub",
            Instruction::Addi(..) => "step addi",
            Instruction::Cmp(d, s) if registers.get(d) == registers.get(s) => "step cmp equal",
            Instruction::Cmp(..) => "step cmp unequal",
            Instruction::Bne(_) if registers.equal => "step bne not taken",
            Instruction::Bne(_) => "step bne taken",
            Instruction::Br(_) => "step br",
            Instruction::Hvc => "step hvc",
            Instruction::Halt => "step halt",
        });
    }

    /// Counts the use of a word and tells whether it is allowed.
    fn measure_use(&self, how: Use, address: u32, tally: &mut Tally) -> bool {
        let vm = self.machine.current;
        let Some(page) = page_of(&self.machine, address) else {
            return false;
        };
        let standing = standing(&self.machine, vm, page);
        if standing.allows(how) {
            tally.meet(&format!("use {how:?} {standing:?}"));
        }
        standing.allows(how)
    }

    /// The name of a fault by its cause; `word` is what stood at pc. A fault leaves the machine as it was.
    fn fault_label(&self, fault: Fault, word: u32) -> String {
        let vm = self.machine.current;
        let registers = self.machine.guest(vm).registers;
        let (how, miss, address) = match (fault, next_instruction(&self.machine, &self.memory)) {
            (Fault::NotAnInstruction, _) => return format!("fault word {:?}", BadWord::of(word)),
            (Fault::Fetch(miss), _) => (Use::Fetch, miss, registers.pc),
            (Fault::Load(miss), Some(Instruction::Ldr(_, s))) => (Use::Load, miss, registers.get(s)),
            (Fault::Store(miss), Some(Instruction::Str(_, s))) => (Use::Store, miss, registers.get(s)),
            (fault, instruction) => return format!("fault {fault:?} of {instruction:?}"),
        };
        match (miss, page_of(&self.machine, address)) {
            (Miss::Outside, None) => format!("fault {how:?} Outside"),
            (_, Some(page)) => format!("fault {how:?} {miss:?} {:?}", standing(&self.machine, vm, page)),
            (_, None) => format!("fault {how:?} {miss:?} outside memory"),
        }
    }

    /// Counts numbers of steps that need more than 16 bits: a budget of which 16 bits would not do, and steps that are printed.
    fn measure_width(&self, tally: &mut Tally) {
        let stopped = self.machine.mode != Mode::Normal;
        if stopped && self.budget > 0xFFFF && self.budget & 0xFFFF < self.steps {
            tally.meet("end budget above 65535");
        }
        if stopped && self.budget > 0x7FFF_FFFF {
            tally.meet("end budget above 2147483647");
        }
        if stopped && self.steps > 0xFFFF && self.last_call > 0xFFFF {
            tally.meet("end steps above 65535");
        }
    }

    /// Counts how the run ended.
    fn measure_end(&mut self, last: Did, tally: &mut Tally) {
        if self.budget == 0 {
            tally.meet("end budget 0");
            return;
        }
        let spent = if self.steps == self.budget {
            "budget spent"
        } else {
            "budget left"
        };
        if self.machine.mode != Mode::Normal {
            tally.meet(&format!("end {} {spent}", self.machine.mode.word()));
            return;
        }
        tally.meet("end normal");
        if last == Did::Called {
            tally.meet("end normal right after a call");
        }
        if self.machine.current != PRIMARY {
            tally.meet("end normal in a secondary");
        }
        if self.machine.guests.iter().any(|guest| guest.inbox != Inbox::Empty) {
            tally.meet("end normal while a message waits");
        }
        if self
            .machine
            .transactions
            .iter()
            .any(|transaction| transaction.deal.is_some())
        {
            tally.meet("end normal while a transaction is open");
        }
        let next = checked_step(&mut self.machine, &mut self.memory);
        match next.map(|stepped| stepped.did) {
            Ok(Did::Halted) => tally.meet("end normal one step before a halt"),
            Ok(Did::Faulted(_)) => tally.meet("end normal one step before a fault"),
            _ => {}
        }
    }
}

/// Counts a call by its answer, and by what was wrong with it.
fn measure_call(before: &Machine, after: &Machine, stepped: &Stepped, tally: &mut Tally) {
    let caller = before.current;
    let call = Call::of(before.guest(caller).registers.get(0));
    let [r0, _, r2, ..] = after.guest(caller).registers.r;
    let failed = r0 == FAILURE;
    let answer = match error_name(r2) {
        Some(name) if failed => name.to_string(),
        _ if failed => format!("error {r2:08x}"),
        _ => success_label(before, call),
    };
    tally.meet(&format!("call {call:?} {answer}"));
    match stepped.flaws.as_slice() {
        [] => {}
        [found] => {
            tally.meet(&format!("wrong {call:?} {:?}", found.flaw));
            if let (true, Some(place)) = (found.flaw.has_place(), found.place) {
                tally.meet(&format!("place {call:?} {:?} {place:?}", found.flaw.answer()));
            }
        }
        several => {
            if let [first, second, ..] = answers(several)[..] {
                tally.meet(&format!("both {call:?} {first:?} before {second:?}"));
            }
            if let Some((flaw, next)) = first_and_next(several) {
                if first_flaws().contains(&(call, flaw, next)) {
                    tally.meet(&format!("both {call:?} {flaw:?} before {next:?}"));
                }
            }
        }
    }
}

/// What kind of success a call had, by its caller or by its transaction's kind.
fn success_label(before: &Machine, call: Call) -> String {
    let caller = before.current;
    let guest = before.guest(caller);
    let by = if caller == PRIMARY {
        "by the primary"
    } else {
        "by a secondary"
    };
    let kind = || -> Option<Kind> {
        let handle = Handle(
            u8::try_from(guest.registers.get(1))
                .ok()
                .filter(|&number| number < 16)?,
        );
        before.transaction(handle).deal.map(|deal| deal.kind)
    };
    match call {
        Call::Run => "done".to_string(),
        Call::Wait if guest.inbox == Inbox::Empty => "without a message".to_string(),
        Call::Send if caller != PRIMARY && guest.registers.get(1) == 0 => "by a secondary to the primary".to_string(),
        Call::Retrieve | Call::Relinquish | Call::Reclaim => kind().map_or("?".to_string(), |kind| format!("{kind:?}")),
        _ => by.to_string(),
    }
}
