//! The workloads: images made from their texts.

use std::time::{Duration, Instant};

use reference::{load, Answer, Machine};
use tools::asm::assemble;

use crate::library;

/// Name and text of each workload.
const TEXTS: [(&str, &str); 5] = [
    ("arithmetic", include_str!("../workloads/arithmetic.asm")),
    ("copying", include_str!("../workloads/copying.asm")),
    ("mixed", include_str!("../workloads/mixed.asm")),
    ("ping-pong", include_str!("../workloads/ping-pong.asm")),
    ("page-calls", include_str!("../workloads/page-calls.asm")),
];

/// The words of memory that every workload runs in.
pub const MEMORY: usize = 10 * 1024;

/// A workload as it starts.
pub struct Workload {
    pub name: &'static str,
    pub image: Vec<u8>,
    machine: Machine,
    memory: Vec<u32>,
}

/// A run: what a host can see of what it leaves, and how long it took.
pub struct Run {
    pub count: u32,
    pub memory: Vec<u32>,
    pub time: Duration,
}

/// All workloads, or what is wrong with one of them.
pub fn all() -> Result<Vec<Workload>, String> {
    TEXTS.iter().map(|(name, text)| made(name, text)).collect()
}

/// A workload from its text.
fn made(name: &'static str, text: &str) -> Result<Workload, String> {
    let assembly = assemble(text).map_err(|problems| format!("{name}: {problems:?}"))?;
    let mut memory = vec![0; MEMORY];
    let loaded = load(&assembly.image, &mut memory);
    if loaded.answer != Answer::Done {
        return Err(format!("{name}: the image is refused: {:?}", loaded.answer));
    }
    Ok(Workload {
        name,
        image: assembly.image,
        machine: loaded.machine,
        memory,
    })
}

impl Workload {
    /// A run of the reference.
    pub fn by_reference(&self, budget: u32) -> Run {
        let mut machine = self.machine.clone();
        let mut memory = self.memory.clone();
        let start = Instant::now();
        let (_, count) = reference::run(&mut machine, &mut memory, budget);
        let time = start.elapsed();
        Run { count, memory, time }
    }

    /// A run of the proved library, in memory that holds something else before.
    pub fn by_library(&self, budget: u32) -> Run {
        let mut memory = vec![u32::MAX; MEMORY];
        let start = Instant::now();
        let count = library::run(&self.image, budget, &mut memory);
        let time = start.elapsed();
        Run { count, memory, time }
    }
}
