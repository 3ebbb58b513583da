//! The workloads of `speed/`: each text makes an image that loads, and runs for ever.

use std::fs;
use std::path::Path;

use reference::{advance, call_name, load, Answer, Did, Loaded, Mode};
use tools::asm::assemble;

/// The names of the workloads.
const NAMES: [&str; 5] = ["arithmetic", "copying", "mixed", "ping-pong", "page-calls"];
/// What R0 holds after a call that worked: Success, or for Run its own number.
const WORKED: [u32; 2] = [0x8400_0061, 0x8400_006D];
/// How many steps are taken to see that a workload goes on.
const STEPS: u32 = 100_000;

/// A file of the repository.
fn read(path: &str) -> String {
    let root = Path::new(env!("CARGO_MANIFEST_DIR")).join("..");
    fs::read_to_string(root.join(path)).unwrap_or_else(|error| panic!("{path}: {error}"))
}

/// A workload as it is loaded, with its memory.
fn loaded(name: &str) -> (Loaded, Vec<u32>) {
    let text = read(&format!("speed/workloads/{name}.asm"));
    let assembly = assemble(&text).unwrap_or_else(|problems| panic!("{name}: {problems:?}"));
    assert_eq!(assembly.warnings(), [], "{name}");
    let mut memory = vec![0; 10 * 1024];
    let loaded = load(&assembly.image, &mut memory);
    assert_eq!(loaded.answer, Answer::Done, "{name}");
    (loaded, memory)
}

#[test]
fn each_goes_on_and_its_calls_work() {
    for name in NAMES {
        let (Loaded { mut machine, .. }, mut memory) = loaded(name);
        for step in 0..STEPS {
            let caller = machine.current;
            let r0 = machine.guest(caller).registers.get(0);
            if advance(&mut machine, &mut memory) == Did::Called {
                let after = machine.guest(caller).registers.get(0);
                assert!(WORKED.contains(&after), "{name}, {step}: {:?}", call_name(r0));
            }
            assert_eq!(machine.mode, Mode::Normal, "{name}, {step}");
        }
    }
}
