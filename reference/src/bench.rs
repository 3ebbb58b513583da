//! The bench: loads an image, runs it and prints a line for every call.

use std::io::{self, BufWriter, Read, Write};

use crate::answers::Answer;
use crate::image::{judge, load};
use crate::machine::{Machine, Mode};
use crate::step::{advance, Did};

/// The longest image that the bench takes, in bytes.
pub const IMAGE_BYTES: usize = 65_536;
/// The most pages of a machine that the bench runs.
pub const BENCH_PAGES: u8 = 16;

/// Benches the image that the input holds, and fails only if reading or writing does.
pub fn bench(input: &mut impl Read, output: &mut impl Write) -> io::Result<()> {
    let mut image = Vec::new();
    input.take(IMAGE_BYTES as u64 + 1).read_to_end(&mut image)?;
    let mut output = BufWriter::new(output);
    report(&image, &mut output)?;
    output.flush()
}

/// What the bench prints for an image.
pub fn bench_text(image: &[u8]) -> String {
    let mut output = Vec::new();
    report(image, &mut output).expect("a vector takes whatever is written to it");
    String::from_utf8_lossy(&output).into_owned()
}

/// Writes the one line of a refusal, or the lines of a run.
fn report(image: &[u8], output: &mut impl Write) -> io::Result<()> {
    if image.len() > IMAGE_BYTES {
        return writeln!(output, "refused {}", Answer::WrongMemory.number());
    }
    match judge(image) {
        Err(broken) => writeln!(output, "refused {} {}", Answer::BrokenImage.number(), broken.offset),
        Ok(judged) if judged.m > BENCH_PAGES => writeln!(output, "refused {}", Answer::WrongMemory.number()),
        Ok(judged) => {
            let mut memory = vec![0; judged.memory_words()];
            let loaded = load(image, &mut memory);
            report_run(loaded.machine, &mut memory, loaded.budget, output)
        }
    }
}

/// Runs a sound machine and writes a line for every call, and the last one.
fn report_run(mut machine: Machine, memory: &mut [u32], budget: u32, output: &mut impl Write) -> io::Result<()> {
    let mut steps = 0;
    while steps < budget && machine.mode == Mode::Normal {
        let caller = machine.current;
        let before = machine.guest(caller).registers.get(0);
        let did = advance(&mut machine, memory);
        steps += 1;
        if did == Did::Called {
            let [after, _, value, ..] = machine.guest(caller).registers.r;
            writeln!(output, "{steps} {} {before:08x} {after:08x} {value:08x}", caller.0)?;
        }
    }
    writeln!(output, "end {steps} {}", machine.mode.word())
}
