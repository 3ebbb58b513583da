//! The program `explain`: bench's lines to sentences.

use std::io::{self, BufRead};
use std::path::Path;
use std::process::ExitCode;
use tools::asm::Assembly;
use tools::explain::{explain, Explainer};
use tools::names;
use tools::program::{self, Arguments};

const HELP: &str = "\
explain [--both] [TEXT]
Turns the lines of bench on standard input into sentences.
With TEXT, the text of the image, guests have names, calls their pages and partners, a fault its line.
With --both, each line of bench stands above its sentence.
A line that bench cannot have printed is an error. An example:
    reference bench < share.image | explain share.asm
";

/// Lines of bench in, sentences out.
fn main() -> ExitCode {
    program::run("explain", HELP, &["--both"], work)
}

/// Explains line by line, as they come; wrong lines are told and passed over.
fn work(arguments: &Arguments) -> Result<(), Vec<String>> {
    let file = arguments.file.as_deref();
    let text = file.map(read_text).transpose()?;
    let mut explainer = Explainer::new(text.as_ref());
    let mut problems = Vec::new();
    let mut count = 0;
    for line in io::stdin().lock().split(b'\n') {
        let line = line.map_err(|error| vec![format!("standard input: {error}")])?;
        count += 1;
        let line = String::from_utf8_lossy(&line);
        let Some(explanation) = explainer.explain(&line) else {
            problems.push(format!("stdin:{count}: {} is no line of bench's", names::quote(&line)));
            continue;
        };
        if explanation.astray {
            program::complain(&[astray(count, &program::shown(file))]);
        }
        program::print(shown(&line, &explanation.sentence, arguments.both).as_bytes())?;
    }
    if count == 0 {
        problems.push("explain: standard input is empty, but bench always prints a line".to_string());
    }
    match problems.is_empty() {
        true => Ok(()),
        false => Err(problems),
    }
}

/// Reads and assembles TEXT; that it holds lines of bench instead is told as such.
fn read_text(file: &Path) -> Result<Assembly, Vec<String>> {
    program::read_assembly(Some(file)).map_err(|problems| {
        let bytes = program::read(Some(file)).unwrap_or_default();
        let first = bytes.split(|byte| *byte == b'\n').next().unwrap_or_default();
        match explain(&String::from_utf8_lossy(first), None) {
            Some(_) => vec![format!(
                "explain: {} holds lines of bench, not the text of an image: they belong on standard input, behind <",
                file.display()
            )],
            None => problems,
        }
    })
}

/// The warning about the first line that is not the text's.
fn astray(line: usize, text: &str) -> String {
    format!(
        "stdin:{line}: warning: {text} does not give this line, so it is not what was benched; \
         from here on its names are left out, and what its run would tell"
    )
}

/// What is printed for a line of bench.
fn shown(line: &str, sentence: &str, both: bool) -> String {
    match both {
        true => format!("{line}\n    {sentence}\n"),
        false => format!("{sentence}\n"),
    }
}
