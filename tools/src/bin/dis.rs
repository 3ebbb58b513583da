//! The program `dis`: image to text.

use std::process::ExitCode;
use tools::dis::disassemble;
use tools::program::{self, Arguments};

const HELP: &str = "\
dis [IMAGE]
Prints the text of an image, or of any bytes: standard input if no file is given.
asm makes the same bytes of that text again, whatever they are.
Above a record that a loader would refuse, a comment says why.
The text form is explained in tools/README.md. An example:
    dis share.image > share.asm
";

/// Image in, text out.
fn main() -> ExitCode {
    program::run("dis", HELP, &[], work)
}

/// Reads all, prints all.
fn work(arguments: &Arguments) -> Result<(), Vec<String>> {
    let image = program::read(arguments.file.as_deref())?;
    program::print(disassemble(&image).as_bytes())
}
