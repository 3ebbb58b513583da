//! The program `asm`: text to image.

use std::fs;
use std::io::{self, IsTerminal};
use std::path::Path;
use std::process::ExitCode;
use tools::asm::Assembly;
use tools::program::{self, Arguments};

const HELP: &str = "\
asm [--quiet] [FILE] [-o IMAGE]
Makes an image of a text: standard input and output where no file is given.
If something is wrong with the text, says what, line by line, and writes nothing.
An image that a loader or bench would refuse is made all the same, with a warning unless --quiet is given.
The text form is explained in tools/README.md. An example:
    asm share.asm -o share.image
";

/// Text in, image out.
fn main() -> ExitCode {
    program::run("asm", HELP, &["-o", "--quiet"], work)
}

/// Assembles and writes, unless the image would land where nobody wants it.
fn work(arguments: &Arguments) -> Result<(), Vec<String>> {
    let (file, output) = (arguments.file.as_deref(), arguments.output.as_deref());
    if output.is_none() && io::stdout().is_terminal() {
        return Err(vec![
            "asm: an image is no text for a terminal: use -o IMAGE, or a pipe".to_string()
        ]);
    }
    if let (Some(file), Some(output)) = (file, output) {
        if same_file(file, output) {
            return Err(vec![format!(
                "asm: {} is the text itself: choose another name for -o",
                output.display()
            )]);
        }
    }
    let assembly = program::read_assembly(file)?;
    if !arguments.quiet {
        program::complain(&warnings(&program::shown(file), &assembly));
    }
    match output {
        None => program::print(&assembly.image),
        Some(output) => {
            fs::write(output, &assembly.image).map_err(|error| vec![format!("{}: {error}", output.display())])
        }
    }
}

/// Whether two paths lead to one file.
fn same_file(left: &Path, right: &Path) -> bool {
    match (fs::canonicalize(left), fs::canonicalize(right)) {
        (Ok(left), Ok(right)) => left == right,
        _ => false,
    }
}

/// The warnings, each with the file's name and the line.
fn warnings(name: &str, assembly: &Assembly) -> Vec<String> {
    let place = |line: Option<usize>| line.map_or(name.to_string(), |line| format!("{name}:{line}"));
    assembly
        .warnings()
        .iter()
        .map(|warning| format!("{}: warning: {}", place(warning.line), warning.what))
        .collect()
}
