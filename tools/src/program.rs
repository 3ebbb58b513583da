//! What the programs have in common: arguments, reading, writing and failing.

use crate::asm::{assemble, Assembly};
use std::ffi::OsString;
use std::io::{self, Read, Write};
use std::path::{Path, PathBuf};
use std::process::ExitCode;
use std::{env, fs};

/// What was given on the command line.
#[derive(Clone, Debug, Default, PartialEq, Eq)]
pub struct Arguments {
    /// The one file; none for standard input.
    pub file: Option<PathBuf>,
    /// Behind `-o`; none for standard output.
    pub output: Option<PathBuf>,
    pub both: bool,
    pub quiet: bool,
    help: bool,
}

/// Runs a program: `options` are the ones that it takes besides `--help`, `work` what it does. The
/// lines that `work` fails with go to standard error, and the exit status is 1; it is 2 for
/// arguments that the program does not take.
pub fn run(name: &str, help: &str, options: &[&str], work: fn(&Arguments) -> Result<(), Vec<String>>) -> ExitCode {
    let arguments = match arguments(env::args_os().skip(1), options) {
        Ok(arguments) => arguments,
        Err(problem) => {
            complain(&[format!("{name}: {problem}; try {name} --help")]);
            return ExitCode::from(2);
        }
    };
    let outcome = if arguments.help {
        print(help.as_bytes())
    } else {
        work(&arguments)
    };
    match outcome {
        Ok(()) => ExitCode::SUCCESS,
        Err(lines) => {
            complain(&lines);
            ExitCode::FAILURE
        }
    }
}

/// Takes the words of a command line apart.
fn arguments(words: impl Iterator<Item = OsString>, options: &[&str]) -> Result<Arguments, String> {
    let mut arguments = Arguments::default();
    let mut words = words;
    while let Some(word) = words.next() {
        match word.to_str() {
            Some("--help") => arguments.help = true,
            Some("--both") if options.contains(&"--both") => arguments.both = true,
            Some("--quiet") if options.contains(&"--quiet") => arguments.quiet = true,
            Some("-o") if options.contains(&"-o") => {
                let path = words.next().ok_or("expected a file name behind -o")?;
                arguments.output = Some(PathBuf::from(path));
            }
            Some(option) if option.starts_with('-') && option != "-" => {
                return Err(format!("{option} is no option"));
            }
            _ if arguments.file.is_some() => return Err(format!("{} is one file too many", word.display())),
            _ => arguments.file = Some(PathBuf::from(word)),
        }
    }
    let dash = Path::new("-");
    arguments.file = arguments.file.filter(|file| file != dash);
    arguments.output = arguments.output.filter(|file| file != dash);
    Ok(arguments)
}

/// Writes lines to standard error; if even that fails there is nobody to tell.
pub fn complain(lines: &[String]) {
    let mut error = io::stderr().lock();
    for line in lines {
        let _ = writeln!(error, "{line}");
    }
}

/// Writes to standard output. A reader that has gone away (as `head` does) is no failure.
pub fn print(bytes: &[u8]) -> Result<(), Vec<String>> {
    let mut output = io::stdout().lock();
    match output.write_all(bytes).and_then(|()| output.flush()) {
        Err(error) if error.kind() != io::ErrorKind::BrokenPipe => Err(vec![format!("standard output: {error}")]),
        _ => Ok(()),
    }
}

/// What messages call a file, or standard input.
pub fn shown(file: Option<&Path>) -> String {
    match file {
        Some(file) => file.display().to_string(),
        None => "stdin".to_string(),
    }
}

/// Everything in a file, or on standard input.
pub fn read(file: Option<&Path>) -> Result<Vec<u8>, Vec<String>> {
    let mut bytes = Vec::new();
    let read = match file {
        Some(file) => fs::read(file).map(|read| bytes = read),
        None => io::stdin().lock().read_to_end(&mut bytes).map(|_| ()),
    };
    match read {
        Ok(()) => Ok(bytes),
        Err(error) => Err(vec![format!("{}: {error}", shown(file))]),
    }
}

/// Reads and assembles a text; every line of a failure names file and line.
pub fn read_assembly(file: Option<&Path>) -> Result<Assembly, Vec<String>> {
    let bytes = read(file)?;
    let name = shown(file);
    let text = match std::str::from_utf8(&bytes) {
        Ok(text) => text,
        Err(error) => {
            let line = 1 + bytes[..error.valid_up_to()]
                .iter()
                .filter(|byte| **byte == b'\n')
                .count();
            return Err(vec![format!(
                "{name}:{line}: this is no text in UTF-8; for an image there is dis"
            )]);
        }
    };
    let line = |problem: &crate::asm::Problem| format!("{name}:{}: {}", problem.line, problem.what);
    assemble(text).map_err(|problems| problems.iter().map(line).collect())
}

#[cfg(test)]
mod tests {
    use super::*;

    /// The arguments in a line, with both options.
    fn given(line: &str) -> Result<Arguments, String> {
        arguments(line.split_whitespace().map(OsString::from), &["-o", "--both"])
    }

    #[test]
    fn a_dash_stands_for_standard_input_and_output() {
        let path = |name: &str| Some(PathBuf::from(name));
        let both = |file, output| Arguments {
            file,
            output,
            ..Arguments::default()
        };
        assert_eq!(given("-o - -"), Ok(both(None, None)));
        assert_eq!(given("a -o -"), Ok(both(path("a"), None)));
        assert_eq!(given("- -o b"), Ok(both(None, path("b"))));
        assert_eq!(given("a -o b"), Ok(both(path("a"), path("b"))));
        assert_eq!(given("- -"), Err("- is one file too many".to_string()));
    }
}
