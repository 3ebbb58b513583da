//! The program `reference`: its first argument chooses what it does.

use std::env;
use std::fs;
use std::io::{self, Write};
use std::path::Path;
use std::process::ExitCode;

use reference::generate::counts::{report, tally};
use reference::generate::make;
use reference::{bench, bench_text};

/// What the program can be asked for.
const USAGE: &str = "usage: reference bench < IMAGE
       reference generate SEED COUNT DIR
       reference count SEED COUNT";

/// Does what the first argument says; anything but a known word is answered by the list of them.
fn main() -> ExitCode {
    let arguments: Vec<String> = env::args_os()
        .skip(1)
        .map(|word| word.to_string_lossy().into_owned())
        .collect();
    let words: Vec<&str> = arguments.iter().map(String::as_str).collect();
    let outcome = match words.as_slice() {
        ["bench"] => bench(&mut io::stdin().lock(), &mut io::stdout().lock()).map(|()| true),
        ["generate", seed, count, directory] => match (seed.parse(), count.parse()) {
            (Ok(seed), Ok(count)) => generate(seed, count, Path::new(directory)).map(|()| true),
            _ => return usage(),
        },
        ["count", seed, count] => match (seed.parse(), count.parse()) {
            (Ok(seed), Ok(count)) => print_count(seed, count),
            _ => return usage(),
        },
        _ => return usage(),
    };
    match outcome {
        Ok(true) => ExitCode::SUCCESS,
        Ok(false) => ExitCode::FAILURE,
        Err(error) => {
            eprintln!("reference: {error}");
            ExitCode::FAILURE
        }
    }
}

/// Says what the program can be asked for.
fn usage() -> ExitCode {
    eprintln!("{USAGE}");
    ExitCode::from(2)
}

/// Writes so many images of a seed into a directory, and beside each what the bench prints for it.
fn generate(seed: u64, count: u64, directory: &Path) -> io::Result<()> {
    fs::create_dir_all(directory)?;
    for number in 0..count {
        let made = make(seed, number).map_err(io::Error::other)?;
        let name = format!("{seed}-{number}-{}", made.class.name());
        fs::write(directory.join(format!("{name}.img")), &made.bytes)?;
        fs::write(directory.join(format!("{name}.out")), bench_text(&made.bytes))?;
    }
    Ok(())
}

/// Prints what so many images of a seed meet, and tells whether that is everything.
fn print_count(seed: u64, count: u64) -> io::Result<bool> {
    let tally = tally(seed, count).map_err(io::Error::other)?;
    let (text, everything) = report(&tally);
    io::stdout().lock().write_all(text.as_bytes())?;
    Ok(everything)
}
