//! The program `samples`: the fixed set of images, and what a bench must print for it.

use std::fs;
use std::process::ExitCode;
use tools::program::{self, Arguments};
use tools::samples::{bundle, missing, printed, samples};

const HELP: &str = "\
samples IMAGES -o FOLDER
Makes the fixed set of images: the programs of the folder IMAGES and some of the generator's.
Writes them as one bundle to FOLDER/stdin, and what a bench must print for them to FOLDER/stdout.
A bundle is each image behind its length in four bytes, the lowest first; above its lines stands `image` and its number.
It fails if the set does not show all that a bench can show. From the top folder of the project:
    build/release/samples images -o crates/samples
";

/// Programs in, a bundle and its lines out.
fn main() -> ExitCode {
    program::run("samples", HELP, &["-o"], work)
}

/// Makes both files.
fn work(arguments: &Arguments) -> Result<(), Vec<String>> {
    let (Some(images), Some(folder)) = (&arguments.file, &arguments.output) else {
        return Err(vec![
            "samples: expected a folder of programs, and one behind -o; try samples --help".to_string(),
        ]);
    };
    let set = samples(images)?;
    let missing = missing(&set);
    if !missing.is_empty() {
        return Err(missing
            .iter()
            .map(|label| format!("samples: not shown: {label}"))
            .collect());
    }
    for (name, bytes) in [("stdin", bundle(&set)), ("stdout", printed(&set).into_bytes())] {
        let path = folder.join(name);
        fs::write(&path, bytes).map_err(|error| vec![format!("{}: {error}", path.display())])?;
    }
    Ok(())
}
