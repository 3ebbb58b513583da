//! How fast the proved library runs guests, beside the reference: nanoseconds a step, and their ratio.
//!
//! Before it measures, and at each run that it measures, it compares the number of steps and every word of memory.

mod compare;
mod library;
mod workload;

use std::process::ExitCode;
use std::time::Duration;

use workload::Workload;

/// How often each of the two runs, in turns.
const ROUNDS: u32 = 7;
/// How long the runs of a workload take in all, roughly.
const IN_ALL: Duration = Duration::from_secs(2);
/// The steps of the first pair of runs, which decides the budget of the others.
const TRIAL: u32 = 1_000_000;

/// The best time of a step of each, in nanoseconds.
struct Best {
    steps: u32,
    reference: f64,
    library: f64,
}

fn main() -> ExitCode {
    match report() {
        Ok(()) => ExitCode::SUCCESS,
        Err(difference) => {
            eprintln!("speed: {difference}");
            ExitCode::FAILURE
        }
    }
}

/// Prints a line for each workload.
fn report() -> Result<(), String> {
    println!("workload         steps  reference     proved  ratio");
    for workload in workload::all()? {
        compare::refuses(&workload)?;
        compare::agree(&workload)?;
        let best = measure(&workload)?;
        let ratio = best.library / best.reference;
        let Best {
            steps,
            reference,
            library,
        } = best;
        println!(
            "{:<11}{steps:>11}{reference:>8.2} ns{library:>8.2} ns{ratio:>7.2}",
            workload.name
        );
    }
    Ok(())
}

/// Runs both in turns, and keeps the best time of each.
fn measure(workload: &Workload) -> Result<Best, String> {
    let steps = budget(workload)?;
    let (mut reference, mut library) = (Duration::MAX, Duration::MAX);
    for _ in 0..ROUNDS {
        let runs = compare::both(workload, steps)?;
        reference = reference.min(runs.0.time);
        library = library.min(runs.1.time);
    }
    let each = |time: Duration| time.as_secs_f64() * 1e9 / f64::from(steps);
    Ok(Best {
        steps,
        reference: each(reference),
        library: each(library),
    })
}

/// The steps that take so long that all rounds together last as they should.
fn budget(workload: &Workload) -> Result<u32, String> {
    let runs = compare::both(workload, TRIAL)?;
    let pair = (runs.0.time + runs.1.time).as_secs_f64();
    let wanted = IN_ALL.as_secs_f64() / f64::from(ROUNDS);
    Ok((f64::from(TRIAL) * wanted / pair) as u32)
}
