//! Whether the library and the reference do the same.

use crate::library;
use crate::workload::{Run, Workload, MEMORY};

/// After every step up to here the two are compared.
const EACH_STEP: u32 = 400;

/// Both runs with this budget, the reference's first; or where they differ.
pub fn both(workload: &Workload, budget: u32) -> Result<(Run, Run), String> {
    let reference = workload.by_reference(budget);
    let library = workload.by_library(budget);
    let name = workload.name;
    if reference.count != budget {
        return Err(format!("{name}: it stops after {} of {budget} steps", reference.count));
    }
    if library.count != reference.count {
        return Err(format!(
            "{name}: the library counts {} of {budget} steps",
            library.count
        ));
    }
    let differs = |address: &usize| library.memory[*address] != reference.memory[*address];
    match (0..MEMORY).find(differs) {
        Some(address) => Err(format!(
            "{name}: after {budget} steps address {address} holds {:#010x} and not {:#010x}",
            library.memory[address], reference.memory[address]
        )),
        None => Ok((reference, library)),
    }
}

/// Compares the two after no step, after each of the first steps, and far behind them.
pub fn agree(workload: &Workload) -> Result<(), String> {
    let far = [1_000, 9_999, 100_000, 1_234_567];
    for budget in (0..=EACH_STEP).chain(far) {
        both(workload, budget)?;
    }
    Ok(())
}

/// The library takes no step and leaves the memory if the image is broken, or the memory has another size.
pub fn refuses(workload: &Workload) -> Result<(), String> {
    let image = &workload.image[..];
    let broken = &image[..image.len() - 1];
    let cases = [
        (broken, MEMORY),
        (&[], MEMORY),
        (image, 0),
        (image, MEMORY - 1),
        (image, MEMORY + 1),
    ];
    for (image, words) in cases {
        let mut memory = vec![u32::MAX; words];
        let count = library::run(image, 1_000, &mut memory);
        if count != 0 || memory.iter().any(|word| *word != u32::MAX) {
            let (name, bytes) = (workload.name, image.len());
            return Err(format!("{name}: {bytes} bytes of it in {words} words are not refused"));
        }
    }
    Ok(())
}
