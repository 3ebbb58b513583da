//! The fixed set of images on which the proved bench is run and held to what the reference prints.
//!
//! The set is every program of a folder, an empty image, and images of the generator: those that together show all
//! that a bench can show, chosen so that they stay small, and then some small ones more.

use crate::program;
use reference::bench::IMAGE_BYTES;
use reference::bench_text;
use reference::generate::counts::{measure, Tally};
use reference::generate::possible::{possible, SHOWN};
use reference::generate::{make, Class, Made};
use std::collections::BTreeSet;
use std::fs;
use std::path::{Path, PathBuf};

/// The seed of the images to choose from, and how many there are: so many show everything.
const SEED: u64 = 1;
const COUNT: u64 = 960;
/// The seed of those that are there for variety, and how many of them are looked at.
const MORE_SEED: u64 = 2;
const MORE_COUNT: u64 = 64;
/// What one of those costs at most.
const MORE_COST: usize = 4000;
/// No image runs for more steps.
pub const MOST_STEPS: usize = 100_000;
/// The longest image of a set: one byte more than a bench takes.
pub const LONGEST: usize = IMAGE_BYTES + 1;
/// The tables of the counts that a set must show, besides what runs show.
const TABLES: [&str; 3] = ["bench ", "rule ", "damage "];
/// The one damage that is left out: it needs a record of 64,000 bytes.
const TOO_LARGE: &str = "damage WordsOutsideMemory way 5";
/// The sizes that a set must have, by the names of the counts.
const SIZES: [&str; 6] = [
    "size broken 65537",
    "size good with 16 pages",
    "size good with 17 pages",
    "size good with 64 pages",
    "size broken with 17 pages",
    "size good with more than 5000 records",
];
/// What a set must have and is not among the counts: an image of 65,536 bytes whose run makes a call.
const FULL: &str = "the longest image, with a call";

/// An image of the set.
#[derive(Clone, Debug, PartialEq, Eq)]
pub struct Sample {
    pub image: Vec<u8>,
    /// What the reference's bench prints for it.
    pub lines: String,
    /// What of the goals it shows.
    pub shows: BTreeSet<String>,
}

impl Sample {
    /// An image with what it shows, or in what the reference contradicts itself about it.
    fn of(made: Made) -> Result<Sample, String> {
        let mut tally = Tally::default();
        measure(&made, &mut tally)?;
        let met = tally.entries().map(|(label, _)| label);
        let mut sample = Sample {
            shows: met.filter(|label| is_goal(label)).cloned().collect(),
            lines: bench_text(&made.bytes),
            image: made.bytes,
        };
        if sample.image.len() == IMAGE_BYTES && sample.lines.lines().count() > 1 {
            sample.shows.insert(FULL.to_string());
        }
        Ok(sample)
    }

    /// An image that is not the generator's.
    fn written(bytes: Vec<u8>) -> Result<Sample, String> {
        Sample::of(Made {
            class: Class::Program,
            damage: None,
            bytes,
        })
    }

    /// How many steps its run takes: the number behind `end`, 0 if it is refused.
    pub fn steps(&self) -> usize {
        let last = self.lines.lines().last().unwrap_or_default();
        let steps = last.strip_prefix("end ").and_then(|rest| rest.split(' ').next());
        steps.map_or(0, |steps| steps.parse().expect("the number behind `end`"))
    }

    /// What it costs to have it in the set: bytes to keep, steps to run.
    fn cost(&self) -> usize {
        self.image.len() + self.lines.len() + self.steps() / 16
    }

    /// Whether it may be in the set.
    fn fits(&self) -> bool {
        self.image.len() <= LONGEST && self.steps() <= MOST_STEPS
    }
}

/// Whether a set must show what the counts know by this name.
fn is_goal(label: &str) -> bool {
    let in_table = TABLES.iter().any(|table| label.starts_with(table)) && label != TOO_LARGE;
    label.starts_with(SHOWN) || in_table || SIZES.contains(&label)
}

/// All that a set must show: what runs can show on a bench, what a bench says, every rule of loading broken in every way
/// but the one that is too large, and the sizes.
pub fn goals() -> BTreeSet<String> {
    let counted = possible().into_iter().filter(|label| is_goal(label));
    counted.chain([FULL.to_string()]).collect()
}

/// What of the goals a set does not show.
pub fn missing(set: &[Sample]) -> BTreeSet<String> {
    let mut missing = goals();
    for sample in set {
        missing.retain(|label| !sample.shows.contains(label));
    }
    missing
}

/// The set, with the programs of this folder.
pub fn samples(folder: &Path) -> Result<Vec<Sample>, Vec<String>> {
    let mut set = programs(folder)?;
    let whole = |complaint| vec![complaint];
    set.push(Sample::written(Vec::new()).map_err(whole)?);
    choose(&mut set, generated(SEED, COUNT).map_err(whole)?);
    let more = generated(MORE_SEED, MORE_COUNT).map_err(whole)?;
    set.extend(
        more.into_iter()
            .filter(|sample| sample.steps() > 1 && sample.cost() <= MORE_COST),
    );
    Ok(set)
}

/// The programs of a folder, by name.
fn programs(folder: &Path) -> Result<Vec<Sample>, Vec<String>> {
    let told = |error| vec![format!("{}: {error}", folder.display())];
    let entries = fs::read_dir(folder).map_err(told)?;
    let paths: Result<Vec<PathBuf>, _> = entries.map(|entry| entry.map(|entry| entry.path())).collect();
    let mut paths = paths.map_err(told)?;
    paths.retain(|path| path.extension().is_some_and(|ending| ending == "asm"));
    paths.sort();
    let sample = |path: &PathBuf| {
        let assembly = program::read_assembly(Some(path))?;
        Sample::written(assembly.image).map_err(|complaint| vec![format!("{}: {complaint}", path.display())])
    };
    paths.iter().map(sample).collect()
}

/// The images of a seed that may be in the set.
fn generated(seed: u64, count: u64) -> Result<Vec<Sample>, String> {
    let numbered = |number| {
        Sample::of(make(seed, number)?).map_err(|complaint| format!("image {number} of seed {seed}: {complaint}"))
    };
    let samples: Result<Vec<Sample>, String> = (0..count).map(numbered).collect();
    Ok(samples?.into_iter().filter(Sample::fits).collect())
}

/// Adds images to the set as long as one shows something new: each time the one that shows most for its cost.
fn choose(set: &mut Vec<Sample>, mut candidates: Vec<Sample>) {
    let mut left = missing(set);
    loop {
        let news = |sample: &Sample| sample.shows.intersection(&left).count();
        let mut best = (0, 0, 1);
        for (place, sample) in candidates.iter().enumerate() {
            let (_, most, cost) = best;
            let new = news(sample);
            if new * cost > most * sample.cost() {
                best = (place, new, sample.cost());
            }
        }
        let (place, 1.., _) = best else { return };
        let sample = candidates.remove(place);
        left.retain(|label| !sample.shows.contains(label));
        set.push(sample);
    }
}

/// The input of the program that runs a set: each image behind its length in four bytes, the lowest first.
pub fn bundle(set: &[Sample]) -> Vec<u8> {
    let mut bytes = Vec::new();
    for sample in set {
        bytes.extend((sample.image.len() as u32).to_le_bytes());
        bytes.extend(&sample.image);
    }
    bytes
}

/// What that program must print: for each image a line with its number from 1, and the lines of the bench.
pub fn printed(set: &[Sample]) -> String {
    let numbered = set.iter().enumerate();
    numbered
        .map(|(before, sample)| format!("image {}\n{}", before + 1, sample.lines))
        .collect()
}
