//! The generator of images: image number i of a seed is a function of the two alone.
//!
//! What kind of image it is, and what is to happen in it, follows a fixed schedule of i; the rest is random.
//! 694 images are needed for every way of every damage. Most of the rest is asked for by the schedule,
//! but whether a run comes to a state that has it is luck: 960 images meet everything for each of the
//! 19 seeds that were tried (1 to 15, 99, 12345, 2^32, 2^64 - 1); of fewer images that was not tried.

pub mod call;
pub mod checked;
pub mod code;
pub mod counts;
pub mod damage;
pub mod director;
pub mod ending;
pub mod flag;
pub mod flaw;
pub mod held;
pub mod layout;
pub mod noise;
pub mod oracle;
pub mod plain;
pub mod plan;
pub mod possible;
pub mod program;
pub mod random;
pub mod records;
pub mod sizes;
pub mod stage;
pub mod standing;
pub mod story;
pub mod theme;
pub mod wrong;

use crate::image::{judge, Rule};
use random::Random;
use sizes::SIZES;

/// What kind of image one is.
#[derive(Clone, Copy, Debug, PartialEq, Eq)]
pub enum Class {
    Program,
    Loops,
    RandomWords,
    RandomInstructions,
    ChangedProgram,
    Damaged,
    Size,
}

impl Class {
    /// The classes of sixteen images that follow each other.
    pub const CYCLE: [Class; 16] = [
        Class::Program,
        Class::Damaged,
        Class::Program,
        Class::Size,
        Class::Program,
        Class::Damaged,
        Class::Program,
        Class::RandomInstructions,
        Class::Program,
        Class::Damaged,
        Class::Program,
        Class::Loops,
        Class::Program,
        Class::Damaged,
        Class::Program,
        Class::ChangedProgram,
    ];

    /// The word for the class in the name of a file.
    pub fn name(self) -> &'static str {
        match self {
            Class::Program => "program",
            Class::Loops => "loops",
            Class::RandomWords => "words",
            Class::RandomInstructions => "instructions",
            Class::ChangedProgram => "changed",
            Class::Damaged => "damaged",
            Class::Size => "size",
        }
    }

    /// The class of an image, and how many of the class come before it.
    pub fn of(number: u64) -> (Class, u64) {
        let length = Class::CYCLE.len() as u64;
        let (round, place) = (number / length, (number % length) as usize);
        let class = Class::CYCLE[place];
        let among = |row: &[Class]| row.iter().filter(|&&other| other == class).count() as u64;
        let before = round * among(&Class::CYCLE) + among(&Class::CYCLE[..place]);
        match class {
            // Random words show little, so that they stand for every third row of random instructions only.
            Class::RandomInstructions if before % 3 == 2 => (Class::RandomWords, before / 3),
            _ => (class, before),
        }
    }
}

/// An image, and what kind it is.
#[derive(Clone, Debug, PartialEq, Eq)]
pub struct Made {
    pub class: Class,
    /// The rule that a damaged image breaks, and the number of the way.
    pub damage: Option<(Rule, u32)>,
    pub bytes: Vec<u8>,
}

/// The image with this number of this seed, or what the reference did that it should not have done.
pub fn make(seed: u64, number: u64) -> Result<Made, String> {
    let mut random = Random::new(seed, number);
    let (class, before) = Class::of(number);
    let bytes = bytes_of(class, before, &mut random);
    bytes
        .map(|bytes| Made {
            class,
            damage: (class == Class::Damaged).then(|| damage_of(before)),
            bytes,
        })
        .map_err(|complaint| format!("image {number} of seed {seed} ({}): {complaint}", class.name()))
}

/// The bytes of an image, of whose class so many come before it.
fn bytes_of(class: Class, before: u64, random: &mut Random) -> Result<Vec<u8>, String> {
    match class {
        Class::Program => {
            let program = program::program(before, random)?;
            program.stage.image(program.budget, random)
        }
        Class::Loops => {
            let program = program::loops(before, random)?;
            program.stage.image(program.budget, random)
        }
        Class::RandomWords => Ok(noise::random_words(random)),
        Class::RandomInstructions => Ok(noise::random_instructions(random)),
        Class::ChangedProgram => noise::changed_program(before, random),
        Class::Damaged => damaged_bytes(before, random),
        Class::Size => Ok(sizes::sized_image(
            SIZES[(before % SIZES.len() as u64) as usize],
            random,
        )),
    }
}

/// The rule that a damaged image breaks and the way, by how many damaged ones come before it.
fn damage_of(before: u64) -> (Rule, u32) {
    let count = Rule::ALL.len() as u64;
    let rule = Rule::ALL[(before % count) as usize];
    (rule, (before / count) as u32 % damage::WAYS)
}

/// A damaged image, which the reference must refuse at the damage and by its rule.
fn damaged_bytes(before: u64, random: &mut Random) -> Result<Vec<u8>, String> {
    let (rule, way) = damage_of(before);
    let damaged = damage::damaged(rule, way, random);
    let bytes = damaged.bytes();
    match judge(&bytes) {
        Err(broken) if broken.rule == rule && broken.offset == damaged.offset() => Ok(bytes),
        other => Err(format!(
            "{rule:?} at {} in way {way}, but judged {other:?}",
            damaged.offset()
        )),
    }
}
