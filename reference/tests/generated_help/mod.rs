//! What the tests of generated images have in common.

use reference::generate::{make, Class};
use reference::{load, Answer, Machine};

/// A loaded image.
pub struct Ready {
    pub machine: Machine,
    pub memory: Vec<u32>,
    pub budget: u32,
}

/// The loaded machines of the images of these classes among so many of a seed.
pub fn machines(seed: u64, count: u64, classes: &[Class]) -> Vec<Ready> {
    (0..count)
        .filter(|&number| classes.contains(&Class::of(number).0))
        .map(|number| ready(&make(seed, number).expect("the oracle agrees").bytes))
        .collect()
}

/// A good image, loaded.
fn ready(image: &[u8]) -> Ready {
    let judged = reference::judge(image).expect("a good image");
    let mut memory = vec![0; judged.memory_words()];
    let loaded = load(image, &mut memory);
    assert_eq!(loaded.answer, Answer::Done);
    Ready {
        machine: loaded.machine,
        memory,
        budget: loaded.budget,
    }
}
