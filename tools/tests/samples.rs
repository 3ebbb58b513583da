//! The fixed set of images in `crates/samples`: it is what `samples` makes, shows all that it should, and stays small.

mod running;

use reference::bench::{BENCH_PAGES, IMAGE_BYTES};
use reference::generate::counts::{measure, Tally};
use reference::generate::possible::possible;
use reference::generate::{Class, Made};
use reference::{bench_text, judge, Rule};
use running::{folder, own, run, told};
use std::collections::BTreeSet;
use std::fs;
use std::sync::OnceLock;
use tools::samples::{bundle, goals, missing, printed, samples, Sample, LONGEST, MOST_STEPS};

/// The set, made once for all tests.
fn set() -> &'static [Sample] {
    static SET: OnceLock<Vec<Sample>> = OnceLock::new();
    SET.get_or_init(|| samples(&own("../images")).expect("a set"))
}

/// A file of the crate.
fn kept(name: &str) -> Vec<u8> {
    let path = own("../crates/samples").join(name);
    fs::read(&path).unwrap_or_else(|error| panic!("{}: {error}", path.display()))
}

/// The images of the bundle that is kept.
fn images() -> Vec<Vec<u8>> {
    let bytes = kept("stdin");
    let mut rest = bytes.as_slice();
    let mut images = Vec::new();
    while let Some((length, more)) = rest.split_first_chunk() {
        let (image, more) = more.split_at(u32::from_le_bytes(*length) as usize);
        images.push(image.to_vec());
        rest = more;
    }
    assert_eq!(rest, [], "nothing is left over");
    images
}

/// What the images that are kept meet, counted anew.
fn counted() -> Tally {
    let mut tally = Tally::default();
    for bytes in images() {
        let made = Made {
            class: Class::Program,
            damage: None,
            bytes,
        };
        measure(&made, &mut tally).expect("the oracle agrees");
    }
    tally
}

#[test]
fn the_files_are_what_the_program_makes() {
    let made_by = "make both files anew: build/release/samples images -o crates/samples";
    assert!(kept("stdin") == bundle(set()), "crates/samples/stdin: {made_by}");
    assert!(
        kept("stdout") == printed(set()).into_bytes(),
        "crates/samples/stdout: {made_by}"
    );
}

#[test]
fn the_program_writes_both_files() {
    let here = folder("samples");
    let images = own("../images");
    let arguments = [images.to_str().expect("a path of this package"), "-o", "."];
    let output = told(&run(env!("CARGO_BIN_EXE_samples"), &here, &arguments, b""));
    assert_eq!(output, (0, String::new(), String::new()));
    for name in ["stdin", "stdout"] {
        assert!(fs::read(here.join(name)).expect("the file") == kept(name), "{name}");
    }
}

#[test]
fn the_program_says_what_it_needs_and_what_is_wrong() {
    let here = folder("samples-wrong");
    let samples = |arguments: &[&str]| told(&run(env!("CARGO_BIN_EXE_samples"), &here, arguments, b""));
    let expected = "samples: expected a folder of programs, and one behind -o; try samples --help\n";
    for arguments in [&[][..], &["."], &["-o", "."]] {
        assert_eq!(samples(arguments), (1, String::new(), expected.to_string()));
    }
    let (status, output, error) = samples(&["nowhere", "-o", "."]);
    assert_eq!((status, output.as_str()), (1, ""));
    assert!(error.starts_with("nowhere: "), "{error}");
    fs::write(here.join("a.asm"), "halt").expect("a text");
    let (status, output, error) = samples(&[".", "-o", "."]);
    assert_eq!((status, output.as_str()), (1, ""));
    assert!(error.starts_with("./a.asm:1: this word stands in no record"), "{error}");
}

#[test]
fn the_lines_are_the_benchs() {
    let due: String = images()
        .iter()
        .enumerate()
        .map(|(before, image)| format!("image {}\n{}", before + 1, bench_text(image)))
        .collect();
    assert_eq!(String::from_utf8(kept("stdout")).expect("a text"), due);
}

#[test]
fn all_is_met_that_a_bench_can_show() {
    let tally = counted();
    let due: Vec<String> = possible()
        .into_iter()
        .filter(|label| {
            ["shown ", "rule ", "bench "]
                .iter()
                .any(|table| label.starts_with(table))
        })
        .collect();
    assert_eq!(tally.missing(&due), [""; 0]);
    // The pairs of call and answer, the instructions and the faults are among them, and every rule.
    let of = |table: &str| due.iter().filter(|label| label.starts_with(table)).count();
    let tables = ["shown call ", "shown step ", "shown fault ", "rule ", "bench "];
    assert_eq!(tables.map(of), [44, 15, 32, Rule::ALL.len(), 4]);
}

#[test]
fn every_goal_is_shown_and_each_one_is_looked_for() {
    assert_eq!(missing(set()), BTreeSet::new());
    assert_eq!(missing(&[]), goals());
    // Every damage of every rule but one, which is too large.
    let damages = goals().into_iter().filter(|label| label.starts_with("damage "));
    assert_eq!(damages.count(), 6 * Rule::ALL.len() - 1);
}

#[test]
fn the_set_has_the_programs_and_each_end_of_the_bench() {
    let images = images();
    let named = |name: &str| {
        let text = fs::read_to_string(own("../images").join(name)).expect("the program");
        tools::asm::assemble(&text).expect("no problem").image
    };
    let texts = fs::read_dir(own("../images")).expect("the folder").filter_map(|entry| {
        let name = entry.expect("its entries").file_name().to_string_lossy().into_owned();
        name.ends_with(".asm").then_some(name)
    });
    let texts: BTreeSet<String> = texts.collect();
    assert!(texts.len() >= 19, "{texts:?}");
    assert!(images.iter().zip(&texts).all(|(image, name)| *image == named(name)));
    assert!(images.contains(&Vec::new()), "an empty one");
    let some = |what: &str, test: &dyn Fn(&Vec<u8>, &str) -> bool| {
        assert!(images.iter().any(|image| test(image, &bench_text(image))), "{what}");
    };
    let pages = |image: &[u8]| judge(image).map(|judged| judged.m);
    some("too long", &|image, lines| {
        image.len() == IMAGE_BYTES + 1 && lines == "refused 1\n"
    });
    some("as long as can be", &|image, lines| {
        image.len() == IMAGE_BYTES && !lines.starts_with("refused") && lines.lines().count() > 1
    });
    some("good, with a page too many", &|image, lines| {
        pages(image) == Ok(BENCH_PAGES + 1) && lines == "refused 1\n"
    });
    some("broken, with a page too many", &|image, lines| {
        image.starts_with(&[4, 0, 1, 0]) && image.get(6) == Some(&(BENCH_PAGES + 1)) && lines.starts_with("refused 4 ")
    });
}

#[test]
fn the_set_stays_small() {
    assert!(kept("stdin").len() <= 400_000, "{}", kept("stdin").len());
    assert!(kept("stdout").len() <= 100_000, "{}", kept("stdout").len());
    for (before, sample) in set().iter().enumerate() {
        assert!(sample.image.len() <= LONGEST, "image {}", before + 1);
        assert!(sample.steps() <= MOST_STEPS, "image {}", before + 1);
    }
    let steps: usize = set().iter().map(Sample::steps).sum();
    assert!(steps <= 500_000, "{steps}");
}
