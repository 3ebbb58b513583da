//! The guest programs in `images/`: each makes a good image without a warning, prints what stands
//! beside it, and tells the same lines in the comment at its end.

use std::collections::BTreeSet;
use std::fs;
use std::path::PathBuf;

use reference::bench::{BENCH_PAGES, IMAGE_BYTES};
use reference::{advance, bench_text, judge, load, Did, Fault, Miss, Mode};
use tools::asm::{assemble, Assembly};
use tools::dis::disassemble;

/// The programs that people are told of, by name and the word in their last line.
const PROGRAMS: [(&str, &str); 19] = [
    ("budget", "normal"),
    ("donate", "halted"),
    ("eleven-hulls", "halted"),
    ("errors", "halted"),
    ("fault-fetch-no-access", "fault"),
    ("fault-fetch-outside", "fault"),
    ("fault-fetch-own-tx", "fault"),
    ("fault-load-no-access", "fault"),
    ("fault-load-outside", "fault"),
    ("fault-load-own-tx", "fault"),
    ("fault-no-instruction", "fault"),
    ("fault-store-no-access", "fault"),
    ("fault-store-outside", "fault"),
    ("fault-store-own-rx", "fault"),
    ("lend", "halted"),
    ("message", "halted"),
    ("share", "halted"),
    ("template", "halted"),
    ("yield-ping-pong", "halted"),
];

/// The line above the expected lines in a program's last comment begins so.
const STORY: &str = "; What bench prints";

/// A program and what is expected of it.
struct Program {
    name: String,
    text: String,
    out: String,
}

/// The folder of the programs.
fn folder() -> PathBuf {
    PathBuf::from(env!("CARGO_MANIFEST_DIR")).join("../images")
}

/// A file of the folder as text.
fn read(file: &str) -> String {
    fs::read_to_string(folder().join(file)).unwrap_or_else(|error| panic!("images/{file}: {error}"))
}

/// The names of all files in the folder.
fn files() -> BTreeSet<String> {
    let entries = fs::read_dir(folder()).expect("the folder can be read");
    entries
        .map(|entry| {
            entry
                .expect("its entries too")
                .file_name()
                .to_string_lossy()
                .into_owned()
        })
        .collect()
}

/// The names of the files with that ending, without it.
fn with_ending(ending: &str) -> BTreeSet<String> {
    let files = files();
    let names = files.iter().filter_map(|file| file.strip_suffix(ending));
    names.map(str::to_string).collect()
}

/// One program with its expected lines.
fn program(name: &str) -> Program {
    Program {
        name: name.to_string(),
        text: read(&format!("{name}.asm")),
        out: read(&format!("{name}.out")),
    }
}

/// All programs that are there.
fn programs() -> Vec<Program> {
    let names = with_ending(".asm");
    assert!(!names.is_empty(), "there are programs");
    names.iter().map(|name| program(name)).collect()
}

impl Program {
    /// The image and what is known of it.
    fn assembly(&self) -> Assembly {
        assemble(&self.text).unwrap_or_else(|problems| panic!("{}: {problems:?}", self.name))
    }

    /// The expected lines as the comment at the end tells them.
    fn story(&self) -> Vec<String> {
        let lines = self.text.lines().skip_while(|line| !line.starts_with(STORY));
        lines.filter_map(told_line).collect()
    }
}

/// The line of bench that a comment line begins with, if it does.
fn told_line(comment: &str) -> Option<String> {
    let words: Vec<&str> = comment.strip_prefix(';')?.split_whitespace().collect();
    let count = match words.as_slice() {
        ["end", steps, ..] if steps.parse::<u32>().is_ok() => 3,
        [step, caller, ..] if step.parse::<u32>().is_ok() && caller.parse::<u8>().is_ok() => 5,
        _ => return None,
    };
    Some(words.get(..count)?.join(" "))
}

#[test]
fn the_programs_are_there_and_nothing_else() {
    let known: BTreeSet<String> = PROGRAMS.iter().map(|(name, _)| name.to_string()).collect();
    assert!(known.is_subset(&with_ending(".asm")));
    assert_eq!(with_ending(".asm"), with_ending(".out"), "each program has its lines");
    let others = files()
        .into_iter()
        .filter(|file| !file.ends_with(".asm") && !file.ends_with(".out"));
    assert_eq!(others.collect::<Vec<_>>(), ["README.md"]);
}

#[test]
fn each_makes_an_image_that_nobody_warns_of() {
    for program in programs() {
        assert_eq!(program.assembly().warnings(), [], "{}", program.name);
    }
}

#[test]
fn each_image_is_good_and_small_enough_for_bench() {
    for program in programs() {
        let image = program.assembly().image;
        let judged = judge(&image).unwrap_or_else(|broken| panic!("{}: {broken:?}", program.name));
        assert!(judged.m <= BENCH_PAGES, "{}", program.name);
        assert!(image.len() <= IMAGE_BYTES, "{}", program.name);
    }
}

#[test]
fn each_prints_what_stands_beside_it() {
    for program in programs() {
        assert_eq!(bench_text(&program.assembly().image), program.out, "{}", program.name);
    }
}

#[test]
fn each_tells_these_lines_at_its_end() {
    for program in programs() {
        assert_eq!(
            program.story(),
            program.out.lines().collect::<Vec<_>>(),
            "{}",
            program.name
        );
    }
}

#[test]
fn each_begins_with_its_name() {
    for program in programs() {
        let head = format!("; {}.asm: ", program.name);
        assert!(program.text.starts_with(&head), "{}", program.name);
    }
}

#[test]
fn each_comes_back_from_dis_and_asm() {
    for program in programs() {
        let image = program.assembly().image;
        let again = assemble(&disassemble(&image)).unwrap_or_else(|problems| panic!("{}: {problems:?}", program.name));
        assert_eq!(again.image, image, "{}", program.name);
    }
}

#[test]
fn each_ends_as_its_kind_should() {
    for (name, mode) in PROGRAMS {
        let out = program(name).out;
        let last = out.lines().last().unwrap_or_default();
        assert!(
            last.starts_with("end ") && last.ends_with(&format!(" {mode}")),
            "{name}: {last}"
        );
    }
}

/// How the last step of a run went; it must have changed nothing but the mode.
fn last_step(program: &Program) -> Did {
    let image = program.assembly().image;
    let judged = judge(&image).unwrap_or_else(|broken| panic!("{}: {broken:?}", program.name));
    let mut memory = vec![0; judged.memory_words()];
    let mut machine = load(&image, &mut memory).machine;
    for _ in 0..judged.budget {
        let (machine_before, memory_before) = (machine.clone(), memory.clone());
        let did = advance(&mut machine, &mut memory);
        if machine.mode != Mode::Normal {
            machine.mode = Mode::Normal;
            assert_eq!(machine, machine_before, "{}", program.name);
            assert_eq!(memory, memory_before, "{}", program.name);
            return did;
        }
    }
    panic!("{} does not stop", program.name);
}

#[test]
fn each_fault_has_the_reason_in_its_name() {
    let reasons = [
        ("fault-fetch-outside", Fault::Fetch(Miss::Outside)),
        ("fault-fetch-no-access", Fault::Fetch(Miss::NoAccess)),
        ("fault-fetch-own-tx", Fault::Fetch(Miss::OwnMailbox)),
        ("fault-no-instruction", Fault::NotAnInstruction),
        ("fault-load-outside", Fault::Load(Miss::Outside)),
        ("fault-load-no-access", Fault::Load(Miss::NoAccess)),
        ("fault-load-own-tx", Fault::Load(Miss::OwnMailbox)),
        ("fault-store-outside", Fault::Store(Miss::Outside)),
        ("fault-store-no-access", Fault::Store(Miss::NoAccess)),
        ("fault-store-own-rx", Fault::Store(Miss::OwnMailbox)),
    ];
    for (name, reason) in reasons {
        assert_eq!(last_step(&program(name)), Did::Faulted(reason), "{name}");
    }
}

#[test]
fn the_readme_lists_each_once() {
    let readme = read("README.md");
    let rows = readme.lines().filter_map(|line| line.strip_prefix("| `"));
    let mut listed: Vec<&str> = rows.filter_map(|row| Some(row.split_once(".asm` |")?.0)).collect();
    listed.sort_unstable();
    assert_eq!(listed, with_ending(".asm").into_iter().collect::<Vec<_>>());
}

#[test]
fn eleven_hulls_notices_a_photo_of_another_hull() {
    let right = "word PICTURE+CREW2";
    let text = read("eleven-hulls.asm");
    assert_eq!(text.matches(right).count(), 1);
    let spoilt = assemble(&text.replace(right, "word PICTURE+CREW1")).expect("still a program");
    let printed = bench_text(&spoilt.image);
    assert!(printed.ends_with(" fault\n"), "{printed}");
}

#[test]
fn errors_shows_every_error_of_every_call() {
    let invalid = "fffffffe";
    let denied = "fffffffa";
    let mut expected = BTreeSet::from([
        ("8400006d", denied),
        ("8400006d", invalid),
        ("8400006a", "fffffff7"),
        ("8400006b", "fffffff7"),
        ("8400006e", invalid),
        ("8400006e", "fffffffc"),
        ("84000070", "ffffffff"),
        ("84000075", "ffffffff"),
        ("0000006d", "ffffffff"),
    ]);
    for call in ["84000071", "84000072", "84000073", "84000074", "84000076", "84000077"] {
        expected.extend([(call, invalid), (call, denied)]);
    }
    let out = read("errors.out");
    let lines = out.lines().map(|line| line.split_whitespace().collect::<Vec<_>>());
    let shown: BTreeSet<(String, String)> = lines
        .filter(|words| words.get(3) == Some(&"84000060"))
        .map(|words| (words[2].to_string(), words[4].to_string()))
        .collect();
    let expected = expected
        .into_iter()
        .map(|(call, error)| (call.to_string(), error.to_string()));
    assert_eq!(shown, expected.collect());
}

#[test]
fn budget_ends_right_behind_a_call() {
    let out = read("budget.out");
    let steps: Vec<&str> = out
        .lines()
        .rev()
        .filter_map(|line| line.trim_start_matches("end ").split(' ').next())
        .collect();
    assert!(steps.len() > 2 && steps[0] == steps[1], "{out}");
}
