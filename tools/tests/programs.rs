//! The programs as a person uses them.

mod running;

use running::{folder, own, run, told};
use std::fs;

const ASM: &str = env!("CARGO_BIN_EXE_asm");
const DIS: &str = env!("CARGO_BIN_EXE_dis");
const EXPLAIN: &str = env!("CARGO_BIN_EXE_explain");
const SAMPLES: &str = env!("CARGO_BIN_EXE_samples");

#[test]
fn asm_and_dis_as_filters() {
    let here = folder("filters");
    let image = run(ASM, &here, &[], b"budget 7");
    assert_eq!(image.stdout, [4, 0, 5, 0, 7, 0, 0, 0]);
    assert_eq!(image.status.code(), Some(0));
    let (status, text, error) = told(&run(DIS, &here, &[], &image.stdout));
    assert_eq!((status, error.as_str()), (0, ""));
    assert!(text.ends_with("\nbudget 7\n"), "{text}");
    assert_eq!(run(ASM, &here, &["-"], text.as_bytes()).stdout, image.stdout);
}

#[test]
fn asm_and_dis_with_files() {
    let here = folder("files");
    fs::write(here.join("a.asm"), "bytes 0102").expect("a text");
    let (status, output, _) = told(&run(ASM, &here, &["a.asm", "-o", "a.image"], b""));
    assert_eq!((status, output.as_str()), (0, ""));
    assert_eq!(fs::read(here.join("a.image")).expect("the image"), [1, 2]);
    let (status, text, _) = told(&run(DIS, &here, &["a.image"], b""));
    assert_eq!(status, 0);
    assert!(text.ends_with("bytes 0102\n"), "{text}");
}

#[test]
fn asm_tells_all_problems_and_writes_nothing() {
    let here = folder("problems");
    fs::write(here.join("a.asm"), "budgte 5\nat 0\nword x").expect("a text");
    fs::write(here.join("old.image"), "old").expect("an older image");
    let (status, output, error) = told(&run(ASM, &here, &["a.asm", "-o", "old.image"], b""));
    let expected =
        "a.asm:1: `budgte` is no statement or instruction; did you mean `budget`?\na.asm:3: `x` is not defined\n";
    assert_eq!((status, output.as_str(), error.as_str()), (1, "", expected));
    assert_eq!(fs::read(here.join("old.image")).expect("the older image"), b"old");
    let (status, output, error) = told(&run(ASM, &here, &[], b"halt"));
    assert_eq!((status, output.as_str()), (1, ""));
    assert!(error.starts_with("stdin:1: this word stands in no record"), "{error}");
}

#[test]
fn asm_warns_and_writes() {
    let here = folder("warnings");
    fs::write(here.join("a.asm"), "\nbudget 5").expect("a text");
    let (status, _, error) = told(&run(ASM, &here, &["a.asm", "-o", "a.image"], b""));
    assert_eq!(status, 0);
    let expected = "a.asm:2: warning: a loader refuses this record: the first record must be `machine`\n";
    assert_eq!(error, expected);
    assert_eq!(fs::read(here.join("a.image")).expect("the image").len(), 8);
    let (status, _, error) = told(&run(ASM, &here, &[], b"machine guests 2 pages 4"));
    assert_eq!(status, 0);
    assert!(
        error.starts_with("stdin: warning: a loader refuses the image at the end of the file: "),
        "{error}"
    );
    let quiet = run(ASM, &here, &["--quiet"], b"budget 5");
    assert_eq!(quiet.stdout, [4, 0, 5, 0, 5, 0, 0, 0]);
    assert_eq!((quiet.status.code(), quiet.stderr), (Some(0), vec![]));
    let (status, _, error) = told(&run(ASM, &here, &["--quiet"], b"budget"));
    assert_eq!(status, 1);
    assert!(error.starts_with("stdin:1: expected a number of steps"), "{error}");
}

#[test]
fn asm_keeps_the_text_from_being_overwritten() {
    let here = folder("overwrite");
    fs::write(here.join("a.asm"), "budget 5").expect("a text");
    let (status, _, error) = told(&run(ASM, &here, &["a.asm", "-o", "./a.asm"], b""));
    assert_eq!(status, 1);
    assert!(error.contains("is the text itself"), "{error}");
    assert_eq!(fs::read(here.join("a.asm")).expect("the text"), b"budget 5");
}

#[test]
fn asm_says_that_an_image_is_no_text() {
    let here = folder("no-text");
    let (status, output, error) = told(&run(ASM, &here, &[], b"\n\n; \xff"));
    assert_eq!((status, output.as_str()), (1, ""));
    assert_eq!(error, "stdin:3: this is no text in UTF-8; for an image there is dis\n");
}

#[test]
fn files_that_are_missing() {
    let here = folder("missing");
    for program in [ASM, DIS, EXPLAIN] {
        let (status, output, error) = told(&run(program, &here, &["nothing.asm"], b""));
        assert_eq!((status, output.as_str()), (1, ""));
        assert!(error.starts_with("nothing.asm: "), "{error}");
    }
}

#[test]
fn arguments_that_are_wrong() {
    let here = folder("arguments");
    let table: [(&str, &[&str], &str); 7] = [
        (ASM, &["-o"], "asm: expected a file name behind -o; try asm --help\n"),
        (ASM, &["--both"], "asm: --both is no option; try asm --help\n"),
        (ASM, &["a", "b"], "asm: b is one file too many; try asm --help\n"),
        (DIS, &["--quiet"], "dis: --quiet is no option; try dis --help\n"),
        (DIS, &["-o", "x"], "dis: -o is no option; try dis --help\n"),
        (EXPLAIN, &["-x"], "explain: -x is no option; try explain --help\n"),
        (
            EXPLAIN,
            &["--both", "a", "b"],
            "explain: b is one file too many; try explain --help\n",
        ),
    ];
    for (program, arguments, expected) in table {
        let told = told(&run(program, &here, arguments, b""));
        assert_eq!(told, (2, String::new(), expected.to_string()));
    }
}

#[test]
fn help_is_five_lines_and_an_example() {
    let here = folder("help");
    let [script, bench] = [own("try"), own("../bench")];
    let [script, bench] = [&script, &bench].map(|path| path.to_str().expect("a path of this package"));
    for program in [ASM, DIS, EXPLAIN, SAMPLES, script, bench] {
        let (status, output, error) = told(&run(program, &here, &["--help"], b""));
        assert_eq!((status, error.as_str()), (0, ""));
        assert_eq!(output.lines().count(), 6, "{output}");
        assert!(
            output.lines().last().is_some_and(|line| line.starts_with("    ")),
            "{output}"
        );
    }
}

#[test]
fn explain_names_guests_and_shows_both() {
    let here = folder("explain");
    let text = own("../images/share.asm");
    let text = text.to_str().expect("a path of this package");
    let (status, output, error) = told(&run(
        EXPLAIN,
        &here,
        &[],
        b"3 1 8400006c 84000061 00000000\nend 4 halted\n",
    ));
    let expected = "step 3: guest 1 calls Yield: success, guest 0 goes on\nend: 4 steps, halted\n";
    assert_eq!((status, output.as_str(), error.as_str()), (0, expected, ""));
    let (status, output, _) = told(&run(
        EXPLAIN,
        &here,
        &["--both", text],
        b"12 1 84000073 84000061 00000000\n",
    ));
    let expected = "12 1 84000073 84000061 00000000\n    step 12: guest 1 (crew) calls Share: success, handle 0";
    assert_eq!(status, 0);
    assert!(output.starts_with(expected), "{output}");
}

#[test]
fn explain_tells_of_lines_that_are_not_benchs() {
    let here = folder("explain-wrong");
    let (status, output, error) = told(&run(EXPLAIN, &here, &[], b"refused 1\nhello\n\xff\nend 4 halted"));
    assert_eq!(status, 1);
    assert_eq!(output.lines().count(), 2, "{output}");
    assert!(
        error.starts_with("stdin:2: `hello` is no line of bench's\nstdin:3: "),
        "{error}"
    );
    let (status, _, error) = told(&run(EXPLAIN, &here, &[], b""));
    assert_eq!(
        (status, error.as_str()),
        (1, "explain: standard input is empty, but bench always prints a line\n")
    );
}

#[test]
fn explain_refuses_a_text_with_problems() {
    let here = folder("explain-text");
    fs::write(here.join("a.asm"), "halt").expect("a text");
    let (status, output, error) = told(&run(EXPLAIN, &here, &["a.asm"], b"refused 1\n"));
    assert_eq!((status, output.as_str()), (1, ""));
    assert!(error.starts_with("a.asm:1: this word stands in no record"), "{error}");
}
