//! The script `try`, what `./bench` says before it runs the proved program, and what the project's first page shows.

mod running;

use running::{folder, own, run, told};
use std::fs;
use std::path::Path;
use std::process::Command;

/// Runs the script in a folder.
fn try_in(folder: &Path, arguments: &[&str]) -> (i32, String, String) {
    told(&run(
        own("try").to_str().expect("a path of this package"),
        folder,
        arguments,
        b"",
    ))
}

#[test]
fn the_script_runs_texts_and_images_from_any_folder() {
    let here = folder("try it");
    fs::copy(own("../images/share.asm"), here.join("my share.asm")).expect("a copy of a program");
    let expected = fs::read_to_string(own("../images/share.out")).expect("its lines");
    let (status, output, error) = try_in(&here, &["my share.asm"]);
    assert_eq!((status, error.as_str()), (0, ""));
    let lines: Vec<&str> = output.lines().collect();
    assert_eq!(
        lines
            .iter()
            .step_by(2)
            .map(|line| format!("{line}\n"))
            .collect::<String>(),
        expected
    );
    assert!(lines[3].starts_with("    step 12: guest 1 (crew) calls Share: success, handle 0"));
    let image = tools::asm::assemble(&fs::read_to_string(own("../images/share.asm")).expect("the program"));
    fs::write(here.join("-image"), image.expect("no problem").image).expect("an image");
    let (status, output, error) = try_in(&here, &["-image"]);
    assert_eq!((status, error.as_str()), (0, ""));
    let benched = output.lines().step_by(2).map(|line| format!("{line}\n"));
    assert_eq!(benched.collect::<String>(), expected);
}

#[test]
fn the_script_fails_where_bench_refuses_and_says_why_once() {
    let here = folder("try-refused");
    fs::write(here.join("image"), [1, 2, 3]).expect("an image");
    let expected = "refused 4 0\n    refused: the image is broken at byte 0\n";
    assert_eq!(try_in(&here, &["image"]), (1, expected.to_string(), String::new()));
    fs::write(here.join("empty"), []).expect("an image");
    assert_eq!(try_in(&here, &["empty"]), (1, expected.to_string(), String::new()));
    // 8 bytes for the machine and 14 for the guest.
    let text = "machine guests 2 pages 4\nguest 0 tx 0 rx 1 start 0\nbudget 5\n";
    let expected = "refused 4 22\n    refused: the image is broken at byte 22, line 3 of the text: \
                    guest 1 has no `guest` line above `budget`\n";
    fs::write(here.join("a.asm"), text).expect("a text");
    assert_eq!(try_in(&here, &["a.asm"]), (1, expected.to_string(), String::new()));
    let text = "machine guests 2 pages 17\nguest 0 tx 0 rx 1 start 0\nguest 1 tx 2 rx 3 start 0\nbudget 5\n";
    let expected = "refused 1\n    refused: the machine has 17 pages, and bench takes at most 16\n";
    fs::write(here.join("b.asm"), text).expect("a text");
    assert_eq!(try_in(&here, &["b.asm"]), (1, expected.to_string(), String::new()));
}

#[test]
fn a_run_that_ends_in_a_fault_is_no_failure_of_the_script() {
    let (status, output, error) = try_in(&own(".."), &["images/fault-no-instruction.asm"]);
    assert_eq!((status, error.as_str()), (0, ""));
    assert!(output.contains(", fault: "), "{output}");
}

#[test]
fn the_script_tells_a_text_from_an_image() {
    let here = folder("try-text");
    for text in ["budget 5\n", "; gr\u{fc}\u{df}e\r\n\tat 0", "x"] {
        fs::write(here.join("my.txt"), text).expect("a text");
        let expected = "try: my.txt: this is a text, not an image, and the name of a text must end in .asm\n";
        assert_eq!(try_in(&here, &["my.txt"]), (1, String::new(), expected.to_string()));
    }
    fs::write(here.join("my.txt"), "budget 5\0\n").expect("an image, perhaps");
    let (status, output, error) = try_in(&here, &["my.txt"]);
    assert_eq!((status, error.as_str()), (1, ""));
    assert!(output.starts_with("refused 4 0\n"), "{output}");
}

#[test]
fn the_scripts_help_says_what_the_status_means() {
    let (status, output, error) = try_in(&own(".."), &["--help"]);
    assert_eq!((status, error.as_str()), (0, ""));
    let expected =
        "\nThe status is 0 if FILE was run, however that ended; 1 if not, or if bench refused it; 2 for wrong arguments.\n";
    assert!(output.contains(expected), "{output}");
}

#[test]
fn the_script_says_what_is_missing_or_wrong() {
    let here = folder("try-wrong");
    assert_eq!(
        try_in(&here, &["no.asm"]),
        (1, String::new(), "try: no.asm: no such file\n".to_string())
    );
    assert_eq!(
        try_in(&here, &["."]),
        (1, String::new(), "try: .: not a file that can be read\n".to_string())
    );
    assert_eq!(try_in(&here, &[]).0, 2);
    fs::write(here.join("a.asm"), "halt").expect("a text");
    let (status, output, error) = try_in(&here, &["a.asm"]);
    assert_eq!((status, output.as_str()), (1, ""));
    assert!(error.starts_with("a.asm:1: this word stands in no record"), "{error}");
    let mut command = Command::new("/bin/bash");
    command
        .arg(own("try"))
        .arg("a.asm")
        .current_dir(&here)
        .env("PATH", "/nowhere");
    let (status, _, error) = told(&command.output().expect("bash"));
    let expected = "try: cargo is missing: it comes with Rust and must be on the PATH\n";
    assert_eq!((status, error.as_str()), (1, expected));
}

#[test]
fn bench_says_what_is_missing_or_wrong() {
    let here = folder("bench-wrong");
    fs::write(here.join("image"), [1, 2, 3]).expect("an image");
    fs::write(here.join("my.txt"), "budget 5\n").expect("a text");
    fs::write(here.join("a.asm"), "halt").expect("a text");
    let bench = own("../bench");
    let table: [(&[&str], i32, &str); 7] = [
        (&["no.asm"], 1, "no.asm: no such file"),
        (&["--explain", "no"], 1, "no: no such file"),
        (&["."], 1, ".: not a file that can be read"),
        (
            &["my.txt"],
            1,
            "my.txt: this is a text, not an image, and the name of a text must end in .asm",
        ),
        (&["--both", "image"], 2, "--both is no option; try ./bench --help"),
        (
            &["image", "--explain", "a.asm"],
            2,
            "a.asm is one image too many; try ./bench --help",
        ),
        (&[""], 2, "the name of the image is empty; try ./bench --help"),
    ];
    for (arguments, status, what) in table {
        let output = run(bench.to_str().expect("a path of this package"), &here, arguments, b"");
        assert_eq!(told(&output), (status, String::new(), format!("bench: {what}\n")));
    }
    let mut command = Command::new("/bin/bash");
    command
        .arg(bench)
        .arg("a.asm")
        .current_dir(&here)
        .env("PATH", "/nowhere");
    let (status, output, error) = told(&command.output().expect("bash"));
    assert_eq!((status, output.as_str()), (1, ""));
    assert!(
        error.starts_with("bench: rt is missing: it comes with the Rattle kit"),
        "{error}"
    );
}

#[test]
fn the_first_page_shows_what_the_story_prints() {
    let page = fs::read_to_string(own("../README.md")).expect("the project's first page");
    let (_, section) = page.split_once("./bench images/eleven-hulls.asm").expect("the command");
    let block = section.split("```").nth(1).expect("what it prints");
    // Each line stands left of a remark.
    let shown: String = block
        .trim_start()
        .lines()
        .map(|line| format!("{}\n", line.split_once("  ").expect("a remark").0))
        .collect();
    let printed = fs::read_to_string(own("../images/eleven-hulls.out")).expect("its lines");
    assert_eq!(shown, printed);
}
