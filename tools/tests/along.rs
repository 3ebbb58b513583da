//! What `explain` says with the text of the image: its run goes along with the lines. Steps and lines
//! are counted by hand.

use std::fs;
use std::io::Write;
use std::path::Path;
use std::process::{Command, Stdio};
use tools::asm::{assemble, Assembly};
use tools::explain::{explain, Explainer};

/// Three guests; every call that can work does.
const STORY: &str = "\
machine guests 3 pages 11
guest 0 tx 3 rx 4 start boss
guest 1 tx 5 rx 6 start crew
guest 2 tx 7 rx 8 start store
page 0 owner 0
page 1 owner 1
page 2 owner 2
page 9 owner 1
page 10 owner 1
at @0
boss:   movi r1 1
        call Run
        movi r1 2
        call Run
        movi r1 1
        call Run
        movi r1 2
        movi r2 1024
        call Send
        call Yield
        halt
at @1
crew:   movi r1 4
        call Share
        movi r1 2
        movi r2 1
        call Send
        movi r1 0
        call Reclaim
        movi r1 4
        call Reclaim
        call Yield
at @2
store:  call Wait
        movi r1 0
        call Retrieve
        call Relinquish
        call Wait
at @5
        descriptor share 2 9 10
budget 100
";

/// Its lines, each with its sentence behind the name of the call.
const LINES: &[(&str, &str)] = &[
    (
        "4 0 8400006d 8400006d 00000000",
        "guest 0 (boss) calls Run: success, guest 1 (crew) goes on",
    ),
    (
        "8 1 84000073 84000061 00000000",
        "guest 1 (crew) calls Share: success, handle 0: pages 9 and 10 to guest 2 (store)",
    ),
    (
        "13 1 8400006e 84000061 00000001",
        "guest 1 (crew) calls Send: success, 1 word to guest 2 (store); guest 0 (boss) goes on",
    ),
    (
        "17 0 8400006d 8400006d 00000002",
        "guest 0 (boss) calls Run: success, guest 2 (store) goes on",
    ),
    (
        "20 2 8400006b 8400006e 00000001",
        "guest 2 (store) calls Wait: success, a message of 1 word from guest 1 (crew)",
    ),
    (
        "24 2 84000074 84000061 00000001",
        "guest 2 (store) calls Retrieve: success, handle 0: pages 9 and 10 from guest 1 (crew)",
    ),
    (
        "27 2 84000076 84000061 00000001",
        "guest 2 (store) calls Relinquish: success, handle 0: pages 9 and 10 back to guest 1 (crew)",
    ),
    (
        "30 2 8400006b 84000061 00000001",
        "guest 2 (store) calls Wait: success, guest 0 (boss) goes on",
    ),
    (
        "34 0 8400006d 8400006d 00000002",
        "guest 0 (boss) calls Run: success, guest 1 (crew) goes on",
    ),
    (
        "38 1 84000077 84000061 00000001",
        "guest 1 (crew) calls Reclaim: success, handle 0: pages 9 and 10, no longer for guest 2 (store)",
    ),
    (
        "42 1 84000077 84000060 fffffffe",
        "guest 1 (crew) calls Reclaim: error INVALID_PARAMETERS (handle 4 is not in use)",
    ),
    (
        "45 1 8400006c 84000061 fffffffe",
        "guest 1 (crew) calls Yield: success, guest 0 (boss) goes on",
    ),
    (
        "50 0 8400006e 84000061 00000400",
        "guest 0 (boss) calls Send: success, 1024 words to guest 2 (store)",
    ),
    ("53 0 8400006c 84000061 00000400", "guest 0 (boss) calls Yield: success"),
];

/// The assembly of a text that has no problems.
fn good(text: &str) -> Assembly {
    assemble(text).unwrap_or_else(|problems| panic!("{text}\n{problems:?}"))
}

/// Two guests, `boss` and `crew`, with one page of their own each and pages 6 to 13 for guest 0;
/// their code, and what is in guest 0's TX page.
fn pair(boss: &str, crew: &str, tx: &str) -> Assembly {
    let pages: String = (6..14).map(|page| format!("page {page} owner 0\n")).collect();
    good(&format!(
        "machine guests 2 pages 14\nguest 0 tx 2 rx 3 start boss\nguest 1 tx 4 rx 5 start crew\n\
         page 0 owner 0\npage 1 owner 1\n{pages}at @0\nboss: {boss}\nat @1\ncrew: {crew}\nat @2\n{tx}\nbudget 30"
    ))
}

/// The lines that bench prints for a text have these sentences, none of them astray.
fn check(text: &Assembly, lines: &[(&str, &str)]) {
    let mut explainer = Explainer::new(Some(text));
    for (line, expected) in lines {
        let explanation = explainer.explain(line).expect("a line of bench");
        let step = line.split(' ').next().unwrap_or_default();
        assert_eq!(explanation.sentence, format!("step {step}: {expected}"));
        assert!(!explanation.astray, "{line}");
    }
}

#[test]
fn every_call_with_the_text() {
    let text = good(STORY);
    let benched: String = LINES.iter().map(|(line, _)| format!("{line}\n")).collect();
    assert_eq!(reference::bench_text(&text.image), benched + "end 54 halted\n");
    check(&text, LINES);
}

#[test]
fn lines_may_be_left_out() {
    let text = good(STORY);
    check(&text, &[LINES[2], LINES[9]]);
    let (line, expected) = LINES[5];
    assert_eq!(explain(line, Some(&text)), Some(format!("step 24: {expected}")));
}

#[test]
fn messages_for_guest_0_and_by_poll() {
    let text = pair(
        "movi r1 1\ncall Run\ncall Poll\nhalt",
        "movi r2 3\ncall Send",
        "fill 3 0",
    );
    check(
        &text,
        &[
            (
                "4 0 8400006d 8400006d 00000000",
                "guest 0 (boss) calls Run: success, guest 1 (crew) goes on",
            ),
            (
                "8 1 8400006e 84000061 00000003",
                "guest 1 (crew) calls Send: success, 3 words to guest 0 (boss); guest 0 (boss) goes on",
            ),
            (
                "11 0 8400006a 8400006e 00000003",
                "guest 0 (boss) calls Poll: success, a message of 3 words from guest 1 (crew)",
            ),
        ],
    );
}

#[test]
fn a_donation_of_eight_pages() {
    let text = pair(
        "movi r1 10\ncall Donate\nmovi r1 1\ncall Run",
        "call Retrieve\nword 0",
        "descriptor donate 1 6 7 8 9 10 11 12 13",
    );
    let lines = [
        (
            "4 0 84000071 84000061 00000000",
            "guest 0 (boss) calls Donate: success, handle 0: pages 6, 7, 8, 9, 10, 11, 12 and 13 to guest 1 (crew)",
        ),
        (
            "11 1 84000074 84000061 00000000",
            "guest 1 (crew) calls Retrieve: success, handle 0: pages 6, 7, 8, 9, 10, 11, 12 and 13 from guest 0 (boss)",
        ),
    ];
    check(&text, &lines);
}

#[test]
fn a_page_that_is_shared_and_not_retrieved_is_denied() {
    let text = pair("movi r1 3\ncall Share\ncall Share", "halt", "descriptor share 1 7");
    let lines = [
        (
            "4 0 84000073 84000061 00000000",
            "guest 0 (boss) calls Share: success, handle 0: page 7 to guest 1 (crew)",
        ),
        (
            "7 0 84000073 84000060 fffffffa",
            "guest 0 (boss) calls Share: error DENIED (page 7 is shared with guest 1 (crew))",
        ),
    ];
    check(&text, &lines);
}

/// Lines that bench does not print for the story: the other step, caller, R0 before and after, and R2;
/// ends in another step or mode; refusals.
const ASTRAY: &[&str] = &[
    "12 1 8400006e 84000061 00000001",
    "14 1 8400006e 84000061 00000001",
    "4294967295 1 8400006e 84000061 00000001",
    "13 2 8400006e 84000061 00000001",
    "13 1 8400006c 84000061 00000001",
    "13 1 8400006e 84000060 00000001",
    "13 1 8400006e 84000061 00000000",
    "end 53 halted",
    "end 55 halted",
    "end 54 fault",
    "end 54 normal",
    "end 13 normal",
    "end 100 normal",
    "refused 1",
    "refused 4 0",
];

#[test]
fn what_the_text_does_not_give_is_said_once_and_then_only_the_lines_speak() {
    let text = good(STORY);
    for line in ASTRAY {
        let mut explainer = Explainer::new(Some(&text));
        let explanation = explainer.explain(LINES[1].0).expect("a line of bench");
        assert!(!explanation.astray);
        let explanation = explainer.explain(line).expect("a line of bench");
        assert!(explanation.astray, "{line}");
        assert_eq!(Some(explanation.sentence), explain(line, None));
        let explanation = explainer.explain(LINES[3].0).expect("a line of bench");
        let expected = "step 17: guest 0 calls Run: success, the guest in R1 goes on";
        assert_eq!(
            (explanation.astray, explanation.sentence.as_str()),
            (false, expected),
            "{line}"
        );
    }
}

#[test]
fn a_step_that_is_past_is_astray() {
    let text = good(STORY);
    for line in [LINES[2].0, LINES[1].0] {
        let mut explainer = Explainer::new(Some(&text));
        assert_eq!(explainer.explain(LINES[2].0).map(|first| first.astray), Some(false));
        assert_eq!(explainer.explain(line).map(|again| again.astray), Some(true), "{line}");
    }
}

#[test]
fn lines_that_are_none_do_not_disturb() {
    let text = good(STORY);
    let mut explainer = Explainer::new(Some(&text));
    assert_eq!(explainer.explain("hello"), None);
    let explanation = explainer.explain(LINES[0].0).expect("a line of bench");
    assert_eq!(explanation.sentence, format!("step 4: {}", LINES[0].1));
}

#[test]
fn refusals_that_the_text_gives_or_not() {
    let large = STORY.replace("pages 11", "pages 17");
    let broken = STORY.replace("page 9 owner 1", "page 8 owner 1");
    let astray = |text: &str, line| Explainer::new(Some(&good(text))).explain(line).map(|line| line.astray);
    assert_eq!(astray(&large, "refused 1"), Some(false));
    assert_eq!(astray(&large, "refused 4 0"), Some(true));
    assert_eq!(astray(&large, LINES[0].0), Some(true));
    // Behind kind 1 with 8 bytes, kind 2 with 14 three times, kind 3 with 8 three times.
    assert_eq!(astray(&broken, "refused 4 74"), Some(false));
    assert_eq!(astray(&broken, "refused 4 75"), Some(true));
    assert_eq!(astray(&broken, "refused 1"), Some(true));
    assert_eq!(astray(&broken, "end 54 halted"), Some(true));
    // 16,382 words at a time are 65,536 bytes, so this is too large before it is looked at.
    let long = "at 0\nfill 16382 0\nbudget 1";
    assert_eq!(astray(long, "refused 1"), Some(false));
    assert_eq!(astray(long, "refused 4 0"), Some(true));
}

#[test]
fn a_run_that_ends_right_behind_a_call() {
    let text = good(&STORY.replace("budget 100", "budget 13"));
    let mut explainer = Explainer::new(Some(&text));
    for line in [LINES[0].0, LINES[2].0] {
        explainer.explain(line).expect("a line of bench");
    }
    let explanation = explainer.explain("end 13 normal").expect("a line of bench");
    let expected = "end: 13 steps, normal: guest 0 (boss) at @0+4, line 13 of the text: \
                    it would go on here, but the budget is used up";
    assert_eq!((explanation.astray, explanation.sentence.as_str()), (false, expected));
    let none = good(&STORY.replace("budget 100", "budget 0"));
    let expected = "end: 0 steps, normal: guest 0 (boss) at @0, line 11 of the text: \
                    it would go on here, but the budget is used up";
    assert_eq!(explain("end 0 normal", Some(&none)).as_deref(), Some(expected));
}

#[test]
fn the_line_of_a_word_from_a_record_by_hand() {
    // The word 0 at @0+1, given by a record of kind 4 with its address 1, over a halt.
    let text = pair("mov r1 r1\nhalt", "halt", "word 0\nrecord 4 01000000 00000000");
    let expected = "end: 2 steps, fault: guest 0 (boss) at @0+1, line 21 of the text: \
                    the word there, 0x00000000, is no instruction";
    assert_eq!(explain("end 2 fault", Some(&text)).as_deref(), Some(expected));
}

/// Runs the program on a text and lines: exit status, standard output, standard error. Each test has
/// a folder of its own.
fn run(folder: &str, text: &str, lines: &str) -> (Option<i32>, String, String) {
    let folder = Path::new(env!("CARGO_TARGET_TMPDIR")).join(folder);
    fs::create_dir_all(&folder).expect("a folder for the test");
    fs::write(folder.join("story.asm"), text).expect("a text");
    let mut child = Command::new(env!("CARGO_BIN_EXE_explain"))
        .arg("story.asm")
        .current_dir(&folder)
        .stdin(Stdio::piped())
        .stdout(Stdio::piped())
        .stderr(Stdio::piped())
        .spawn()
        .expect("the program starts");
    let mut input = child.stdin.take().expect("its input");
    // A program that refuses its text does not read, so this may fail.
    let _ = input.write_all(lines.as_bytes());
    drop(input);
    let output = child.wait_with_output().expect("it ends");
    let text = |bytes: &[u8]| String::from_utf8_lossy(bytes).into_owned();
    (output.status.code(), text(&output.stdout), text(&output.stderr))
}

#[test]
fn the_program_warns_by_line_number_and_goes_on() {
    let lines = format!("{}\n8 1 84000073 84000061 00000003\n{}\n", LINES[0].0, LINES[2].0);
    let (status, output, error) = run("along", STORY, &lines);
    let expected = "step 4: guest 0 (boss) calls Run: success, guest 1 (crew) goes on\n\
                    step 8: guest 1 calls Share: success, handle 3\n\
                    step 13: guest 1 calls Send: success, guest 0 goes on\n";
    assert_eq!((status, output.as_str()), (Some(0), expected));
    assert_eq!(error.lines().count(), 1, "{error}");
    assert!(
        error.starts_with("stdin:2: warning: story.asm does not give this line"),
        "{error}"
    );
}

#[test]
fn the_program_tells_lines_of_bench_from_a_text() {
    let (status, output, error) = run("along-lines", "4 0 8400006d 8400006d 00000000\nend 54 halted\n", "");
    assert_eq!((status, output.as_str()), (Some(1), ""));
    assert_eq!(error.lines().count(), 1, "{error}");
    assert!(
        error.starts_with("explain: story.asm holds lines of bench, not the text of an image"),
        "{error}"
    );
    let (_, _, error) = run("along-text", "4 0\nend 54 halted\n", "");
    assert!(error.starts_with("story.asm:1: `4` is no statement"), "{error}");
}
