//! The sentence for every form of line that bench prints, and none for any other.

use tools::asm::{assemble, Assembly};
use tools::explain::explain;

/// Tests lines of bench against their sentences, without a text.
fn check(table: &[(&str, &str)]) {
    for (line, sentence) in table {
        assert_eq!(explain(line, None).as_deref(), Some(*sentence), "{line}");
    }
}

/// Every call that works, and how.
const WORKING: &[(&str, &str)] = &[
    (
        "3 0 8400006d 8400006d 00000005",
        "step 3: guest 0 calls Run: success, the guest in R1 goes on",
    ),
    ("3 0 8400006c 84000061 00000000", "step 3: guest 0 calls Yield: success"),
    (
        "4 7 8400006c 84000061 0000ffff",
        "step 4: guest 7 calls Yield: success, guest 0 goes on",
    ),
    (
        "9 1 8400006a 8400006e 00000001",
        "step 9: guest 1 calls Poll: success, a message of 1 word, its sender in R1",
    ),
    (
        "9 0 8400006a 8400006e 00000400",
        "step 9: guest 0 calls Poll: success, a message of 1024 words, its sender in R1",
    ),
    (
        "9 2 8400006b 8400006e 00000003",
        "step 9: guest 2 calls Wait: success, a message of 3 words, its sender in R1",
    ),
    (
        "9 0 8400006b 8400006e 00000003",
        "step 9: guest 0 calls Wait: success, a message of 3 words, its sender in R1",
    ),
    (
        "9 2 8400006b 84000061 00000003",
        "step 9: guest 2 calls Wait: success, guest 0 goes on",
    ),
    ("9 0 8400006e 84000061 00000003", "step 9: guest 0 calls Send: success"),
    (
        "9 1 8400006e 84000061 00000003",
        "step 9: guest 1 calls Send: success, guest 0 goes on",
    ),
    (
        "12 1 84000071 84000061 00000002",
        "step 12: guest 1 calls Donate: success, handle 2",
    ),
    (
        "12 1 84000072 84000061 0000000f",
        "step 12: guest 1 calls Lend: success, handle 15",
    ),
    (
        "12 1 84000073 84000061 00000000",
        "step 12: guest 1 calls Share: success, handle 0",
    ),
    (
        "1 1 84000074 84000061 00000099",
        "step 1: guest 1 calls Retrieve: success",
    ),
    (
        "1 1 84000076 84000061 00000099",
        "step 1: guest 1 calls Relinquish: success",
    ),
    (
        "4294967295 1 84000077 84000061 00000099",
        "step 4294967295: guest 1 calls Reclaim: success",
    ),
];

#[test]
fn calls_that_work() {
    check(WORKING);
}

/// The sentence for an error of a call, without the step and the reason.
fn error(call: u32, code: i32) -> String {
    let sentence = explain(&format!("5 1 {call:08x} 84000060 {code:08x}"), None).expect("a line of bench");
    let sentence = sentence
        .strip_prefix("step 5: guest 1 calls ")
        .expect("the caller")
        .to_string();
    sentence.split(" (").next().unwrap_or_default().to_string()
}

#[test]
fn every_error_of_every_call() {
    let table: [(u32, &str, &[i32]); 11] = [
        (0x8400_006d, "Run", &[-6, -2]),
        (0x8400_006c, "Yield", &[]),
        (0x8400_006a, "Poll", &[-9]),
        (0x8400_006b, "Wait", &[-9]),
        (0x8400_006e, "Send", &[-2, -4]),
        (0x8400_0071, "Donate", &[-2, -6, -3]),
        (0x8400_0072, "Lend", &[-2, -6, -3]),
        (0x8400_0073, "Share", &[-2, -6, -3]),
        (0x8400_0074, "Retrieve", &[-2, -6, -8]),
        (0x8400_0076, "Relinquish", &[-2, -6, -8]),
        (0x8400_0077, "Reclaim", &[-2, -6, -8]),
    ];
    let names = [
        (-1, "NOT_SUPPORTED"),
        (-2, "INVALID_PARAMETERS"),
        (-3, "NO_MEMORY"),
        (-4, "BUSY"),
        (-6, "DENIED"),
        (-8, "ABORTED"),
        (-9, "NO_DATA"),
    ];
    for (number, call, given) in table {
        for (code, name) in names {
            let expected = match given.contains(&code) {
                true => format!("{call}: error {name}"),
                false => format!("{call}: R0 = 0x84000060, R2 = 0x{code:08x}, which it never answers"),
            };
            assert_eq!(error(number, code), expected);
        }
    }
}

#[test]
fn reasons() {
    check(&[
        ("5 1 8400006d 84000060 fffffffa", "step 5: guest 1 calls Run: error DENIED (only guest 0 may call it)"),
        ("5 0 8400006d 84000060 fffffffe", "step 5: guest 0 calls Run: error INVALID_PARAMETERS (R1 is 0 or no guest's number)"),
        ("5 1 84000073 84000060 fffffffd", "step 5: guest 1 calls Share: error NO_MEMORY (all 16 handles are in use)"),
        (
            "5 1 84000072 84000060 fffffffa",
            "step 5: guest 1 calls Lend: error DENIED (a page is not the caller's own, or is donated, lent or shared already)",
        ),
        (
            "5 1 84000077 84000060 fffffffa",
            "step 5: guest 1 calls Reclaim: error DENIED (the caller is not the sender, or the receiver has not relinquished)",
        ),
    ]);
}

#[test]
fn calls_that_are_none() {
    check(&[
        ("5 1 00000000 84000060 ffffffff", "step 5: guest 1 calls 0x00000000, which is no call: error NOT_SUPPORTED (R0 chooses none)"),
        ("5 1 84000075 84000060 ffffffff", "step 5: guest 1 calls 0x84000075, which is no call: error NOT_SUPPORTED (R0 chooses none)"),
        (
            "5 1 84000075 84000061 00000000",
            "step 5: guest 1 calls 0x84000075, which is no call: R0 = 0x84000061, R2 = 0x00000000, which it never answers",
        ),
    ]);
}

#[test]
fn answers_that_no_call_gives() {
    let lines = [
        "5 1 8400006d 8400006d 00000000", // only guest 0 can run others
        "5 0 8400006d 84000061 00000000", // Run has no success word
        "5 0 8400006b 84000061 00000000", // guest 0 cannot wait
        "5 1 8400006a 84000061 00000000", // Poll has a message or an error
        "5 1 8400006a 8400006e 00000000", // no message is empty
        "5 1 8400006b 8400006e 00000401", // none is longer than 1,024
        "5 1 84000073 84000061 00000010", // there is no handle 16
        "5 1 84000073 84000061 00000100", // nor is 256 handle 0
        "5 1 84000073 84000073 00000000",
        "5 1 84000074 84000060 00000000", // no such error
    ];
    for line in lines {
        let sentence = explain(line, None).expect("a line of bench");
        assert!(sentence.ends_with(", which it never answers"), "{line}: {sentence}");
    }
}

#[test]
fn ends() {
    check(&[
        ("end 57 halted", "end: 57 steps, halted"),
        ("end 1 halted", "end: 1 step, halted"),
        ("end 0 normal", "end: 0 steps, normal: the budget is used up"),
        (
            "end 2 fault",
            "end: 2 steps, fault: a guest reached for a word that it may not reach, or ran one that is no instruction",
        ),
    ]);
}

#[test]
fn refusals() {
    check(&[
        (
            "refused 1",
            "refused: the image has more than 65536 bytes, or its machine more than 16 pages",
        ),
        ("refused 4 0", "refused: the image is broken at byte 0"),
        ("refused 4 65536", "refused: the image is broken at byte 65536"),
    ]);
}

/// Lines that are nearly bench's.
const STRANGE: &[&str] = &[
    "",
    " ",
    "hello",
    "end",
    "end 5",
    "end 5 stopped",
    "end 5 Halted",
    "end 05 halted",
    "end -5 halted",
    "end +5 halted",
    "end 5 halted ",
    "end  5 halted",
    "end 4294967296 halted",
    "End 5 halted",
    "refused",
    "refused 2",
    "refused 4",
    "refused 4 x",
    "refused 4 00",
    "refused 1 0",
    "0 1 8400006c 84000061 00000000",
    "01 1 8400006c 84000061 00000000",
    "+1 1 8400006c 84000061 00000000",
    "1 8 8400006c 84000061 00000000",
    "1 65537 8400006c 84000061 00000000",
    "1 1 8400006C 84000061 00000000",
    "1 1 0x8400006c 84000061 00000000",
    "1 1 8400006c 4000061 00000000",
    "1 1 8400006c 84000061 +0000000",
    "1 1 8400006c 84000061",
    "1 1 8400006c 84000061 00000000 ",
    "1 1 8400006c 84000061 00000000 0",
    "1\t1 8400006c 84000061 00000000",
    "1 1 8400006c 84000061 00000000\r",
];

#[test]
fn lines_that_bench_does_not_print() {
    for line in STRANGE {
        assert_eq!(explain(line, None), None, "{line:?}");
    }
}

/// A text whose line 4 is bad.
fn text() -> Assembly {
    let text = "machine guests 2 pages 7\nguest 0 tx 2 rx 3 start boss\nguest 1 tx 4 rx 5 start @home\n\
                page 4 owner 0\nhome = 1\nat 0\nboss: halt";
    assemble(text).expect("a text without problems")
}

#[test]
fn names_from_the_text() {
    // Guest 0 starts at a label, guest 1 at a page with a name, guest 2 at a number.
    let text = "machine guests 3 pages 9\nguest 0 tx 3 rx 4 start boss\nguest 1 tx 5 rx 6 start @home\n\
                guest 2 tx 7 rx 8 start 2048\npage 0 owner 0\npage 1 owner 1\npage 2 owner 2\nhome = 1\n\
                at 0\nboss: call Yield\nmovi r1 1\ncall Run\nmovi r1 2\ncall Run\nat 1024\ncall Yield\n\
                at 2048\ncall Yield\nbudget 99";
    let text = assemble(text).expect("a text without problems");
    let named = |line: &str| explain(line, Some(&text)).expect("a line of bench");
    assert_eq!(
        named("3 0 8400006c 84000061 00000000"),
        "step 3: guest 0 (boss) calls Yield: success"
    );
    let expected = "step 10: guest 1 (home) calls Yield: success, guest 0 (boss) goes on";
    assert_eq!(named("10 1 8400006c 84000061 00000000"), expected);
    let expected = "step 17: guest 2 calls Yield: success, guest 0 (boss) goes on";
    assert_eq!(named("17 2 8400006c 84000061 00000000"), expected);
}

#[test]
fn refusals_with_the_text() {
    let text = text();
    let expected = "refused: the image is broken at byte 36, line 4 of the text: \
                    the page is a mailbox page, so it takes no `page` line";
    assert_eq!(explain("refused 4 36", Some(&text)).as_deref(), Some(expected));
    let other = "refused: the image is broken at byte 35".to_string();
    assert_eq!(
        explain("refused 4 35", Some(&text)),
        Some(other),
        "not the image of this text"
    );
    let expected = "refused: the image is broken at byte 0, the end of the text: \
                    `budget` is missing, which must be the last record";
    assert_eq!(
        explain("refused 4 0", Some(&Assembly::default())).as_deref(),
        Some(expected)
    );
}

#[test]
fn a_broken_text_adds_nothing_to_an_end() {
    let expected = "end: 2 steps, normal: the budget is used up".to_string();
    assert_eq!(explain("end 2 normal", Some(&text())), Some(expected));
}
