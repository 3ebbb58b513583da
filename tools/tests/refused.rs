//! Why a call was refused, as `explain` tells it with the text: the one test, with its numbers.

use std::fs;
use std::path::Path;
use tools::asm::{assemble, Assembly};
use tools::explain::{explain, Explainer};

/// What three guests run and have in TX; pages 0 to 2 are their code, page 9 is guest 1's, pages 10 and
/// 11 are guest 0's, and page 12 is nobody's.
#[derive(Clone, Copy, Default)]
struct Story<'a> {
    boss: &'a str,
    crew: &'a str,
    store: &'a str,
    boss_tx: &'a str,
    crew_tx: &'a str,
}

impl Story<'_> {
    /// Its text, assembled.
    fn text(self) -> Assembly {
        let Story { boss, crew, store, .. } = self;
        // A record has at least one word.
        let [boss_tx, crew_tx] = [self.boss_tx, self.crew_tx].map(|tx| if tx.is_empty() { "word 0" } else { tx });
        let text = format!(
            "machine guests 3 pages 13\nguest 0 tx 3 rx 4 start boss\nguest 1 tx 5 rx 6 start crew\n\
             guest 2 tx 7 rx 8 start store\npage 0 owner 0\npage 1 owner 1\npage 2 owner 2\npage 9 owner 1\n\
             page 10 owner 0\npage 11 owner 0\nat @0\nboss: {boss}\nhalt\nat @1\ncrew: {crew}\nhalt\n\
             at @2\nstore: {store}\nhalt\nat @3\n{boss_tx}\nat @5\n{crew_tx}\nbudget 1000"
        );
        assemble(&text).unwrap_or_else(|problems| panic!("{text}\n{problems:?}"))
    }

    /// The sentence for its last call, behind the step.
    fn last_call(self) -> String {
        let text = self.text();
        let lines = reference::bench_text(&text.image);
        let line = lines.lines().rev().nth(1).expect("a call before the end");
        let sentence = explain(line, Some(&text)).expect("a line of bench");
        sentence.split_once(": ").expect("the step").1.to_string()
    }
}

/// The story in which boss runs that code, with those words in TX.
fn boss<'a>(boss: &'a str, boss_tx: &'a str) -> Story<'a> {
    Story {
        boss,
        boss_tx,
        ..Story::default()
    }
}

#[test]
fn run() {
    let table = [
        ("movi r1 0", "R1 = 0 is the caller itself"),
        ("movi r1 3", "R1 = 3 is no guest"),
        ("set r1 0x0100_0001", "R1 = 16777217 is no guest"),
    ];
    for (code, why) in table {
        let sentence = boss(&format!("{code}\ncall Run"), "").last_call();
        assert_eq!(
            sentence,
            format!("guest 0 (boss) calls Run: error INVALID_PARAMETERS ({why})")
        );
    }
    let story = Story {
        crew: "call Run",
        ..boss("movi r1 1\ncall Run", "")
    };
    let expected = "guest 1 (crew) calls Run: error DENIED (only guest 0 (boss) may call it)";
    assert_eq!(story.last_call(), expected);
}

#[test]
fn send() {
    let table = [
        ("movi r1 3\nmovi r2 0", "R1 = 3 is no guest"),
        ("movi r1 0\nmovi r2 1", "R1 = 0 is the caller itself"),
        ("movi r1 1\nmovi r2 0", "R2 = 0 is not 1 to 1024"),
        ("movi r1 1\nmovi r2 1025", "R2 = 1025 is not 1 to 1024"),
    ];
    for (code, why) in table {
        let sentence = boss(&format!("{code}\ncall Send"), "").last_call();
        assert_eq!(
            sentence,
            format!("guest 0 (boss) calls Send: error INVALID_PARAMETERS ({why})")
        );
    }
    let story = Story {
        boss: "movi r1 1\ncall Run\nmovi r1 2\nmovi r2 5\ncall Send",
        crew: "movi r1 2\nmovi r2 1\ncall Send",
        ..Story::default()
    };
    let expected = "guest 0 (boss) calls Send: error BUSY \
                    (guest 2 (store) has not taken its last message, from guest 1 (crew))";
    assert_eq!(story.last_call(), expected);
}

/// R1 of a Share by guest 0, the words in TX, and what is wrong with them.
const INVALID: &[(&str, &str, &str)] = &[
    ("2", "word 2 0x10003", "R1 = 2 is not 3 to 10"),
    ("11", "word 11 0x10003", "R1 = 11 is not 3 to 10"),
    ("-2", "word 3 0x10003", "R1 = 4294967294 is not 3 to 10"),
    ("4", "word 3 0x10002", "R1 is 4, but word 0 in TX is 3"),
    ("3", "word -1 0x10003", "R1 is 3, but word 0 in TX is 4294967295"),
    (
        "3",
        "word 3 0x50002 9217",
        "the descriptor is of kind 2 (lend), not 3 (share)",
    ),
    (
        "3",
        "word 3 0x10103 @10",
        "the descriptor is of kind 259, not 3 (share)",
    ),
    ("3", "word 3 0x50003 9217", "the descriptor's receiver 5 is no guest"),
    ("3", "word 3 0x1010003 @10", "the descriptor's receiver 257 is no guest"),
    (
        "3",
        "word 3 0x00003 9217",
        "the descriptor's receiver 0 is the caller itself",
    ),
    ("3", "word 3 0x10003 9217", "9217 is no page's base"),
    (
        "3",
        "word 3 0x10003 @13",
        "13312 is no page's base; the last page is 12",
    ),
    ("3", "word 3 0x10003 11", "11 is no page's base; page 11's is 11264"),
    ("5", "word 5 0x10003 @11 @10 1", "1 is no page's base; page 1's is 1024"),
    (
        "4",
        "word 4 0x10003 @11 @10",
        "10240 stands behind 11264, but the pages' bases must ascend",
    ),
    (
        "4",
        "word 4 0x10003 @9 @9",
        "9216 stands behind 9216, but the pages' bases must ascend",
    ),
];

#[test]
fn descriptors_that_are_wrong() {
    for (r1, tx, why) in INVALID {
        let sentence = boss(&format!("set r1 {r1}\ncall Share"), tx).last_call();
        let expected = format!("guest 0 (boss) calls Share: error INVALID_PARAMETERS ({why})");
        assert_eq!(sentence, expected, "{tx}");
    }
    let [donate, lend] = ["Donate", "Lend"].map(|call| {
        let code = format!("movi r1 3\ncall {call}");
        boss(&code, "descriptor share 1 10").last_call()
    });
    assert!(
        donate.ends_with("(the descriptor is of kind 3 (share), not 1 (donate))"),
        "{donate}"
    );
    assert!(
        lend.ends_with("(the descriptor is of kind 3 (share), not 2 (lend))"),
        "{lend}"
    );
}

#[test]
fn pages_that_are_not_there_to_be_sent() {
    let table = [
        ("9", "page 9 is guest 1 (crew)'s"),
        ("12", "page 12 has no owner"),
        ("3", "page 3 is its own TX page"),
        ("4", "page 4 is its own RX page"),
        ("8", "page 8 is a mailbox page of guest 2 (store)"),
        ("10 11 12", "page 12 has no owner"),
    ];
    for (pages, why) in table {
        let count = 2 + pages.split(' ').count();
        let (code, tx) = (
            format!("movi r1 {count}\ncall Lend"),
            format!("descriptor lend 1 {pages}"),
        );
        let expected = format!("guest 0 (boss) calls Lend: error DENIED ({why})");
        assert_eq!(boss(&code, &tx).last_call(), expected);
    }
}

#[test]
fn pages_that_are_sent_already() {
    for (call, sent) in [("Donate", "donated to"), ("Lend", "lent to"), ("Share", "shared with")] {
        let (code, tx) = (
            format!("movi r1 3\ncall {call}\ncall {call}"),
            format!("descriptor {call} 2 10"),
        );
        let expected = format!("guest 0 (boss) calls {call}: error DENIED (page 10 is {sent} guest 2 (store))");
        assert_eq!(boss(&code, &tx).last_call(), expected);
    }
    let lent = Story {
        boss: "movi r1 1\ncall Run\nmovi r1 0\ncall Retrieve\nmovi r1 3\ncall Lend",
        boss_tx: "descriptor lend 2 9",
        crew: "movi r1 3\ncall Lend\ncall Yield",
        crew_tx: "descriptor lend 0 9",
        ..Story::default()
    };
    let expected = "guest 0 (boss) calls Lend: error DENIED (page 9 is guest 1 (crew)'s, lent to it)";
    assert_eq!(lent.last_call(), expected);
}

#[test]
fn handles_that_are_none_or_not_in_use() {
    for call in ["Retrieve", "Relinquish", "Reclaim"] {
        let table = [
            ("-2", "R1 = 4294967294 is no handle"),
            ("16", "R1 = 16 is no handle"),
            ("256", "R1 = 256 is no handle"),
            ("3", "handle 3 is not in use"),
            ("15", "handle 15 is not in use"),
        ];
        for (r1, why) in table {
            let sentence = boss(&format!("set r1 {r1}\ncall {call}"), "").last_call();
            let expected = format!("guest 0 (boss) calls {call}: error INVALID_PARAMETERS ({why})");
            assert_eq!(sentence, expected);
        }
    }
}

/// The story in which crew shares pages 1 and 9 with store, which runs that code; then boss does.
fn shared<'a>(store: &'a str, boss: &'a str) -> Story<'a> {
    Story {
        boss,
        crew: "movi r1 4\ncall Share\ncall Yield\nmovi r1 0\ncall Reclaim\nhalt",
        store,
        crew_tx: "descriptor share 2 1 9",
        ..Story::default()
    }
}

/// Boss gives crew and then store a turn.
const TURNS: &str = "movi r1 1\ncall Run\nmovi r1 2\ncall Run\n";

#[test]
fn handles_of_others() {
    for call in ["Retrieve", "Relinquish", "Reclaim"] {
        let code = format!("movi r1 1\ncall Run\nmovi r1 0\ncall {call}");
        let why = "handle 0 is from guest 1 (crew) to guest 2 (store)";
        let expected = format!("guest 0 (boss) calls {call}: error DENIED ({why})");
        assert_eq!(shared("", &code).last_call(), expected);
    }
    let expected = "guest 2 (store) calls Reclaim: error DENIED \
                    (handle 0 is from guest 1 (crew) to guest 2 (store))";
    let store = "movi r1 0\ncall Retrieve\ncall Reclaim";
    assert_eq!(
        shared(store, TURNS).last_call(),
        expected,
        "before the mark is looked at"
    );
}

#[test]
fn handles_that_are_retrieved_or_not() {
    let expected = "guest 2 (store) calls Retrieve: error DENIED (handle 0 is retrieved already)";
    let store = "movi r1 0\ncall Retrieve\ncall Retrieve";
    assert_eq!(shared(store, TURNS).last_call(), expected);
    let expected = "guest 2 (store) calls Relinquish: error DENIED (handle 0 is not retrieved)";
    assert_eq!(shared("movi r1 0\ncall Relinquish", TURNS).last_call(), expected);
    let expected = "guest 1 (crew) calls Reclaim: error DENIED (guest 2 (store) still has pages 1 and 9)";
    let turns = format!("{TURNS}movi r1 1\ncall Run");
    let store = "movi r1 0\ncall Retrieve\ncall Yield";
    assert_eq!(shared(store, &turns).last_call(), expected);
}

#[test]
fn every_refusal_of_the_errors_program_is_told_by_its_numbers() {
    let path = Path::new(env!("CARGO_MANIFEST_DIR")).join("../images/errors.asm");
    let text = assemble(&fs::read_to_string(path).expect("the program")).expect("no problem");
    let mut explainer = Explainer::new(Some(&text));
    let mut told = 0;
    for line in reference::bench_text(&text.image).lines() {
        let words: Vec<&str> = line.split(' ').collect();
        let [with, without] = [explainer.explain(line).map(|with| with.sentence), explain(line, None)]
            .map(|sentence| sentence.expect("a line of bench"));
        // Of Poll, of Wait and of what is no call, the line knows all.
        let plain = matches!(
            words[..],
            [_, _, "8400006a" | "8400006b" | "84000070" | "84000075" | "0000006d", ..]
        );
        if words.get(3) == Some(&"84000060") && !plain {
            let reason = |sentence: &str| sentence.split_once(" (").map(|(_, reason)| reason.to_string());
            let (with, without) = (with.split_once(": error "), without.split_once(": error "));
            let [with, without] = [with, without].map(|parts| reason(parts.expect("an error").1));
            assert_ne!(with, without, "{line}");
            told += 1;
        }
    }
    assert!(told > 50, "{told}");
}
