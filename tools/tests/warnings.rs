//! What `asm` warns of, and in which words: an image that a loader or bench refuses is made all the same.

use reference::Rule;
use tools::asm::assemble;
use tools::explain::explain;

/// The warnings as line and text.
fn warnings(text: &str) -> Vec<(Option<usize>, String)> {
    let assembly = assemble(text).unwrap_or_else(|problems| panic!("{text}\n{problems:?}"));
    assembly
        .warnings()
        .into_iter()
        .map(|warning| (warning.line, warning.what))
        .collect()
}

/// The start of a good text with that many pages, seven lines long and 8 + 2 × 14 + 2 × 8 + 12 = 64 bytes.
fn machine(pages: u32) -> String {
    format!(
        "machine guests 2 pages {pages}\nguest 0 tx 2 rx 3 start 0\nguest 1 tx 4 rx 5 start 0\n\
         page 0 owner 0\npage 1 owner 1\nat 0\nhalt\n"
    )
}

#[test]
fn a_good_image_has_no_warning() {
    assert_eq!(warnings(&(machine(16) + "budget 1")), []);
}

/// What follows the good start, the line of the record that is refused and its offset, and why.
const REFUSED: &[(&str, usize, usize, &str)] = &[
    ("machine guests 2 pages 6", 8, 64, "`machine` stands a second time"),
    (
        "guest 1 tx 6 rx 7 start 0",
        8,
        64,
        "the guest has its `guest` line already",
    ),
    (
        "\npage 1 owner 0\nbudget 1",
        9,
        64,
        "the page has its `page` line already",
    ),
    (
        "page 5 owner 0",
        8,
        64,
        "the page is a mailbox page, so it takes no `page` line",
    ),
    ("at 0\nbudget 1", 8, 64, "no word stands below this `at`"),
    (
        "at 16383\nword 1 2",
        8,
        64,
        "a word below this `at` lies outside memory",
    ),
    (
        "budget 1\n\nbytes 00",
        10,
        72,
        "it stands below `budget`, which must be the last record",
    ),
    (
        "record 4 0000000000",
        8,
        64,
        "the payload of words (kind 4) is not an address and one or more whole words",
    ),
    (
        "record 5",
        8,
        64,
        "the payload of the budget (kind 5) is not 4 bytes long",
    ),
    ("guest 2 tx 6 rx 7 start 0", 8, 64, "the guest (kind 2) does not exist"),
    ("record 6", 8, 64, "the record's kind is not 1 to 5"),
];

#[test]
fn a_bad_record_is_named_by_line_and_statement_in_both_programs() {
    for (statements, line, offset, why) in REFUSED {
        let text = machine(16) + statements;
        let expected = format!("a loader refuses this record: {why}");
        assert_eq!(warnings(&text), [(Some(*line), expected)], "{statements}");
        let assembly = assemble(&text).expect("no problem");
        let expected = format!("refused: the image is broken at byte {offset}, line {line} of the text: {why}");
        let explained = explain(&format!("refused 4 {offset}"), Some(&assembly));
        assert_eq!(explained, Some(expected), "{statements}");
    }
}

#[test]
fn the_first_record_must_be_the_machine() {
    let expected = "a loader refuses this record: the first record must be `machine`".to_string();
    assert_eq!(warnings("budget 1"), [(Some(1), expected)]);
    let expected = "a loader refuses this record: the number of pages is below twice that of guests, or above 64";
    assert_eq!(warnings(&(machine(65) + "budget 1")), [(Some(1), expected.to_string())]);
}

#[test]
fn guests_without_a_line_are_named() {
    let guest = |guest: u32| format!("guest {guest} tx {} rx {} start 0\n", 2 * guest, 2 * guest + 1);
    let table = [
        (2, vec![0], "guest 1 has"),
        (2, vec![1], "guest 0 has"),
        (2, vec![], "guests 0 and 1 have"),
        (4, vec![3, 0], "guests 1 and 2 have"),
        (8, vec![1, 6], "guests 0, 2, 3, 4, 5 and 7 have"),
    ];
    for (count, described, who) in table {
        let guests: String = described.iter().copied().map(guest).collect();
        // What follows the budget comes too late.
        let late = guest(count - 1);
        let text = format!("machine guests {count} pages 16\n{guests}\nbudget 5\n{late}");
        let expected = format!("a loader refuses this record: {who} no `guest` line above `budget`");
        assert_eq!(warnings(&text), [(Some(described.len() + 3), expected)]);
    }
}

#[test]
fn a_missing_budget_is_warned_of_at_the_end() {
    let sentence = "a loader refuses the image at the end of the file: \
                    `budget` is missing, which must be the last record";
    assert_eq!(warnings(&machine(16)), [(None, sentence.to_string())]);
    assert_eq!(warnings(""), [(None, sentence.to_string())]);
}

#[test]
fn warnings_above_what_bench_takes() {
    let pages = "bench refuses 17 pages, it takes at most 16".to_string();
    assert_eq!(warnings(&(machine(17) + "budget 1")), [(Some(1), pages)]);
    // Besides the two long records, the start and the budget are 72 bytes long.
    let sized = |bytes: usize| {
        machine(16) + "at 0\nfill 16000 0\n" + &format!("at 0\nfill {} 0\nbudget 1", (bytes - 72 - 8 - 64_000 - 8) / 4)
    };
    assert_eq!(assemble(&sized(65_536)).map(|made| made.image.len()), Ok(65_536));
    assert_eq!(warnings(&sized(65_536)), []);
    let expected = "bench refuses 65540 bytes, it takes at most 65536".to_string();
    assert_eq!(warnings(&sized(65_540)), [(None, expected)]);
    let both = warnings(&sized(65_540).replace("pages 16", "pages 17"));
    assert_eq!(both.len(), 2, "{both:?}");
}

#[test]
fn explain_says_of_what_there_is_too_much_for_bench() {
    let guests = "guest 0 tx 2 rx 3 start 0\nguest 1 tx 4 rx 5 start 0";
    let pages = assemble(&format!("machine guests 2 pages 17\n{guests}\nbudget 1")).expect("no problem");
    let expected = "refused: the machine has 17 pages, and bench takes at most 16";
    assert_eq!(explain("refused 1", Some(&pages)).as_deref(), Some(expected));
    // A record of 16,382 words is 65,536 bytes long, and the budget's 8.
    let bytes = assemble("at 0\nfill 16382 0\nbudget 1").expect("no problem");
    let expected = "refused: the image has 65544 bytes, and bench takes at most 65536";
    assert_eq!(explain("refused 1", Some(&bytes)).as_deref(), Some(expected));
}

#[test]
fn a_loaders_sentence_says_what_the_record_is_and_not_only_its_kind() {
    for rule in Rule::ALL {
        let sentence = rule.to_string();
        // What stands outside of parentheses.
        let plain: String = sentence
            .split('(')
            .map(|part| part.rsplit(')').next().unwrap_or_default())
            .collect();
        for kind in 1..=5 {
            assert!(!plain.contains(&format!("kind {kind}")), "{sentence}");
        }
    }
    let expected = "the image ends without a budget (kind 5)";
    assert_eq!(Rule::BudgetMissing.to_string(), expected);
    let expected = "the budget (kind 5) stands before every guest has its record (kind 2)";
    assert_eq!(Rule::GuestMissing.to_string(), expected);
}
