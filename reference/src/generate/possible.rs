//! All that images can meet: tables written down by hand from the scope document, the wrong ways of `flaw.rs`,
//! and the rules of loading.

use super::call::Call;
use super::damage::WAYS;
use super::flaw::{double_ways, first_flaws, wrong_ways};
use crate::image::Rule;

/// What stands before the name of what a run meets, where the bench runs the image.
pub const SHOWN: &str = "shown ";

/// Everything that can occur, by the names that the counts use: by the entries, and again what the bench can show.
pub fn possible() -> Vec<String> {
    let of_runs = runs();
    let shown = of_runs.iter().filter(|label| can_be_shown(label));
    let shown: Vec<String> = shown.map(|label| format!("{SHOWN}{label}")).collect();
    let mut list = of_runs;
    list.extend(shown);
    for (table, entries) in IMAGE_TABLES {
        list.extend(entries.iter().map(|entry| format!("{table} {entry}")));
    }
    for rule in Rule::ALL {
        list.push(format!("rule {rule:?}"));
        list.extend((0..WAYS).map(|way| format!("damage {rule:?} way {way}")));
    }
    list
}

/// Whether 16 pages are enough for it: with four of them mailboxes, 16 handles cannot be in use.
fn can_be_shown(label: &str) -> bool {
    let never = ["NO_MEMORY", "NoMemory", "NoHandleFree", "16 transactions open"];
    !never.iter().any(|part| label.contains(part))
}

/// Everything that a run can meet.
fn runs() -> Vec<String> {
    let mut list = Vec::new();
    for (table, entries) in RUN_TABLES {
        list.extend(entries.iter().map(|entry| format!("{table} {entry}")));
    }
    list.extend(call_answers());
    list.extend(
        wrong_ways()
            .into_iter()
            .map(|(call, flaw)| format!("wrong {call:?} {flaw:?}")),
    );
    list.extend(
        double_ways()
            .into_iter()
            .map(|(call, first, second)| format!("both {call:?} {first:?} before {second:?}")),
    );
    list.extend(
        first_flaws()
            .into_iter()
            .map(|(call, flaw, next)| format!("both {call:?} {flaw:?} before {next:?}")),
    );
    for call in Call::SENDINGS {
        for place in ["Alone", "First", "Middle", "Last"] {
            list.push(format!("place {call:?} Invalid {place}"));
            list.push(format!("place {call:?} Denied {place}"));
        }
        for pages in 1..=8 {
            list.push(format!("story {call:?} of {pages} pages"));
        }
        list.push(format!("story {call:?} of a page received by a donation"));
    }
    list.extend(faults());
    list.extend(flags());
    list.extend((2..=8).map(|n| format!("machine guests {n}")));
    list.push("machine pages 2n".to_string());
    list
}

/// A table's name and its entries.
type Table = (&'static str, &'static [&'static str]);

/// What runs can meet and is listed as it is.
const RUN_TABLES: [Table; 5] = [
    (
        "step",
        &[
            "movi",
            "movt",
            "mov",
            "ldr",
            "str",
            "add",
            "sub",
            "addi",
            "cmp equal",
            "cmp unequal",
            "bne taken",
            "bne not taken",
            "br",
            "hvc",
            "halt",
        ],
    ),
    (
        "use",
        &[
            "Fetch Own",
            "Fetch OwnRx",
            "Fetch Shared",
            "Fetch SharedOut",
            "Fetch SharedWith",
            "Fetch Borrowed",
            "Load Own",
            "Load OwnRx",
            "Load Shared",
            "Load SharedOut",
            "Load SharedWith",
            "Load Borrowed",
            "Store Own",
            "Store OwnTx",
            "Store Shared",
            "Store SharedOut",
            "Store SharedWith",
            "Store Borrowed",
        ],
    ),
    (
        "story",
        &[
            "code that the guest stored",
            "code that another guest stored",
            "code from a message",
            "code that was executed and then changed",
            "load of what the guest stored",
            "load of what another guest stored",
            "load from a message",
            "message of 1 word",
            "message of some words",
            "message of 1024 words",
            "message with a handle",
            "handle that was in use before",
            "handle below one in use",
            "1 transaction open",
            "2 to 7 transactions open",
            "8 to 15 transactions open",
            "16 transactions open",
            "Lend retrieved again",
            "Share retrieved again",
            "Donate reclaimed without a retrieval",
            "Lend reclaimed without a retrieval",
            "Lend reclaimed after a retrieval",
            "Share reclaimed without a retrieval",
            "Share reclaimed after a retrieval",
        ],
    ),
    (
        "end",
        &[
            "budget 0",
            "halted budget left",
            "halted budget spent",
            "fault budget left",
            "fault budget spent",
            "normal",
            "normal right after a call",
            "normal in a secondary",
            "normal while a message waits",
            "normal while a transaction is open",
            "normal one step before a halt",
            "normal one step before a fault",
            "budget above 65535",
            "budget above 2147483647",
            "steps above 65535",
        ],
    ),
    ("pace", &["many calls in few steps", "few calls in many steps"]),
];

/// What images can be and is listed as it is.
const IMAGE_TABLES: [Table; 3] = [
    ("bench", &["run", "too long", "broken", "too many pages"]),
    (
        "class",
        &[
            "program",
            "loops",
            "words",
            "instructions",
            "changed",
            "damaged",
            "size",
        ],
    ),
    (
        "size",
        &[
            "good 65532",
            "good 65534",
            "good 65536",
            "good above 65536",
            "broken 65535",
            "broken 65537",
            "broken above 65537",
            "good with 16 pages",
            "good with 17 pages",
            "good with 64 pages",
            "good with 18 to 63 pages",
            "broken with 17 pages",
            "good with the largest record",
            "good with more than 5000 records",
        ],
    ),
];

/// The sizes that an image is an example of, by its bytes and, if it is good, its pages.
pub fn size_labels(image: &[u8], pages: Option<u8>) -> Vec<String> {
    let bytes = image.len();
    let by_bytes = match (bytes, pages) {
        (65_532 | 65_534 | 65_536, Some(_)) => Some(format!("good {bytes}")),
        (65_537.., Some(_)) => Some("good above 65536".to_string()),
        (65_535 | 65_537, None) => Some(format!("broken {bytes}")),
        (65_538.., None) => Some("broken above 65537".to_string()),
        _ => None,
    };
    let by_pages = match pages {
        Some(m @ (16 | 17 | 64)) => Some(format!("good with {m} pages")),
        Some(18..=63) => Some("good with 18 to 63 pages".to_string()),
        // The first record of a broken image may still say how many pages there are.
        None if image.starts_with(&[4, 0, 1, 0]) && image.get(6..8) == Some(&[17, 0]) => {
            Some("broken with 17 pages".to_string())
        }
        _ => None,
    };
    let lengths = payload_lengths(image);
    let largest = lengths
        .contains(&65_532)
        .then(|| "good with the largest record".to_string());
    let many = (lengths.len() > 5000).then(|| "good with more than 5000 records".to_string());
    let by_records = [largest, many].into_iter().flatten().filter(|_| pages.is_some());
    by_bytes
        .into_iter()
        .chain(by_pages)
        .chain(by_records)
        .map(|label| format!("size {label}"))
        .collect()
}

/// The lengths that the records of an image say, one after the other as long as there are any.
fn payload_lengths(image: &[u8]) -> Vec<usize> {
    let mut lengths = Vec::new();
    let mut rest = image;
    while let [low, high, _, _, more @ ..] = rest {
        let length = usize::from(u16::from_le_bytes([*low, *high]));
        lengths.push(length);
        rest = more.get(length..).unwrap_or_default();
    }
    lengths
}

/// Each call with each answer that it can have.
fn call_answers() -> Vec<String> {
    let both = ["by the primary", "by a secondary"];
    let (invalid, denied) = ("INVALID_PARAMETERS", "DENIED");
    let sending = [both[0], both[1], invalid, denied, "NO_MEMORY"];
    let table: [(Call, &[&str]); 12] = [
        (Call::Run, &["done", denied, invalid]),
        (Call::Yield, &both),
        (Call::Poll, &[both[0], both[1], "NO_DATA"]),
        (Call::Wait, &[both[0], both[1], "without a message", "NO_DATA"]),
        (
            Call::Send,
            &[both[0], both[1], "by a secondary to the primary", invalid, "BUSY"],
        ),
        (Call::Donate, &sending),
        (Call::Lend, &sending),
        (Call::Share, &sending),
        (Call::Retrieve, &["Donate", "Lend", "Share", invalid, denied]),
        (Call::Relinquish, &["Lend", "Share", invalid, denied]),
        (Call::Reclaim, &["Donate", "Lend", "Share", invalid, denied]),
        (Call::Unknown, &["NOT_SUPPORTED"]),
    ];
    table
        .iter()
        .flat_map(|(call, answers)| answers.iter().map(move |answer| format!("call {call:?} {answer}")))
        .collect()
}

/// What the equal flag lasts over, set and clear.
fn flags() -> Vec<String> {
    let over = [
        "movi",
        "movt",
        "mov",
        "ldr",
        "str",
        "add",
        "sub",
        "addi",
        "br",
        "bne",
        "call with success",
        "call with error",
        "a switch",
        "another guest's cmp",
    ];
    let both = ["set", "clear"];
    both.iter()
        .flat_map(|flag| over.map(|name| format!("flag {flag} kept over {name}")))
        .collect()
}

/// Each fault with its cause: the word, or for each use the page.
fn faults() -> Vec<String> {
    let words = ["CodeZero", "CodeAbove13", "RegisterD", "RegisterS", "FieldNotZero"];
    let mut list: Vec<String> = words.iter().map(|word| format!("fault word {word}")).collect();
    let pages = [
        "OtherMailbox",
        "Spare",
        "Donated",
        "Lent",
        "LentOut",
        "Other",
        "Offered",
    ];
    for (how, own) in [("Fetch", "OwnTx"), ("Load", "OwnTx"), ("Store", "OwnRx")] {
        list.push(format!("fault {how} Outside"));
        list.push(format!("fault {how} OwnMailbox {own}"));
        list.extend(pages.iter().map(|page| format!("fault {how} NoAccess {page}")));
    }
    list
}
