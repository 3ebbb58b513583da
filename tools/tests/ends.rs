//! What `explain` says of the last line of a run: who stood where, and why it ended there.

use tools::asm::assemble;
use tools::explain::explain;

/// Tests the sentence behind the mode, for what guest 0 (boss) and guest 1 (crew) run, and the last
/// line of bench. Boss's code begins in line 7.
fn check(table: &[(&str, &str, &str, &str)]) {
    for (boss, crew, line, expected) in table {
        let text = format!(
            "machine guests 2 pages 9\nguest 0 tx 2 rx 3 start boss\nguest 1 tx 4 rx 5 start crew\n\
             page 0 owner 0\npage 6 owner 0\nat @0\nboss: {boss}\n{crew}\nat @2\ndescriptor share 1 6\n\
             page 8 owner 1\nat @4\ndescriptor share 0 8\nbudget 50\ncrew = @1"
        );
        let assembly = assemble(&text).unwrap_or_else(|problems| panic!("{text}\n{problems:?}"));
        let benched = reference::bench_text(&assembly.image);
        assert_eq!(benched.lines().last(), Some(*line), "{text}\n{benched}");
        let sentence = explain(line, Some(&assembly)).expect("a line of bench");
        let mode = line.split(' ').next_back().expect("a mode");
        let behind = sentence.split_once(mode).expect("the mode").1;
        assert_eq!(behind, *expected, "{text}");
    }
}

#[test]
fn every_mode_tells_who_and_where() {
    check(&[
        (
            "mov r1 r1\nhalt",
            "",
            "end 2 halted",
            ": guest 0 (boss) at @0+1, line 8 of the text",
        ),
        (
            "movi r1 1\ncall Run",
            "page 1 owner 1\nat @1\nmov r1 r1\nhalt",
            "end 6 halted",
            ": guest 1 (crew) at @1+1, line 12 of the text",
        ),
        (
            "word 0",
            "",
            "end 1 fault",
            ": guest 0 (boss) at @0, line 7 of the text: the word there, 0x00000000, is no instruction",
        ),
        (
            "set r7 boss\nbr r7",
            "",
            "end 50 normal",
            ": guest 0 (boss) at @0+2, line 8 of the text: it would go on here, but the budget is used up",
        ),
        (
            "fill 99 0x00000003\nat @0+50\nmov r1 r1",
            "",
            "end 50 normal",
            ": guest 0 (boss) at @0+50, line 9 of the text: it would go on here, but the budget is used up",
        ),
    ]);
}

#[test]
fn words_outside_memory_and_in_the_own_mailbox() {
    check(&[
        (
            "set r7 @2\nbr r7",
            "",
            "end 4 fault",
            ": guest 0 (boss) at @2, line 11 of the text: it cannot run the word there: page 2 is its own TX page",
        ),
        (
            "set r7 @9+5\nbr r7",
            "",
            "end 4 fault",
            ": guest 0 (boss) at @9+5: it cannot run the word there: that is outside memory",
        ),
        (
            "set r3 @2+9\nldr r0 r3",
            "",
            "end 3 fault",
            ": guest 0 (boss) at @0+2, line 8 of the text: it cannot load from @2+9: page 2 is its own TX page",
        ),
        (
            "set r3 @3\nstr r0 r3",
            "",
            "end 3 fault",
            ": guest 0 (boss) at @0+2, line 8 of the text: it cannot store to @3: page 3 is its own RX page",
        ),
        (
            "set r3 -1\nldr r0 r3",
            "",
            "end 3 fault",
            ": guest 0 (boss) at @0+2, line 8 of the text: it cannot load from 0xffffffff: that is outside memory",
        ),
    ]);
}

/// What is told of a page that boss, whose code is two lines long, loads from or stores to.
const BOSS: &str = ": guest 0 (boss) at @0+2, line 8 of the text: it cannot";

#[test]
fn pages_that_are_not_the_guests() {
    let no_owner = format!("{BOSS} store to @1: it has no access to page 1, which has no owner");
    let others = format!("{BOSS} load from @8+3: it has no access to page 8, which is guest 1 (crew)'s");
    let tx = format!("{BOSS} load from @4: it has no access to page 4, which is a mailbox page of guest 1 (crew)");
    let rx = format!("{BOSS} store to @5: it has no access to page 5, which is a mailbox page of guest 1 (crew)");
    check(&[
        ("set r3 @1\nstr r0 r3", "", "end 3 fault", &no_owner),
        ("set r3 @8+3\nldr r0 r3", "", "end 3 fault", &others),
        ("set r3 @4\nldr r0 r3", "", "end 3 fault", &tx),
        ("set r3 @5\nstr r0 r3", "", "end 3 fault", &rx),
        (
            "movi r1 1\ncall Run",
            "",
            "end 5 fault",
            ": guest 1 (crew) at @1: it cannot run the word there: it has no access to page 1, which has no owner",
        ),
    ]);
}

/// Boss makes the first word of its descriptor's kind `kind` and sends page 6 by that call.
fn sending(kind: u32, call: &str) -> String {
    format!("set r3 @2+1\nset r4 65536+{kind}\nstr r4 r3\nmovi r1 3\ncall {call}")
}

#[test]
fn pages_that_the_guest_has_sent() {
    for (kind, call, sent) in [(1, "Donate", "donated"), (2, "Lend", "lent")] {
        let boss = sending(kind, call) + "\nset r3 @6\nldr r0 r3";
        let expected = format!(
            ": guest 0 (boss) at @0+11, line 13 of the text: it cannot load from @6: \
             it has no access to page 6, which it has {sent} to guest 1 (crew)"
        );
        check(&[(&boss, "", "end 12 fault", &expected)]);
    }
}

#[test]
fn pages_that_others_have_sent_to_the_guest() {
    for (kind, call, sent) in [
        (1, "Donate", "donated to"),
        (2, "Lend", "lent to"),
        (3, "Share", "shared with"),
    ] {
        let boss = sending(kind, call) + "\nmovi r1 1\ncall Run";
        let crew = "page 1 owner 1\nat @1\nset r3 @6+1\nldr r0 r3";
        let expected = format!(
            ": guest 1 (crew) at @1+2, line 17 of the text: it cannot load from @6+1: \
             it has no access to page 6, which is guest 0 (boss)'s, {sent} it but not retrieved now"
        );
        check(&[(&boss, crew, "end 16 fault", &expected)]);
    }
}

#[test]
fn an_end_that_the_text_does_not_give_is_told_by_the_line_alone() {
    let text = "machine guests 2 pages 6\nguest 0 tx 2 rx 3 start 0\nguest 1 tx 4 rx 5 start 0\n\
                page 0 owner 0\nat 0\nword 0\nbudget 7";
    let assembly = assemble(text).expect("a text without problems");
    let table = [
        ("end 1 halted", "end: 1 step, halted"),
        ("end 6 normal", "end: 6 steps, normal: the budget is used up"),
        (
            "end 2 fault",
            "end: 2 steps, fault: a guest reached for a word that it may not reach, or ran one that is no instruction",
        ),
    ];
    for (line, expected) in table {
        assert_eq!(explain(line, Some(&assembly)).as_deref(), Some(expected));
    }
}
