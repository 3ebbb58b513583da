//! What `dis` writes, word for word.

mod common;

use common::{example, hex};
use reference::Rule;
use tools::dis::disassemble;

#[test]
fn example_of_the_scope_document() {
    let expected = "\
machine guests 2 pages 7
guest 0 tx 2 rx 3 start @0
guest 1 tx 4 rx 5 start @1
page 0 owner 0
page 1 owner 1

at @0
; guest 0 starts here
    movi r0 108              ; @0
    movt r0 0x8400           ; @0+1
    hvc                      ; @0+2, calls Yield
    halt                     ; @0+3

budget 100
";
    assert_eq!(disassemble(&example()), expected);
}

/// The lines of the text of some hex digits, without comments at the end of lines.
fn lines(image: &str) -> Vec<String> {
    let text = disassemble(&hex(image));
    let code = |line: &str| line.split(';').next().unwrap_or_default().trim().to_string();
    text.lines().map(code).filter(|line| !line.is_empty()).collect()
}

/// The text of one word.
fn word(word: u32) -> String {
    let digits: String = word.to_le_bytes().iter().map(|byte| format!("{byte:02x}")).collect();
    lines(&format!("08000400 00000000 {digits}"))[1].clone()
}

#[test]
fn every_instruction() {
    let table = [
        (0x006c_0001, "movi r0 108"),
        (0x8400_0302, "movt r3 0x8400"),
        (0x0000_2103, "mov r1 r2"),
        (0x0000_5404, "ldr r4 r5"),
        (0x0000_7605, "str r6 r7"),
        (0x0000_3106, "add r1 r3"),
        (0x0000_1307, "sub r3 r1"),
        (0xffff_0208, "addi r2 65535"),
        (0x0000_0509, "cmp r5 r0"),
        (0x0000_700a, "bne r7"),
        (0x0000_600b, "br r6"),
        (0x0000_000c, "hvc"),
        (0x0000_000d, "halt"),
        (0x0000_0801, "word 0x00000801"),
        (0x0000_0000, "word 0x00000000"),
        (0x0001_000d, "word 0x0001000d"),
        (0xffff_ffff, "word 0xffffffff"),
    ];
    for (digits, expected) in table {
        assert_eq!(word(digits), expected);
    }
}

#[test]
fn records_without_their_kinds_form() {
    let table = [
        ("00000100", "record 1"),
        ("03000100 020004", "record 1 020004"),
        ("05000100 02000400 00", "record 1 02000400 00"),
        ("09000200 0000020003 00000000", "record 2 00000200 03000000 00"),
        ("02000300 0100", "record 3 0100"),
        ("04000400 00000000", "record 4 00000000"),
        ("07000400 00000000 010203", "record 4 00000000 010203"),
        ("09000400 00000000 01020304 05", "record 4 00000000 01020304 05"),
        ("03000500 010203", "record 5 010203"),
        ("00000000", "record 0"),
        ("01000600 ff", "record 6 ff"),
        ("01000101 ff", "record 257 ff"),
    ];
    for (image, expected) in table {
        assert_eq!(lines(image), [expected], "{image}");
    }
}

#[test]
fn tails() {
    assert_eq!(lines("00"), ["bytes 00"]);
    assert_eq!(lines("040005"), ["bytes 040005"]);
    assert_eq!(lines("04000500 010203"), ["bytes 04000500 010203"]);
    assert_eq!(lines("04000500 01020304 ff"), ["budget 67305985", "bytes ff"]);
    let long = "ff".repeat(33);
    assert_eq!(
        lines(&long),
        [format!("bytes{}", " ffffffff".repeat(8)), "bytes ff".to_string()]
    );
}

#[test]
fn runs_of_four_or_more_words() {
    let three = "14000400 00000000 0d000000 0d000000 0d000000 00000000";
    assert_eq!(lines(three), ["at @0", "halt", "halt", "halt", "word 0x00000000"]);
    let four = "18000400 00000000 0d000000 0d000000 0d000000 0d000000 00000000";
    assert_eq!(lines(four), ["at @0", "fill 4 0x0000000d", "word 0x00000000"]);
}

#[test]
fn a_run_ends_where_a_guest_starts() {
    let image = hex("0a000200 0100 0200 0300 04000000
                     0a000200 0300 0200 0300 04000000
                     28000400 00000000 07000000 07000000 07000000 07000000
                     07000000 07000000 07000000 07000000 07000000");
    let expected = "
at @0
    fill 4 0x00000007        ; @0
; guest 1 starts here
; guest 3 starts here
    fill 5 0x00000007        ; @0+4
";
    assert!(disassemble(&image).ends_with(expected), "{}", disassemble(&image));
}

#[test]
fn addresses_at_the_end_of_lines() {
    let image = hex("10000400 fe070000 0d000000 0c000000 0d000000");
    let expected = "
at @1+1022
    halt                     ; @1+1022
    hvc                      ; @1+1023
    halt                     ; @2
";
    assert!(
        format!("\n{}", disassemble(&image)).contains(expected),
        "{}",
        disassemble(&image)
    );
}

#[test]
fn calls_that_are_plain_to_see() {
    let hint = |words: &str| disassemble(&hex(&format!("10000400 00000000 {words}"))).contains(", calls Share");
    assert!(hint("01007300 02000084 0c000000"));
    assert!(!hint("01017300 02000084 0c000000"), "another register");
    assert!(!hint("01007500 02000084 0c000000"), "no call");
    assert!(!hint("01007300 02000084 0d000000"), "no hvc");
}

#[test]
fn addresses() {
    let start = |digits: &str| lines(&format!("0a000200 0000 0000 0000 {digits}"))[0].clone();
    assert_eq!(start("00000000"), "guest 0 tx 0 rx 0 start @0");
    assert_eq!(start("ff030000"), "guest 0 tx 0 rx 0 start @0+1023");
    assert_eq!(start("01240000"), "guest 0 tx 0 rx 0 start @9+1");
    assert_eq!(start("ffffff03"), "guest 0 tx 0 rx 0 start @65535+1023");
    assert_eq!(start("00000004"), "guest 0 tx 0 rx 0 start 0x4000000");
    assert_eq!(start("ffffffff"), "guest 0 tx 0 rx 0 start 0xffffffff");
}

#[test]
fn a_comment_above_the_bad_record() {
    let image = hex("04000100 02000700 04000300 01000100 04000300 01000000 04000500 64000000");
    let expected = format!(
        "machine guests 2 pages 7\npage 1 owner 1\n; a loader refuses this, at byte 16: {}\npage 1 owner 0\nbudget 100\n",
        Rule::OwnerTwice
    );
    assert_eq!(disassemble(&image), expected);
}

#[test]
fn a_comment_above_a_tail() {
    let expected = format!(
        "; a loader refuses this, at byte 0: {}\nbytes 0400\n",
        Rule::HeaderCutShort
    );
    assert_eq!(disassemble(&[4, 0]), expected);
    let mut image = example();
    image.push(0);
    let expected = format!(
        "\nbudget 100\n; a loader refuses this, at byte {}: {}\nbytes 00\n",
        image.len() - 1,
        Rule::AfterBudget
    );
    assert!(disassemble(&image).ends_with(&expected));
}

#[test]
fn a_comment_at_the_end_for_a_missing_budget() {
    let expected = format!("; a loader refuses the end, at byte 0: {}\n", Rule::BudgetMissing);
    assert_eq!(disassemble(&[]), expected);
    let image = hex("04000100 02000700");
    let expected = format!(
        "machine guests 2 pages 7\n; a loader refuses the end, at byte 8: {}\n",
        Rule::BudgetMissing
    );
    assert_eq!(disassemble(&image), expected);
}
