//! What `asm` says of wrong texts: text, line, and a part of the message.

use tools::asm::assemble;

/// Tests that each text has exactly one problem, in that line, with that part.
fn check(table: &[(&str, usize, &str)]) {
    for (text, line, part) in table {
        let problems = assemble(text).expect_err(text);
        assert_eq!(problems.len(), 1, "{text}: {problems:?}");
        assert_eq!(problems[0].line, *line, "{text}: {problems:?}");
        assert!(problems[0].what.contains(part), "{text}: {problems:?}");
    }
}

#[test]
fn unknown_statements() {
    check(&[
        (
            "mashine guests 2 pages 4",
            1,
            "`mashine` is no statement or instruction; did you mean `machine`?",
        ),
        (
            "at 0\nmvoi r0 1",
            2,
            "`mvoi` is no statement or instruction; did you mean `movi`?",
        ),
        (
            "at 0\nHALT",
            2,
            "`HALT` is no statement or instruction; did you mean `halt`?",
        ),
        ("\n\nelephant", 3, "`elephant` is no statement or instruction"),
        ("at 0\nbr: halt", 2, "`br` is a statement and cannot be defined"),
        ("é", 1, "`é` is no statement or instruction"),
        ("a\u{7}b", 1, "`a\\u{7}b` is no statement"),
    ]);
}

#[test]
fn an_unknown_word_far_from_all_gets_no_advice() {
    let problems = assemble("elephant").unwrap_err();
    assert_eq!(problems[0].what, "`elephant` is no statement or instruction");
}

/// Operands that are missing, wrong or too many, statement by statement.
const OPERANDS: &[(&str, usize, &str)] = &[
    (
        "machine",
        1,
        "expected `guests`, but the line ends; write: machine guests N pages M",
    ),
    (
        "machine 2 4",
        1,
        "expected `guests`, found `2`; write: machine guests N pages M",
    ),
    ("machine guests", 1, "expected the number of guests, but the line ends"),
    ("machine guests 2 page 4", 1, "expected `pages`, found `page`"),
    (
        "machine guests 2 pages 4 5",
        1,
        "`5` is one word too many; write: machine guests N pages M",
    ),
    (
        "guest",
        1,
        "expected a guest number, but the line ends; write: guest G tx P rx P start A",
    ),
    ("guest 0 rx 1 tx 2 start 0", 1, "expected `tx`, found `rx`"),
    ("guest 0 tx 1 rx 2", 1, "expected `start`, but the line ends"),
    ("guest 0 tx 1 rx 2 start", 1, "expected an address, but the line ends"),
    (
        "page",
        1,
        "expected a page number, but the line ends; write: page P owner G",
    ),
    ("page 1 owned 2", 1, "expected `owner`, found `owned`"),
    ("at", 1, "expected an address, but the line ends; write: at A"),
    ("at 0 halt", 1, "`halt` is one word too many; write: at A"),
    (
        "budget",
        1,
        "expected a number of steps, but the line ends; write: budget STEPS",
    ),
    (
        "record",
        1,
        "expected a kind, but the line ends; write: record KIND BYTES..",
    ),
    ("record 1 0", 1, "`0` is no row of hex byte pairs"),
    ("record 1 00 0g", 1, "`0g` is no row of hex byte pairs"),
    (
        "bytes",
        1,
        "expected bytes as hex pairs, but the line ends; write: bytes BYTES..",
    ),
    ("bytes 0x01", 1, "`0x01` is no row of hex byte pairs"),
    ("bytes 123", 1, "`123` is no row of hex byte pairs"),
    (
        "at 0\nmovi",
        2,
        "expected a register, r0 to r7, but the line ends; write: movi rD K",
    ),
    (
        "at 0\nmovi 1 r0",
        2,
        "expected a register, r0 to r7, found `1`; write: movi rD K",
    ),
    ("at 0\nmovi r8 1", 2, "expected a register, r0 to r7, found `r8`"),
    ("at 0\nmovi r0", 2, "expected K, a value, but the line ends"),
    (
        "at 0\nmov r0 5",
        2,
        "expected a register, r0 to r7, found `5`; write: mov rD rS",
    ),
    (
        "at 0\nbr here",
        2,
        "found `here`; put the address into one first: set r7 here, then br r7",
    ),
    ("at 0\nbne here", 2, "set r7 here, then bne r7"),
    ("at 0\nhalt 1", 2, "`1` is one word too many; write: halt"),
    (
        "at 0\nset 5 r0",
        2,
        "expected a register, r0 to r7, found `5`; write: set rD VALUE",
    ),
    ("at 0\nset r0", 2, "expected a value, but the line ends"),
    (
        "at 0\ncall",
        2,
        "expected the name of a call, but the line ends; write: call NAME",
    ),
    ("at 0\ncall Shaer", 2, "`Shaer` is no call; did you mean `Share`?"),
    (
        "at 0\ncall elephant",
        2,
        "`elephant` is no call; the calls are Run Yield Poll Wait Send Donate",
    ),
    ("at 0\ncall Run 1", 2, "`1` is one word too many; write: call NAME"),
    (
        "at 0\nword",
        2,
        "expected a value, but the line ends; write: word VALUE..",
    ),
    (
        "at 0\nfill",
        2,
        "expected a count, but the line ends; write: fill COUNT VALUE",
    ),
    ("at 0\nfill 3", 2, "expected a value, but the line ends"),
    (
        "at 0\ndescriptor",
        2,
        "expected share, lend or donate, but the line ends",
    ),
    (
        "at 0\ndescriptor give 1 2",
        2,
        "expected share, lend or donate, found `give`; write: descriptor KIND",
    ),
    (
        "at 0\ndescriptor lend",
        2,
        "expected the receiver's guest number, but the line ends",
    ),
    (
        "at 0\ndescriptor lend 1",
        2,
        "expected a page number, but the line ends",
    ),
    ("x =", 1, "expected the value, but the line ends; write: NAME = VALUE"),
    ("x = 1 2", 1, "`2` is one word too many; write: NAME = VALUE"),
];

#[test]
fn operands() {
    check(OPERANDS);
}

/// Values that are none, or out of range.
const VALUES: &[(&str, usize, &str)] = &[
    ("budget ?", 1, "`?` is no value: expected a number, a name or @PAGE"),
    (
        "budget 1+",
        1,
        "`1+` lacks a number or name: write sums like @9+4, without blanks",
    ),
    ("budget -", 1, "`-` lacks a number or name"),
    ("budget +1", 1, "`+1` lacks a number or name"),
    ("budget 1--1", 1, "`1--1` lacks a number or name"),
    ("budget @", 1, "`@` lacks a number or name"),
    ("budget @-1", 1, "`@-1` lacks a number or name"),
    ("budget @@1", 1, "`@@1` is no value"),
    (
        "budget 1 +2",
        1,
        "`+2` stands alone: write sums without blanks, like @9+4",
    ),
    ("x = 1 - 2", 1, "`-` stands alone: write sums without blanks"),
    ("x = 1 * 2", 1, "`*` stands alone: write sums without blanks"),
    (
        "at 0\nword 2 * 3",
        2,
        "`*` lacks a number or name: write sums like @9+4",
    ),
    ("budget 2*", 1, "`2*` lacks a number or name"),
    ("budget *2", 1, "`*2` lacks a number or name"),
    ("budget 2**3", 1, "`2**3` lacks a number or name"),
    ("budget 2*-3", 1, "`2*-3` lacks a number or name"),
    ("budget @*2", 1, "`@*2` lacks a number or name"),
    ("budget 6/2", 1, "`6/2` is no value: a value has + - and * only"),
    (
        "x = 1\nbudget x<<16",
        2,
        "`x<<16` is no value: a value has + - and * only",
    ),
    ("budget (1+2)*3", 1, "`(1+2)*3` is no value: a value has + - and * only"),
    ("budget r1", 1, "`r1` is a register: expected a value here"),
    (
        "budget a.b",
        1,
        "`a.b` is no value: a name has letters, digits and _ only",
    ),
    (
        "budget 12ab",
        1,
        "`12ab` is no number: expected decimal (108) or 0x hex (0x6c)",
    ),
    ("budget 0x", 1, "`0x` is no number"),
    ("budget 0xg", 1, "`0xg` is no number"),
    ("budget 0X1", 1, "`0X1` is no number"),
    ("budget 1__2", 1, "`1__2` is no number"),
    ("budget 1_", 1, "`1_` is no number"),
    ("budget 0x_1", 1, "`0x_1` is no number"),
    ("budget 4294967296", 1, "`4294967296` is out of range, 0 to 4294967295"),
    (
        "budget 0x1_0000_0000",
        1,
        "`0x1_0000_0000` is out of range, 0 to 4294967295",
    ),
    (
        "budget 99999999999999999999999999",
        1,
        "is out of range, 0 to 4294967295",
    ),
    (
        "budget @65536",
        1,
        "page number in `@65536`: 65536 is out of range, 0 to 65535",
    ),
    (
        "p = -1\nbudget @p",
        2,
        "page number in `@p`: -1 is out of range, 0 to 65535",
    ),
    ("page 65536 owner 0", 1, "page: 65536 is out of range, 0 to 65535"),
    (
        "at 0\nmovi r0 -1",
        2,
        "movi K: -1 is out of range, 0 to 65535 (for a whole word: set)",
    ),
    (
        "at 0\naddi r0 -1",
        2,
        "addi K: -1 is out of range, 0 to 65535 (to count down: set another register",
    ),
    (
        "at 0\nmovi r0 0x1_0000",
        2,
        "movi K: `0x1_0000` = 65536 is out of range, 0 to 65535",
    ),
    ("at 0\nfill 0 0", 2, "count: 0 is out of range, 1 to 16382"),
    ("x = 4294967295+1", 1, "x: `4294967295+1` = 4294967296 is out of range"),
    (
        "at 0\naddi r0 65536",
        2,
        "addi K: 65536 is out of range, 0 to 65535 (for more: set another register and use add)",
    ),
    (
        "p = 65536\nat 0\nmovi r0 @p-@p",
        3,
        "page number in `@p-@p`: 65536 is out of range, 0 to 65535",
    ),
    (
        "CREW = 65536\nat 0\nword CREW*65536+3",
        3,
        "word: `CREW*65536+3` = 4294967299 is out of range, -4294967295 to 4294967295",
    ),
    (
        "SUMS = 9\nat 0\ndescriptor share 1 8 @SUMS",
        3,
        "page: `@SUMS` = 9216 is out of range, 0 to 63: a page number is meant here, not an address",
    ),
    (
        "at 0\ndescriptor lend @1 9",
        2,
        "receiver: `@1` = 1024 is out of range, 0 to 7",
    ),
    ("x = -65536*65536", 1, "x: `-65536*65536` = -4294967296 is out of range"),
    (
        "budget 2147483648*4294967296",
        1,
        "`4294967296` is out of range, 0 to 4294967295",
    ),
    (
        "budget 4294967295*2147483648",
        1,
        "budget: `4294967295*2147483648` = 9223372034707292160 is out of range",
    ),
    (
        "budget 4294967295*2147483650",
        1,
        "`4294967295*2147483650` is far out of range",
    ),
    (
        "budget 4294967295*4294967295*0",
        1,
        "`4294967295*4294967295*0` is far out of range",
    ),
    (
        "budget 4294967295*2147483648+4294967295*2147483648",
        1,
        "is far out of range",
    ),
];

#[test]
fn values() {
    check(VALUES);
}

/// Names that cannot be defined, and names that cannot be used.
const NAMES: &[(&str, usize, &str)] = &[
    ("r3 = 5", 1, "`r3` is a register and cannot be defined"),
    ("at 0\nR7: halt", 2, "`R7` is a register and cannot be defined"),
    ("page = 5", 1, "`page` is a statement and cannot be defined"),
    ("movi = 5", 1, "`movi` is a statement and cannot be defined"),
    ("Share = 5", 1, "`Share` is built in and cannot be defined"),
    ("at 0\nDENIED: halt", 2, "`DENIED` is built in and cannot be defined"),
    ("Success = 5", 1, "`Success` is built in and cannot be defined"),
    (
        "_x = 5",
        1,
        "`_x` is no name: a name is a letter, then letters, digits or _",
    ),
    ("1x = 5", 1, "`1x` is no name"),
    ("x.y = 5", 1, "`x.y` is no name"),
    ("ä = 5", 1, "`ä` is no name"),
    ("= 5", 1, "`` is no name"),
    ("a b = 5", 1, "`a b` is no name"),
    ("at 0\n: halt", 2, "`` is no name"),
    ("at 0\nmovi r0: 5", 2, "`movi r0` is no name"),
    ("x = 1\n\nx = 2", 3, "`x` is already defined in line 1"),
    ("at 0\nx: halt\nx: halt", 3, "`x` is already defined in line 2"),
    ("at 0\nx: x: halt", 2, "`x` is already defined in line 2"),
    (
        "x = 1\nat 0\nx: halt",
        3,
        "`x` is already defined in line 1, as a constant",
    ),
    (
        "at 0\nx: halt\nx = 1",
        3,
        "`x` is already defined in line 2, as a label",
    ),
    (
        "\ncrew = 1\nguest crew tx 0 rx 1 start crew\nat 0\ncrew: halt",
        5,
        "`crew` is already defined in line 2, as a constant",
    ),
    (
        "at 0\nloop: word lopo",
        2,
        "`lopo` is not defined; did you mean `loop`?",
    ),
    ("budget success", 1, "`success` is not defined; did you mean `Success`?"),
    ("budget DENYED", 1, "`DENYED` is not defined; did you mean `DENIED`?"),
    ("budget elephant", 1, "`elephant` is not defined"),
    (
        "x = x",
        1,
        "`x` is defined in line 1, but must be defined above to be used here",
    ),
    ("x = y\ny = 1", 1, "`y` is defined in line 2, but must be defined above"),
    ("at y\ny = 1", 1, "`y` is defined in line 2, but must be defined above"),
    (
        "at 0\nfill y 0\ny: halt",
        2,
        "`y` is defined in line 3, but must be defined above",
    ),
    (
        "at 0\nx: word @x",
        2,
        "`@x`: @ takes a page number, and `x` is a label; drop the @",
    ),
];

#[test]
fn names() {
    check(NAMES);
}

#[test]
fn words_and_records() {
    check(&[
        ("halt", 1, "this word stands in no record: write `at A` above"),
        ("halt\nhalt\nx: halt\nword x", 1, "this word stands in no record"),
        ("x: halt", 1, "label `x` stands in no record"),
        ("at 0\nhalt\npage 0 owner 0\nhalt", 4, "this word stands in no record"),
        ("at 0\nrecord 7\nhalt", 3, "this word stands in no record"),
        ("at 0\nbytes 07\nhalt", 3, "this word stands in no record"),
        (
            "at 0\nfill 16382 0\nhalt\nhalt",
            3,
            "the record has more than 16382 words here: write another `at` above",
        ),
        (
            "at 0\nfill 16380 0\ncall Run",
            3,
            "the record has more than 16382 words here",
        ),
    ]);
    let text = format!("record 7 {}", "00".repeat(65_536));
    check(&[(&text, 1, "a record holds at most 65535 bytes, here are 65536")]);
}

/// What follows a label that has no word below it, in which line the label is, and the first way out.
const LOOSE: &[(&str, usize, &str)] = &[
    (
        "x:\nat 5\nword x",
        3,
        "if it is to be a word of the `at` in line 4, write it below that",
    ),
    (
        "x: at 5\nword x",
        3,
        "if it is to be a word of the `at` in line 3, write it below that",
    ),
    (
        "x:\n; here\ny = x\n\nat 5\nword y",
        3,
        "if it is to be a word of the `at` in line 7, write it below that",
    ),
    ("x:\npage 0 owner 0", 3, "write it above a word"),
    ("x: budget x", 3, "write it above a word"),
    ("x:\nrecord 7", 3, "write it above a word"),
    ("\nx: bytes 00", 4, "write it above a word"),
    ("x:", 3, "write it above a word"),
];

#[test]
fn labels_without_a_word_below() {
    for (statements, line, way) in LOOSE {
        let part = format!(
            "label `x` has no word below it in its record: {way}; if it is to be the end of the words above, \
             label their last line and write `x = LABEL+N`, N being the words of that line"
        );
        check(&[(&format!("at 0\nhalt\n{statements}"), *line, &part)]);
    }
    check(&[("at 0\nx:\nat 5\nhalt", 2, "label `x` has no word below it")]);
    let problems = assemble("at 0\nx: y:\nz:\nat 5\nword x y z").expect_err("three labels without a word");
    let lines: Vec<usize> = problems.iter().map(|problem| problem.line).collect();
    assert_eq!(lines, [2, 2, 3]);
}

#[test]
fn both_ways_out_for_a_label_without_a_word_below() {
    let end = "at 5\ntable: word 1 2\nlast: word 3 4\nend = last+2\nat 100\nfill end-table 7\nword end";
    let image = assemble(end).expect("the end of a table as a constant").image;
    // 4 words, and then 4 times 7 and the address 9.
    let expected: Vec<u8> = [7, 7, 7, 7, 9].into_iter().flat_map(u32::to_le_bytes).collect();
    assert_eq!(image[8 + 16 + 8..], expected);
    let image = assemble("at 5\nhalt\nat 100\nx: word x").expect("a label below").image;
    assert_eq!(image[12 + 8..], 100u32.to_le_bytes());
}

#[test]
fn comments_of_other_languages() {
    check(&[
        ("// all", 1, "`//` starts no comment here, but `;` does"),
        ("#all: of it", 1, "`#all:` starts no comment here, but `;` does"),
        ("x = 5 // five\nbudget x", 1, "`//` starts no comment here"),
        ("at 0\nx: halt # stop\nword x", 2, "`#` starts no comment here"),
        ("at 0\nword 1 //2", 2, "`//2` starts no comment here"),
        ("at 0\nmovi r0 #5", 2, "`#5` is no value: expected a number"),
    ]);
    assert!(assemble("budget 5 ; # and // may stand here").is_ok());
}

#[test]
fn all_problems_are_told_in_the_order_of_the_lines() {
    let text = "page 70000 owner 70000\nat 0\nmovi r0 nowhere\nnonsense\nx = 1\nx = 2\nword 1+ ; here\nbudget @99999";
    let problems = assemble(text).unwrap_err();
    let lines: Vec<usize> = problems.iter().map(|problem| problem.line).collect();
    assert_eq!(lines, [1, 1, 3, 4, 6, 7, 8]);
}

#[test]
fn a_problem_is_not_told_again_where_its_name_is_used() {
    check(&[
        ("x = 1+\nat x\ny: word x y @x", 1, "`1+` lacks a number or name"),
        ("x = nothing\ny = x\nat y\nz: word x y z", 1, "`nothing` is not defined"),
        ("at nothing\nz: word z", 1, "`nothing` is not defined"),
        ("at 0\nnonsense\nz: word z", 2, "`nonsense` is no statement"),
        (
            "att 0\nz: word z\nhalt",
            1,
            "`att` is no statement or instruction; did you mean `at`?",
        ),
    ]);
}

#[test]
fn long_words_are_shortened_in_messages() {
    let (long, short) = ("x".repeat(100_000), format!("{}..", "x".repeat(40)));
    let table = [
        (long.clone(), format!("`{short}` is no statement or instruction")),
        (
            format!("at 0\nbr {long}"),
            format!(
                "expected a register, r0 to r7, found `{short}`; put the address into one first: \
                 set r7 {short}, then br r7; write: br rS"
            ),
        ),
        (
            format!("{long} = 1\n{long} = 2"),
            format!("`{short}` is already defined in line 1, as a constant"),
        ),
        (
            format!("{long} = 5-4294967295-6"),
            format!("{short}: `5-4294967295-6` = -4294967296 is out of range, -4294967295 to 4294967295"),
        ),
        (format!("budget {long}"), format!("`{short}` is not defined")),
        (
            format!("budget {long}\n{long} = @{long}"),
            format!("`{short}` is defined in line 2, but must be defined above to be used here"),
        ),
        (
            format!("{long}: halt"),
            format!("label `{short}` stands in no record: write `at A` above, A being the first word's address"),
        ),
    ];
    for (text, expected) in table {
        let problems = assemble(&text).expect_err("a problem");
        assert_eq!(problems.len(), 1, "{problems:?}");
        assert_eq!(problems[0].what, expected);
    }
}

#[test]
fn words_are_shown_as_they_are_written() {
    check(&[
        ("it's", 1, "`it's` is no statement"),
        ("\"a\\b\"", 1, "`\"a\\b\"` is no statement"),
    ]);
}
