//! What `asm` proposes for words that it does not know.

use tools::asm::assemble;

/// The only problem of a text.
fn problem(text: &str) -> String {
    let problems = assemble(text).expect_err(text);
    assert_eq!(problems.len(), 1, "{text}: {problems:?}");
    problems[0].what.clone()
}

/// A text in which guest 1 starts at a name, and what is defined besides: the label `other` and more.
fn start(name: &str, more: &str) -> String {
    format!("guest 1 tx 0 rx 1 start {name}\n{more}\nat 0\nother: halt")
}

#[test]
fn where_a_guest_starts_only_labels_are_proposed() {
    let table = [
        (
            start("adder", "ADDER = 1"),
            "`adder` is not defined; `ADDER`, where only the case differs, is a constant, and a label is meant here",
        ),
        (start("adder", "ADDERS = 1"), "`adder` is not defined"),
        (start("sucess", ""), "`sucess` is not defined"),
        (start("othr", "oth = 1"), "`othr` is not defined; did you mean `other`?"),
        (
            start("Other", "OTHER = 1"),
            "`Other` is not defined; did you mean `other`? Only the case differs",
        ),
    ];
    for (text, expected) in table {
        assert_eq!(problem(&text), expected, "{text}");
    }
}

#[test]
fn elsewhere_and_for_a_page_constants_are_proposed_too() {
    let expected = "`adder` is not defined; did you mean `ADDER`? Only the case differs";
    assert_eq!(problem(&start("@adder", "ADDER = 1")), expected);
    assert_eq!(problem("ADDER = 1\nbudget adder"), expected);
    let expected = "`sucess` is not defined; did you mean `Success`?";
    assert_eq!(problem("budget sucess"), expected);
}

#[test]
fn of_equally_near_statements_one_that_the_word_begins_with() {
    let expected = "`move` is no statement or instruction; did you mean `mov`?";
    assert_eq!(problem("at 0\nmove r1 r2"), expected);
    let expected = "`mvoi` is no statement or instruction; did you mean `movi`?";
    assert_eq!(problem("at 0\nmvoi r1 2"), expected);
    let expected = "`HALT` is no statement or instruction; did you mean `halt`? Only the case differs";
    assert_eq!(problem("at 0\nHALT"), expected);
}
