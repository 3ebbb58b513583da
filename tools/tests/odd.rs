//! Inputs that nobody writes on purpose: `asm` and `explain` take them as they are, or say what is
//! wrong, and never stumble.

use tools::asm::assemble;
use tools::dis::disassemble;
use tools::explain::Explainer;

/// The image of a text that has no problems.
fn image(text: &str) -> Vec<u8> {
    let start: String = text.chars().take(60).collect();
    let assembly = assemble(text).unwrap_or_else(|problems| panic!("{start}: {problems:?}"));
    assembly.image
}

/// The only problem of a text, with its line.
fn problem(text: &str) -> (usize, String) {
    let problems = assemble(text).expect_err("a text with a problem");
    assert_eq!(problems.len(), 1, "{problems:?}");
    (problems[0].line, problems[0].what.clone())
}

#[test]
fn texts_without_a_statement() {
    for text in [
        "",
        "\n",
        "\r\n",
        "\r",
        " ",
        "\t",
        ",",
        ";",
        "; only\n; comments",
        "\u{feff}",
        "\n\n\n",
        ";\0",
        "\u{a0}",
    ] {
        assert_eq!(image(text), [], "{text:?}");
        let warnings = assemble(text).expect("no problem").warnings();
        assert_eq!(warnings.len(), 1, "{text:?}");
        assert_eq!(warnings[0].line, None);
    }
}

#[test]
fn line_ends_and_tabs() {
    let expected = [8, 0, 4, 0, 5, 0, 0, 0, 13, 0, 0, 0, 4, 0, 5, 0, 7, 0, 0, 0];
    for text in [
        "at 5\nx: halt\nbudget 7",
        "at 5\r\nx: halt\r\nbudget 7\r\n",
        "at\t5\r\n\tx:\thalt\t\r\n\r\nbudget\t7\t;\t\r",
        "at 5 ; x\r\nx:\r\nhalt\r\n;\r\nbudget\u{a0}7",
    ] {
        assert_eq!(image(text), expected, "{text:?}");
    }
    let (line, what) = problem("budget 7\rbudget 8\r");
    assert_eq!((line, what.contains("`budget` is one word too many")), (1, true));
}

#[test]
fn nul_bytes() {
    let table = [
        ("\0", "`\\0` is no statement or instruction"),
        ("x\0y\0z", "`x\\0y\\0z` is no statement or instruction"),
        (
            "budget 5\0",
            "`5\\0` is no number: expected decimal (108) or 0x hex (0x6c)",
        ),
        (
            "budget x\0",
            "`x\\0` is no value: a name has letters, digits and _ only",
        ),
        (
            "x\0: budget 1",
            "`x\\0` is no name: a name is a letter, then letters, digits or _",
        ),
        ("bytes 0\0", "`0\\0` is no row of hex byte pairs, like 0a1b"),
    ];
    for (text, expected) in table {
        assert_eq!(problem(text), (1, expected.to_string()));
    }
}

#[test]
fn lines_of_a_hundred_thousand_characters() {
    const LONG: usize = 100_000;
    assert_eq!(image(&format!("budget{}7", " ".repeat(LONG))).len(), 8);
    assert_eq!(image(&format!("budget{}7", ",".repeat(LONG))).len(), 8);
    assert_eq!(image(&format!("budget 7;{}", ";:=".repeat(LONG))).len(), 8);
    assert_eq!(image(&format!("bytes {}", "0a".repeat(LONG / 2))).len(), LONG / 2);
    assert_eq!(image(&format!("budget {}7", "0".repeat(LONG)))[4..], [7, 0, 0, 0]);
    assert_eq!(image(&format!("at 0\nword{}", " 1".repeat(16_382))).len(), 65_536);
    let (_, what) = problem(&format!("at 0\nword{}", " 1".repeat(LONG / 2)));
    assert!(what.starts_with("the record has more than 16382 words here"), "{what}");
    let name = "x".repeat(LONG);
    assert_eq!(image(&format!("{name} = 7\nbudget {name}"))[4..], [7, 0, 0, 0]);
    for odd in ["=", ":", "@", "-", "*", "/", "\u{e9}", "\u{0}", "9", "_", "'"] {
        let problems = assemble(&format!("budget {}", odd.repeat(LONG))).expect_err(odd);
        let bytes: usize = problems.iter().map(|problem| problem.what.len()).sum();
        assert!(bytes < 400, "{odd}: {bytes} bytes of messages");
    }
}

#[test]
fn deep_sums_and_products() {
    let ones = "1+".repeat(50_000) + "1";
    assert_eq!(image(&format!("budget {ones}"))[4..], 50_001u32.to_le_bytes());
    // 1, and then 1 more and 1 less again and again.
    let there_and_back = "1+1-".repeat(25_000) + "1";
    assert_eq!(
        image(&format!("x = {there_and_back}\nbudget x"))[4..],
        1u32.to_le_bytes()
    );
    let product = "1*".repeat(50_000) + "7";
    assert_eq!(image(&format!("budget {product}"))[4..], [7, 0, 0, 0]);
    let (_, what) = problem(&format!("budget {}2", "2*".repeat(50_000)));
    assert_eq!(what, format!("`{}..` is far out of range", "2*".repeat(20)));
    let chain: String = (1..5_000).map(|line| format!("x{line} = x{}+1\n", line - 1)).collect();
    assert_eq!(
        image(&format!("x0 = 1\n{chain}budget x4999"))[4..],
        5_000u32.to_le_bytes()
    );
}

#[test]
fn many_names_that_nobody_defined() {
    let labels: String = (0..1_000).map(|at| format!("label{at}: halt\n")).collect();
    let uses: String = (0..1_000).map(|at| format!("word nothing_like_label{at}\n")).collect();
    let problems = assemble(&format!("at 0\n{labels}{uses}")).expect_err("nothing is like that");
    assert_eq!(problems.len(), 1_000);
}

#[test]
fn bytes_that_are_all_alike() {
    for byte in [0, 1, 4, 0x0a, 0x3b, 0xff] {
        let bytes = vec![byte; 70_001];
        assert_eq!(image(&disassemble(&bytes)), bytes, "{byte}");
    }
}

#[test]
fn lines_of_bench_that_are_odd() {
    let text = assemble("").expect("no problem");
    let long = "1".repeat(100_000);
    for text in [None, Some(&text)] {
        let mut explainer = Explainer::new(text);
        for line in [
            "",
            "\0",
            "\r",
            "end 1 halted\0",
            "end  1 halted",
            " ",
            &long,
            &" ".repeat(100_000),
        ] {
            assert_eq!(explainer.explain(line), None);
        }
        assert_eq!(explainer.explain(&format!("end {long} halted")), None);
    }
}
