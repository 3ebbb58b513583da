//! Every statement, value and range of `asm`. The bytes are written by hand.

mod common;

use common::{example, hex};
use tools::asm::{assemble, Assembly};
use tools::numbers::GuestNumber;

/// The assembly of a text that has no problems.
fn good(text: &str) -> Assembly {
    assemble(text).unwrap_or_else(|problems| panic!("{text}\n{problems:?}"))
}

/// The words that a row of statements makes at address 0.
fn words(statements: &str) -> Vec<u32> {
    let image = good(&format!("at 0\n{statements}")).image;
    let length = usize::from(u16::from_le_bytes([image[0], image[1]]));
    assert_eq!(length + 4, image.len(), "one record and nothing else");
    image[8..]
        .chunks(4)
        .map(|word| u32::from_le_bytes(word.try_into().unwrap()))
        .collect()
}

#[test]
fn example_of_the_scope_document() {
    let text = "
        machine guests 2 pages 7
        guest 0 tx 2 rx 3 start boss
        guest 1 tx 4 rx 5 start crew
        page 0 owner 0
        page 1 owner 1
        at @0
        boss: call Yield
        halt
        budget 100
        crew = @1";
    let problems = assemble(text).expect("a constant may be defined below, if only records use it");
    assert_eq!(problems.image, example());
    let plain = "machine guests 2 pages 7\nguest 0,tx 2,rx 3,start 0\nguest 1 tx 4 rx 5 start 1024\n\
                 page 0 owner 0\npage 1 owner 1\nat 0\nmovi r0 108\nmovt r0 0x8400\nhvc\nhalt\nbudget 100";
    assert_eq!(good(plain).image, example());
}

#[test]
fn every_record_statement() {
    let table = [
        ("machine guests 3 pages 10", "04000100 0300 0a00"),
        ("guest 1 tx 4 rx 5 start 1024", "0a000200 0100 0400 0500 00040000"),
        ("page 9 owner 2", "04000300 0900 0200"),
        ("at 0x12345678", "04000400 78563412"),
        ("at @2+1\nhalt", "08000400 01080000 0d000000"),
        ("budget 0x01020304", "04000500 04030201"),
        ("record 7", "0000 0700"),
        ("record 7 01 0203 04", "0400 0700 01020304"),
        ("record 0x0201 fF", "0100 0102 ff"),
        ("bytes 01 0203", "010203"),
        ("", ""),
        ("; only a comment", ""),
        ("halted = 3", ""),
    ];
    for (text, expected) in table {
        assert_eq!(good(text).image, hex(expected), "{text}");
    }
}

#[test]
fn records_in_the_order_of_the_text() {
    let text = "budget 1\nat 5\nword 6\nat 7\nword 8\nbytes ff\nmachine guests 2 pages 4";
    let expected = "04000500 01000000 08000400 05000000 06000000 08000400 07000000 08000000 ff 04000100 02000400";
    assert_eq!(good(text).image, hex(expected));
}

#[test]
fn every_instruction() {
    let table = [
        ("movi r0 108", 0x006c_0001),
        ("movi r7 0xffff", 0xffff_0701),
        ("movt r3 0x8400", 0x8400_0302),
        ("mov r1 r2", 0x0000_2103),
        ("ldr r4 r5", 0x0000_5404),
        ("str r6 r7", 0x0000_7605),
        ("add r1 r3", 0x0000_3106),
        ("sub r3 r1", 0x0000_1307),
        ("addi r2 1", 0x0001_0208),
        ("cmp r5 r0", 0x0000_0509),
        ("bne r7", 0x0000_700a),
        ("br r6", 0x0000_600b),
        ("hvc", 0x0000_000c),
        ("halt", 0x0000_000d),
    ];
    for (text, expected) in table {
        assert_eq!(words(text), [expected], "{text}");
    }
    assert_eq!(
        words("MOV: mov R1,R2"),
        [0x0000_2103],
        "names differ from instructions by case"
    );
}

#[test]
fn every_statement_of_words() {
    assert_eq!(words("set r3 0x12345678"), [0x5678_0301, 0x1234_0302]);
    assert_eq!(words("set r3 5"), [0x0005_0301, 0x0000_0302], "always two words");
    assert_eq!(words("word 1 2, 0xffffffff"), [1, 2, 0xffff_ffff]);
    assert_eq!(words("fill 3 7"), [7, 7, 7]);
    assert_eq!(words("fill 1 -1"), [0xffff_ffff]);
    assert_eq!(words("descriptor share 2 9"), [3, 0x0002_0003, 9216]);
    assert_eq!(words("descriptor lend 2 9"), [3, 0x0002_0002, 9216]);
    assert_eq!(words("descriptor Donate 0 1 3"), [4, 0x0000_0001, 1024, 3072]);
    assert_eq!(
        words("descriptor share 1 9 9 9 9 9 9 9 9 9")[0],
        11,
        "one page more than a sending takes"
    );
}

#[test]
fn every_call() {
    let table = [
        ("Run", 0x6d),
        ("Yield", 0x6c),
        ("Poll", 0x6a),
        ("Wait", 0x6b),
        ("Send", 0x6e),
        ("Donate", 0x71),
        ("Lend", 0x72),
        ("Share", 0x73),
        ("Retrieve", 0x74),
        ("Relinquish", 0x76),
        ("Reclaim", 0x77),
    ];
    for (name, low) in table {
        let expected = [low << 16 | 0x0001, 0x8400_0002, 0x0000_000c];
        assert_eq!(words(&format!("call {name}")), expected, "{name}");
        assert_eq!(
            words(&format!("call {}", name.to_lowercase())),
            expected,
            "{name} in lower case"
        );
        assert_eq!(
            words(&format!("word {name}")),
            [0x8400_0000 | low],
            "{name} as a constant"
        );
    }
}

#[test]
fn built_in_replies_and_errors() {
    let table = [
        ("Success", 0x8400_0061),
        ("Error", 0x8400_0060),
        ("NOT_SUPPORTED", 0xffff_ffff),
        ("INVALID_PARAMETERS", 0xffff_fffe),
        ("NO_MEMORY", 0xffff_fffd),
        ("BUSY", 0xffff_fffc),
        ("DENIED", 0xffff_fffa),
        ("ABORTED", 0xffff_fff8),
        ("NO_DATA", 0xffff_fff7),
    ];
    for (name, word) in table {
        assert_eq!(words(&format!("word {name}")), [word], "{name}");
    }
}

#[test]
fn values() {
    let table = [
        ("0", 0),
        ("007", 7),
        ("1_000_000", 1_000_000),
        ("0xAb_cD", 0xabcd),
        ("4294967295", 0xffff_ffff),
        ("-1", 0xffff_ffff),
        ("-4294967295", 1),
        ("-0", 0),
        ("@9", 9216),
        ("@9+4", 9220),
        ("@page9+4", 9220),
        ("@0x9-1", 9215),
        ("@65535", 67_107_840),
        ("1+2-3+4", 4),
        ("3-5", 0xffff_fffe),
        ("-4+5", 1),
        ("minus+2", 1),
        ("4294967295+1-1", 0xffff_ffff),
        ("DENIED-DENIED", 0),
        ("here", 5),
        ("below", 6),
        ("below-here", 1),
    ];
    check_values(&table);
}

/// Tests values as words, where some names are known.
fn check_values(table: &[(&str, u32)]) {
    for (text, expected) in table {
        let whole = format!("page9 = 9\nminus = -1\nat 5\nhere: word {text}\nbelow: halt");
        let image = good(&whole).image;
        assert_eq!(image[8..12], u32::to_le_bytes(*expected), "{text}");
    }
}

#[test]
fn products() {
    check_values(&[
        ("2*3", 6),
        ("2*3*4", 24),
        ("1+2*3+4", 11),
        ("10-2*3", 4),
        ("-2*3", 0xffff_fffa),
        ("minus*minus", 1),
        ("0*minus", 0),
        ("page9*65536+3", 0x0009_0003),
        ("@page9*2", 18_432),
        ("2*@9+4", 18_436),
        ("65535*65537", 0xffff_ffff),
        ("65536*65536-1", 0xffff_ffff),
        ("-65535*65537", 1),
        ("4294967295*2147483648-4294967295*2147483648", 0),
        ("here*here+below", 31),
    ]);
    let text = "CREW = 2\nat @CREW*4\nfill CREW*2 CREW*CREW\nmovi r1 CREW*100";
    let expected = "18000400 00200000 04000000 04000000 04000000 04000000 0101c800";
    assert_eq!(good(text).image, hex(expected));
}

#[test]
fn labels() {
    let text = "guest 0 tx 0 rx 0 start last+1\nat 10\na: b:\nc: set r0 a\n d:call Run\ne:fill 5 0\nf: word 1 2\n\
                g: descriptor share 1 2\nlast: halt\nat 100\nagain: word a b c d e f g last again";
    let image = good(text).image;
    let numbers = [10, 10, 10, 12, 15, 20, 22, 25, 100];
    let expected: Vec<u8> = numbers.into_iter().flat_map(u32::to_le_bytes).collect();
    assert_eq!(image[image.len() - expected.len()..], expected);
    assert_eq!(image[10..14], 26u32.to_le_bytes(), "start, used before its place");
}

#[test]
fn constants_are_made_of_what_stands_above() {
    let text = "a = 2\nb=a+a\nat @b\nhere: halt\nc = here+1\nfill b c\nd = -a\nword d";
    let expected = "1c000400 00100000 0d000000 01100000 01100000 01100000 01100000 feffffff";
    assert_eq!(good(text).image, hex(expected));
}

#[test]
fn names_may_be_words_that_stand_for_themselves_elsewhere() {
    let text =
        "guest 0 tx 0 rx 0 start start\nowner = 1\npage owner owner owner\nat 3\nstart: share: success: r8: halt";
    let expected = "0a000200 0000 0000 0000 03000000 04000300 0100 0100 08000400 03000000 0d000000";
    assert_eq!(good(text).image, hex(expected));
}

#[test]
fn guests_are_named_by_their_start() {
    let text = "guest 0 tx 0 rx 0 start boss\nguest 1 tx 0 rx 0 start @home+4\nguest 2 tx 0 rx 0 start 5\n\
                guest 0 tx 0 rx 0 start home\nhome = 1\nat 0\nboss: halt";
    let assembly = good(text);
    let names: Vec<Option<&str>> = (0..4).map(|number| assembly.guest_name(GuestNumber(number))).collect();
    assert_eq!(names, [Some("boss"), Some("home"), None, None]);
}

#[test]
fn line_ends_and_marks_of_other_systems() {
    assert_eq!(
        good("\u{feff}budget 1\r\nrecord 7 ; x\r\n").image,
        hex("04000500 01000000 0000 0700")
    );
    assert_eq!(good("\tat\t0 ,, \n halt,").image, hex("08000400 00000000 0d000000"));
}

/// Places for numbers: the text around it, the lowest and highest number there, and its name.
const PLACES: [(&str, i64, i64, &str); 23] = [
    ("machine guests {} pages 4", 0, 65535, "guests"),
    ("machine guests 2 pages {}", 0, 65535, "pages"),
    ("guest {} tx 0 rx 1 start 0", 0, 65535, "guest"),
    ("guest 0 tx {} rx 1 start 0", 0, 65535, "tx"),
    ("guest 0 tx 0 rx {} start 0", 0, 65535, "rx"),
    ("guest 0 tx 0 rx 1 start {}", -4294967295, 4294967295, "start"),
    ("page {} owner 0", 0, 65535, "page"),
    ("page 0 owner {}", 0, 65535, "owner"),
    ("at {}", -4294967295, 4294967295, "at"),
    ("budget {}", -4294967295, 4294967295, "budget"),
    ("record {} 00", 0, 65535, "kind"),
    ("name = {}", -4294967295, 4294967295, "name"),
    ("at 0\nmovi r0 {}", 0, 65535, "movi K"),
    ("at 0\nmovt r0 {}", 0, 65535, "movt K"),
    ("at 0\naddi r0 {}", 0, 65535, "addi K"),
    ("at 0\nset r0 {}", -4294967295, 4294967295, "set"),
    ("at 0\nword {}", -4294967295, 4294967295, "word"),
    ("at 0\nword 1 {}", -4294967295, 4294967295, "word"),
    ("at 0\nfill {} 0", 1, 16382, "count"),
    ("at 0\nfill 1 {}", -4294967295, 4294967295, "fill"),
    ("at 0\ndescriptor share {} 0", 0, 7, "receiver"),
    ("at 0\ndescriptor share 0 {}", 0, 63, "page"),
    ("at 0\ndescriptor share 0 1 {}", 0, 63, "page"),
];

#[test]
fn boundaries_of_every_range() {
    for (template, low, high, place) in PLACES {
        for inside in [low, low + 1, high - 1, high] {
            good(&template.replace("{}", &inside.to_string()));
        }
        for outside in [low - 1, high + 1] {
            // A single number of more than 32 bits is refused as such, so these are sums.
            let sum = if outside < 0 {
                format!("{}-1", outside + 1)
            } else {
                format!("{}+1", outside - 1)
            };
            let text = template.replace("{}", &sum);
            let problems = assemble(&text).expect_err(&text);
            let expected = format!("{place}: `{sum}` = {outside} is out of range, {low} to {high}");
            assert!(problems[0].what.starts_with(&expected), "{text}: {problems:?}");
            assert_eq!(problems[0].line, text.lines().count());
        }
    }
}

#[test]
fn highest_numbers_arrive_whole() {
    assert_eq!(
        good("guest 65535 tx 65534 rx 65533 start -2").image,
        hex("0a000200 ffff feff fdff feffffff")
    );
    assert_eq!(good("record 65535").image, hex("0000 ffff"));
    assert_eq!(words("descriptor share 7 63"), [3, 0x0007_0003, 64_512]);
}

#[test]
fn longest_records() {
    let longest = good(&format!("record 9 {}", "ab".repeat(65_535))).image;
    assert_eq!((longest.len(), &longest[..5]), (65_539, &[0xff, 0xff, 9, 0, 0xab][..]));
    let full = good("at 0\nfill 16000 1\nfill 381 1\nword 2").image;
    assert_eq!((full.len(), &full[..4]), (65_536, &[0xfc, 0xff, 4, 0][..]));
    assert_eq!(good("at 0\nfill 16382 1\nat 0\nfill 16382 1").image.len(), 2 * 65_536);
}

#[test]
fn addresses_past_the_last_are_only_wrong_where_used() {
    assert_eq!(
        good("at 0xffffffff\nword 1 2").image,
        hex("0c000400 ffffffff 01000000 02000000")
    );
    let problems = assemble("at 0xffffffff\nhalt\nend: word end").unwrap_err();
    assert_eq!(
        problems[0].what,
        "word: `end` = 4294967296 is out of range, -4294967295 to 4294967295"
    );
}
