//! Decoding and encoding, over every code and every register field.

use reference::*;

/// A few constants, among them both ends and those around the sign bit.
const CONSTANTS: [u32; 6] = [0, 1, 0x6C, 0x7FFF, 0x8000, 0xFFFF];

/// The scope document's list: code, name, and which of the fields d, s and k the instruction names.
const LIST: [(u32, &str, bool, bool, bool); 13] = [
    (1, "movi", true, false, true),
    (2, "movt", true, false, true),
    (3, "mov", true, true, false),
    (4, "ldr", true, true, false),
    (5, "str", true, true, false),
    (6, "add", true, true, false),
    (7, "sub", true, true, false),
    (8, "addi", true, false, true),
    (9, "cmp", true, true, false),
    (10, "bne", false, true, false),
    (11, "br", false, true, false),
    (12, "hvc", false, false, false),
    (13, "halt", false, false, false),
];

/// The fields of an instruction; zero where it has none.
fn fields(instruction: Instruction) -> (u32, u32, u32) {
    use Instruction::*;
    match instruction {
        Movi(d, k) | Movt(d, k) | Addi(d, k) => (d.into(), 0, k),
        Mov(d, s) | Ldr(d, s) | Str(d, s) | Add(d, s) | Sub(d, s) | Cmp(d, s) => (d.into(), s.into(), 0),
        Bne(s) | Br(s) => (0, s.into(), 0),
        Hvc | Halt => (0, 0, 0),
    }
}

/// What the list says about a word with these fields: the name, or none.
fn expected_name(code: u32, d: u32, s: u32, k: u32) -> Option<&'static str> {
    let &(_, name, has_d, has_s, has_k) = LIST.iter().find(|entry| entry.0 == code)?;
    let d_fits = if has_d { d < 8 } else { d == 0 };
    let s_fits = if has_s { s < 8 } else { s == 0 };
    let k_fits = has_k || k == 0;
    (d_fits && s_fits && k_fits).then_some(name)
}

#[test]
fn every_code_with_every_register_field_decodes_as_listed() {
    let mut instructions = 0;
    for code in 0..256 {
        for (d, s) in (0..256).map(|pair| (pair % 16, pair / 16)) {
            for k in CONSTANTS {
                let word = code + d * 0x100 + s * 0x1000 + k * 0x1_0000;
                let decoded = decode(word);
                assert_eq!(
                    decoded.map(Instruction::name),
                    expected_name(code, d, s, k),
                    "{word:08x}"
                );
                if let Some(instruction) = decoded {
                    assert_eq!(fields(instruction), (d, s, k), "{word:08x}");
                    assert_eq!(encode(instruction), Some(word), "{word:08x}");
                    instructions += 1;
                }
            }
        }
    }
    // Three with d and k, six with d and s, two with s, two with nothing.
    assert_eq!(instructions, 3 * 8 * 6 + 6 * 64 + 2 * 8 + 2);
}

#[test]
fn words_written_by_hand() {
    use Instruction::*;
    let pairs = [
        (Movi(7, 0xFFFF), 0xFFFF_0701),
        (Movt(0, 0x8400), 0x8400_0002),
        (Mov(1, 2), 0x0000_2103),
        (Ldr(3, 4), 0x0000_4304),
        (Str(5, 6), 0x0000_6505),
        (Add(6, 7), 0x0000_7606),
        (Sub(7, 0), 0x0000_0707),
        (Addi(2, 0x8000), 0x8000_0208),
        (Cmp(0, 1), 0x0000_1009),
        (Bne(3), 0x0000_300A),
        (Br(7), 0x0000_700B),
        (Hvc, 0x0000_000C),
        (Halt, 0x0000_000D),
    ];
    for (instruction, word) in pairs {
        assert_eq!(encode(instruction), Some(word), "{instruction:?}");
        assert_eq!(decode(word), Some(instruction), "{word:08x}");
    }
}

#[test]
fn no_word_holds_a_register_above_7() {
    use Instruction::*;
    for x in [8, 15, 16, 128, 255] {
        for instruction in [Movi(x, 1), Movt(x, 1), Addi(x, 1), Bne(x), Br(x)] {
            assert_eq!(encode(instruction), None, "{instruction:?}");
        }
        for with_two in [Mov, Ldr, Str, Add, Sub, Cmp] {
            assert_eq!(encode(with_two(x, 1)), None, "{:?}", with_two(x, 1));
            assert_eq!(encode(with_two(1, x)), None, "{:?}", with_two(1, x));
        }
    }
}

#[test]
fn no_word_holds_a_constant_above_65535() {
    use Instruction::*;
    for k in [65_536, 65_537, 0x8000_0000, 0xFFFF_FFFF] {
        for with_constant in [Movi, Movt, Addi] {
            assert_eq!(encode(with_constant(1, k)), None, "{:?}", with_constant(1, k));
            assert!(encode(with_constant(1, 65_535)).is_some());
        }
    }
}

#[test]
fn answers_have_their_numbers() {
    let answers = [
        Answer::Done,
        Answer::WrongMemory,
        Answer::Unsound,
        Answer::Stopped,
        Answer::BrokenImage,
        Answer::NotAnInstruction,
    ];
    assert_eq!(answers.map(Answer::number), [0, 1, 2, 3, 4, 5]);
}
