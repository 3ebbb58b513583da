//! The thirteen instructions of a guest and the words that hold them.
//!
//! A word is cut into four fields: the code in bits 0-7, register d in bits 8-11,
//! register s in bits 12-15 and the constant k in bits 16-31.

/// The highest register number.
const LAST_REGISTER: u8 = 7;

/// An instruction with its fields in the order d, s, k, as far as it has them.
///
/// The fields can hold more than a word has room for, so that `encode` is able to refuse.
#[derive(Clone, Copy, Debug, PartialEq, Eq)]
pub enum Instruction {
    /// Rd = k.
    Movi(u8, u32),
    /// The high half of Rd = k.
    Movt(u8, u32),
    /// Rd = Rs.
    Mov(u8, u8),
    /// Rd = the word at Rs.
    Ldr(u8, u8),
    /// The word at Rs = Rd.
    Str(u8, u8),
    /// Rd = Rd + Rs.
    Add(u8, u8),
    /// Rd = Rd - Rs.
    Sub(u8, u8),
    /// Rd = Rd + k.
    Addi(u8, u32),
    /// The flag tells whether Rd = Rs.
    Cmp(u8, u8),
    /// Go to Rs if the flag is clear.
    Bne(u8),
    /// Go to Rs.
    Br(u8),
    /// Make the call that R0 chooses.
    Hvc,
    /// Stop the machine.
    Halt,
}

impl Instruction {
    /// The name by which the scope document lists the instruction.
    pub fn name(self) -> &'static str {
        match self {
            Instruction::Movi(..) => "movi",
            Instruction::Movt(..) => "movt",
            Instruction::Mov(..) => "mov",
            Instruction::Ldr(..) => "ldr",
            Instruction::Str(..) => "str",
            Instruction::Add(..) => "add",
            Instruction::Sub(..) => "sub",
            Instruction::Addi(..) => "addi",
            Instruction::Cmp(..) => "cmp",
            Instruction::Bne(..) => "bne",
            Instruction::Br(..) => "br",
            Instruction::Hvc => "hvc",
            Instruction::Halt => "halt",
        }
    }
}

/// The meaning of a word, or `None` (answer 5) if it has none.
///
/// A field that the instruction has no use for must be zero, which is why the patterns name it.
pub fn decode(word: u32) -> Option<Instruction> {
    let [code, registers, ..] = word.to_le_bytes();
    let (d, s, k) = (registers & 15, registers >> 4, word >> 16);
    if d > LAST_REGISTER || s > LAST_REGISTER {
        return None;
    }
    match (code, d, s, k) {
        (1, d, 0, k) => Some(Instruction::Movi(d, k)),
        (2, d, 0, k) => Some(Instruction::Movt(d, k)),
        (3, d, s, 0) => Some(Instruction::Mov(d, s)),
        (4, d, s, 0) => Some(Instruction::Ldr(d, s)),
        (5, d, s, 0) => Some(Instruction::Str(d, s)),
        (6, d, s, 0) => Some(Instruction::Add(d, s)),
        (7, d, s, 0) => Some(Instruction::Sub(d, s)),
        (8, d, 0, k) => Some(Instruction::Addi(d, k)),
        (9, d, s, 0) => Some(Instruction::Cmp(d, s)),
        (10, 0, s, 0) => Some(Instruction::Bne(s)),
        (11, 0, s, 0) => Some(Instruction::Br(s)),
        (12, 0, 0, 0) => Some(Instruction::Hvc),
        (13, 0, 0, 0) => Some(Instruction::Halt),
        _ => None,
    }
}

/// The word that holds an instruction, or `None` (answer 5) if a field is too large for any word.
pub fn encode(instruction: Instruction) -> Option<u32> {
    let (code, d, s, k) = match instruction {
        Instruction::Movi(d, k) => (1, d, 0, k),
        Instruction::Movt(d, k) => (2, d, 0, k),
        Instruction::Mov(d, s) => (3, d, s, 0),
        Instruction::Ldr(d, s) => (4, d, s, 0),
        Instruction::Str(d, s) => (5, d, s, 0),
        Instruction::Add(d, s) => (6, d, s, 0),
        Instruction::Sub(d, s) => (7, d, s, 0),
        Instruction::Addi(d, k) => (8, d, 0, k),
        Instruction::Cmp(d, s) => (9, d, s, 0),
        Instruction::Bne(s) => (10, 0, s, 0),
        Instruction::Br(s) => (11, 0, s, 0),
        Instruction::Hvc => (12, 0, 0, 0),
        Instruction::Halt => (13, 0, 0, 0),
    };
    if d > LAST_REGISTER || s > LAST_REGISTER || k > u32::from(u16::MAX) {
        return None;
    }
    Some(code | u32::from(d) << 8 | u32::from(s) << 12 | k << 16)
}
