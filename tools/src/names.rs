//! The words that the text form knows of itself: statements, instructions, registers and built-in
//! constants; and how messages show words.

use reference::calls;
use reference::Instruction;

/// How the operands of an instruction are written, with the way to make it of them.
#[derive(Clone, Copy)]
pub enum Shape {
    /// `rD K`
    Field(fn(u8, u32) -> Instruction),
    /// `rD rS`
    Two(fn(u8, u8) -> Instruction),
    /// `rS`
    One(fn(u8) -> Instruction),
    /// No operands.
    Plain(Instruction),
}

/// Every instruction, in the order of the codes.
pub const INSTRUCTIONS: [Shape; 13] = [
    Shape::Field(Instruction::Movi),
    Shape::Field(Instruction::Movt),
    Shape::Two(Instruction::Mov),
    Shape::Two(Instruction::Ldr),
    Shape::Two(Instruction::Str),
    Shape::Two(Instruction::Add),
    Shape::Two(Instruction::Sub),
    Shape::Field(Instruction::Addi),
    Shape::Two(Instruction::Cmp),
    Shape::One(Instruction::Bne),
    Shape::One(Instruction::Br),
    Shape::Plain(Instruction::Hvc),
    Shape::Plain(Instruction::Halt),
];

/// Every statement that is no instruction, with its form.
pub const STATEMENTS: [(&str, &str); 12] = [
    ("machine", "machine guests N pages M"),
    ("guest", "guest G tx P rx P start A"),
    ("page", "page P owner G"),
    ("at", "at A"),
    ("budget", "budget STEPS"),
    ("record", "record KIND BYTES.."),
    ("bytes", "bytes BYTES.."),
    ("set", "set rD VALUE"),
    ("call", "call NAME"),
    ("word", "word VALUE.."),
    ("fill", "fill COUNT VALUE"),
    ("descriptor", "descriptor KIND RECEIVER PAGE.."),
];

/// Every call, in the order of the scope document.
const CALLS: [u32; 11] = [
    calls::RUN,
    calls::YIELD,
    calls::POLL,
    calls::WAIT,
    calls::SEND,
    calls::DONATE,
    calls::LEND,
    calls::SHARE,
    calls::RETRIEVE,
    calls::RELINQUISH,
    calls::RECLAIM,
];

/// Every error, in the order of the scope document.
const ERRORS: [u32; 7] = [
    calls::NOT_SUPPORTED,
    calls::INVALID_PARAMETERS,
    calls::NO_MEMORY,
    calls::BUSY,
    calls::DENIED,
    calls::ABORTED,
    calls::NO_DATA,
];

/// The three sendings with their kind numbers in a descriptor.
pub const KINDS: [(&str, u16); 3] = [("donate", 1), ("lend", 2), ("share", 3)];

impl Shape {
    /// The instruction's name.
    pub fn name(self) -> &'static str {
        match self {
            Shape::Field(make) => make(0, 0).name(),
            Shape::Two(make) => make(0, 0).name(),
            Shape::One(make) => make(0).name(),
            Shape::Plain(instruction) => instruction.name(),
        }
    }

    /// The instruction's form, as the errors show it.
    fn form(self) -> String {
        let operands = match self {
            Shape::Field(_) => " rD K",
            Shape::Two(_) => " rD rS",
            Shape::One(_) => " rS",
            Shape::Plain(_) => "",
        };
        format!("{}{operands}", self.name())
    }
}

/// The shape of the instruction of that name.
pub fn instruction(name: &str) -> Option<Shape> {
    INSTRUCTIONS.into_iter().find(|shape| shape.name() == name)
}

/// How the statement or instruction of that name is written; empty for none.
pub fn form(name: &str) -> String {
    let statement = STATEMENTS.iter().find(|(statement, _)| *statement == name);
    match (statement, instruction(name)) {
        (Some((_, form)), _) => form.to_string(),
        (None, Some(shape)) => shape.form(),
        (None, None) => String::new(),
    }
}

/// The names of all statements and instructions.
pub fn statements() -> Vec<&'static str> {
    let statements = STATEMENTS.iter().map(|(name, _)| *name);
    statements
        .chain(INSTRUCTIONS.iter().map(|shape| shape.name()))
        .collect()
}

/// The names and numbers of all calls.
pub fn calls() -> Vec<(&'static str, u32)> {
    CALLS
        .into_iter()
        .filter_map(|number| Some((calls::call_name(number)?, number)))
        .collect()
}

/// The names and words of all built-in constants: calls, replies and errors.
pub fn builtins() -> Vec<(&'static str, u32)> {
    let replies = [("Success", calls::SUCCESS), ("Error", calls::ERROR)];
    let errors = ERRORS
        .into_iter()
        .filter_map(|code| Some((calls::error_name(code)?, code)));
    calls().into_iter().chain(replies).chain(errors).collect()
}

/// The word of the built-in constant of that name.
pub fn builtin(name: &str) -> Option<u32> {
    builtins()
        .into_iter()
        .find(|(builtin, _)| *builtin == name)
        .map(|(_, word)| word)
}

/// The number of a register written as r0 to r7 or R0 to R7.
pub fn register(text: &str) -> Option<u8> {
    match text.as_bytes() {
        [b'r' | b'R', digit @ b'0'..=b'7'] => Some(digit - b'0'),
        _ => None,
    }
}

/// Whether the text has the form of a name: a letter, then letters, digits and `_`.
pub fn is_name(text: &str) -> bool {
    text.starts_with(|first: char| first.is_ascii_alphabetic())
        && text.chars().all(|char| char.is_ascii_alphanumeric() || char == '_')
}

/// Whether a person may define this name; the error is a sentence.
pub fn definable(name: &str) -> Result<(), String> {
    if !is_name(name) {
        return Err(format!(
            "{} is no name: a name is a letter, then letters, digits or _",
            quote(name)
        ));
    }
    if register(name).is_some() {
        return Err(format!("`{name}` is a register and cannot be defined"));
    }
    if statements().contains(&name) {
        return Err(format!("`{name}` is a statement and cannot be defined"));
    }
    if builtin(name).is_some() {
        return Err(format!("`{name}` is built in and cannot be defined"));
    }
    Ok(())
}

/// The most letters of a word that messages show.
const LONGEST: usize = 40;

/// A word of the text as messages show it, short and without control characters.
pub fn short(word: &str) -> String {
    let mut shown = String::new();
    for char in word.chars().take(LONGEST) {
        match char {
            '\'' | '"' | '\\' => shown.push(char),
            _ => shown.extend(char.escape_debug()),
        }
    }
    if word.chars().count() > LONGEST {
        shown.push_str("..");
    }
    shown
}

/// As `short`, between marks.
pub fn quote(word: &str) -> String {
    format!("`{}`", short(word))
}

#[cfg(test)]
mod tests {
    use super::*;

    #[test]
    fn every_statement_has_a_form_that_starts_with_it() {
        for name in statements() {
            assert_eq!(form(name).split(' ').next(), Some(name));
        }
        assert_eq!(statements().len(), 25);
    }
}
