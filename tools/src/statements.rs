//! One line of the text form, taken apart into labels and a statement.

use crate::names::{self, Shape};
use crate::operands::Operands;
use crate::spelling::did_you_mean;
use crate::values::Value;
use reference::Instruction;

/// A statement with its values still as written.
#[derive(Clone, Debug)]
pub enum Statement<'a> {
    Machine {
        guests: Value<'a>,
        pages: Value<'a>,
    },
    Guest {
        guest: Value<'a>,
        tx: Value<'a>,
        rx: Value<'a>,
        start: Value<'a>,
    },
    Page {
        page: Value<'a>,
        owner: Value<'a>,
    },
    At(Value<'a>),
    Budget(Value<'a>),
    Record {
        kind: Value<'a>,
        payload: Vec<u8>,
    },
    Bytes(Vec<u8>),
    /// A constant; its value is missing if that was wrong, so that the name is known all the same.
    Constant(&'a str, Option<Value<'a>>),
    /// An instruction without a k.
    Whole(Instruction),
    /// An instruction with a k.
    Field {
        make: fn(u8, u32) -> Instruction,
        d: u8,
        k: Value<'a>,
    },
    Set {
        d: u8,
        value: Value<'a>,
    },
    /// The number of the call.
    Call(u32),
    Word(Vec<Value<'a>>),
    Fill {
        count: Value<'a>,
        value: Value<'a>,
    },
    Descriptor {
        kind: u16,
        receiver: Value<'a>,
        pages: Vec<Value<'a>>,
    },
}

impl Statement<'_> {
    /// How many words the statement makes; none if it makes no words, and 1 for a fill.
    pub fn word_count(&self) -> Option<u64> {
        match self {
            Statement::Whole(_) | Statement::Field { .. } | Statement::Fill { .. } => Some(1),
            Statement::Set { .. } => Some(2),
            Statement::Call(_) => Some(3),
            Statement::Word(values) => Some(values.len() as u64),
            Statement::Descriptor { pages, .. } => Some(2 + pages.len() as u64),
            _ => None,
        }
    }
}

/// What one line holds, and what is wrong with it.
#[derive(Clone, Debug, Default)]
pub struct Line<'a> {
    pub labels: Vec<&'a str>,
    pub statement: Option<Statement<'a>>,
    pub problems: Vec<String>,
}

/// Takes one line apart.
pub fn parse_line(text: &str) -> Line<'_> {
    let mut line = Line::default();
    let mut rest = text.split(';').next().unwrap_or_default();
    if let Some(at) = foreign_comment(rest) {
        let word = rest[at..].split_whitespace().next().unwrap_or_default();
        line.problems
            .push(format!("{} starts no comment here, but `;` does", names::quote(word)));
        rest = &rest[..at];
    }
    while let Some((label, after)) = rest.split_once(':') {
        let label = label.trim();
        match names::definable(label) {
            Ok(()) => line.labels.push(label),
            Err(problem) => line.problems.push(problem),
        }
        if !names::is_name(label) {
            // The colon is astray, so what stands behind it says nothing.
            return line;
        }
        rest = after;
    }
    match rest.split_once('=') {
        Some((name, value)) => parse_constant(&mut line, name.trim(), value),
        None => match parse_statement(rest) {
            Ok(statement) => line.statement = statement,
            Err(problem) => line.problems.push(problem),
        },
    }
    line
}

/// Where a comment in the manner of other languages starts: `//` or `#`, but not one that stands
/// before an operand.
fn foreign_comment(text: &str) -> Option<usize> {
    let whole = text.find('#').filter(|at| text[..*at].trim().is_empty());
    whole.or_else(|| text.find("//")).or_else(|| text.find("# "))
}

/// Takes `NAME = VALUE` apart into the line's statement.
fn parse_constant<'a>(line: &mut Line<'a>, name: &'a str, value: &'a str) {
    if let Err(problem) = names::definable(name) {
        line.problems.push(problem);
        return;
    }
    let value = constant_value(value);
    line.statement = Some(Statement::Constant(name, value.as_ref().ok().cloned()));
    line.problems.extend(value.err());
}

/// The value behind the `=` of a constant, and nothing else.
fn constant_value(text: &str) -> Result<Value<'_>, String> {
    let mut operands = Operands::of_constant(text);
    let value = operands.value("the value")?;
    operands.end()?;
    Ok(value)
}

/// Takes a statement apart; an empty line has none.
fn parse_statement(text: &str) -> Result<Option<Statement<'_>>, String> {
    let Some(mut operands) = Operands::of_line(text) else {
        return Ok(None);
    };
    let parsed = match names::instruction(operands.statement) {
        Some(shape) => parse_instruction(shape, &mut operands)?,
        None => parse_other(&mut operands)?,
    };
    operands.end()?;
    Ok(Some(parsed))
}

/// An instruction of that shape.
fn parse_instruction<'a>(shape: Shape, operands: &mut Operands<'a>) -> Result<Statement<'a>, String> {
    Ok(match shape {
        Shape::Field(make) => Statement::Field {
            make,
            d: operands.register()?,
            k: operands.value("K, a value")?,
        },
        Shape::Two(make) => Statement::Whole(make(operands.register()?, operands.register()?)),
        Shape::One(make) => Statement::Whole(make(operands.register()?)),
        Shape::Plain(instruction) => Statement::Whole(instruction),
    })
}

/// A statement that is no instruction.
fn parse_other<'a>(operands: &mut Operands<'a>) -> Result<Statement<'a>, String> {
    Ok(match operands.statement {
        "machine" | "guest" | "page" => parse_keyed(operands)?,
        "at" => Statement::At(operands.value("an address")?),
        "budget" => Statement::Budget(operands.value("a number of steps")?),
        "record" => Statement::Record {
            kind: operands.value("a kind")?,
            payload: operands.bytes()?,
        },
        "bytes" => {
            operands.not_over("bytes as hex pairs")?;
            Statement::Bytes(operands.bytes()?)
        }
        "set" => Statement::Set {
            d: operands.register()?,
            value: operands.value("a value")?,
        },
        "call" => Statement::Call(operands.call()?),
        "word" => Statement::Word(operands.values("a value")?),
        "fill" => Statement::Fill {
            count: operands.value("a count")?,
            value: operands.value("a value")?,
        },
        "descriptor" => Statement::Descriptor {
            kind: operands.kind()?,
            receiver: operands.value("the receiver's guest number")?,
            pages: operands.values("a page number")?,
        },
        name => {
            let hint = did_you_mean(name, names::statements());
            return Err(format!("{} is no statement or instruction{hint}", names::quote(name)));
        }
    })
}

/// A statement whose numbers stand behind words that name them.
fn parse_keyed<'a>(operands: &mut Operands<'a>) -> Result<Statement<'a>, String> {
    Ok(match operands.statement {
        "machine" => Statement::Machine {
            guests: operands.keyed("guests", "the number of guests")?,
            pages: operands.keyed("pages", "the number of pages")?,
        },
        "guest" => Statement::Guest {
            guest: operands.value("a guest number")?,
            tx: operands.keyed("tx", "a page number")?,
            rx: operands.keyed("rx", "a page number")?,
            start: operands.keyed("start", "an address")?,
        },
        _ => Statement::Page {
            page: operands.value("a page number")?,
            owner: operands.keyed("owner", "a guest number")?,
        },
    })
}
