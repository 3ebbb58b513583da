//! The words of a line, read one after the other as what a statement expects.

use crate::names;
use crate::spelling::did_you_mean;
use crate::values::Value;

/// The most bytes that a record's payload can have, its length being 16 bits.
const LONGEST_PAYLOAD: usize = 65_535;

/// The words behind a statement's name, taken from the end.
pub struct Operands<'a> {
    /// The statement's name; `=` for a constant.
    pub statement: &'a str,
    words: Vec<&'a str>,
}

impl<'a> Operands<'a> {
    /// The first word of a line with those behind it; none for an empty line.
    pub fn of_line(text: &'a str) -> Option<Operands<'a>> {
        let mut words = words(text);
        let statement = words.pop()?;
        Some(Operands { statement, words })
    }

    /// The words behind the `=` of a constant.
    pub fn of_constant(text: &'a str) -> Operands<'a> {
        Operands {
            statement: "=",
            words: words(text),
        }
    }

    /// The next word; the error says what was expected.
    fn next(&mut self, what: &str) -> Result<&'a str, String> {
        match self.words.pop() {
            Some(word) => Ok(word),
            None => Err(self.wrong(&format!("expected {what}, but the line ends"))),
        }
    }

    /// A problem, with the form of the statement behind it.
    fn wrong(&self, what: &str) -> String {
        match self.statement {
            "=" => format!("{what}; write: NAME = VALUE"),
            statement => format!("{what}; write: {}", names::form(statement)),
        }
    }

    /// An error if nothing is left.
    pub fn not_over(&self, what: &str) -> Result<(), String> {
        match self.words.is_empty() {
            true => Err(self.wrong(&format!("expected {what}, but the line ends"))),
            false => Ok(()),
        }
    }

    /// An error if something is left.
    pub fn end(&self) -> Result<(), String> {
        match self.words.last() {
            None => Ok(()),
            Some(word) if word.starts_with(['+', '-', '*']) => Err(format!(
                "{} stands alone: write sums without blanks, like @9+4",
                names::quote(word)
            )),
            Some(word) => Err(self.wrong(&format!("{} is one word too many", names::quote(word)))),
        }
    }

    /// A value.
    pub fn value(&mut self, what: &str) -> Result<Value<'a>, String> {
        Value::parse(self.next(what)?)
    }

    /// A word as given and the value behind it.
    pub fn keyed(&mut self, key: &str, what: &str) -> Result<Value<'a>, String> {
        let word = self.next(&format!("`{key}`"))?;
        if word != key {
            return Err(self.wrong(&format!("expected `{key}`, found {}", names::quote(word))));
        }
        self.value(what)
    }

    /// All values that are left, one or more.
    pub fn values(&mut self, what: &str) -> Result<Vec<Value<'a>>, String> {
        self.not_over(what)?;
        let words = std::mem::take(&mut self.words);
        words.into_iter().rev().map(Value::parse).collect()
    }

    /// A register's number.
    pub fn register(&mut self) -> Result<u8, String> {
        let word = self.next("a register, r0 to r7")?;
        names::register(word).ok_or_else(|| {
            let (word, statement) = (names::short(word), self.statement);
            let hint = match statement {
                "br" | "bne" => format!("; put the address into one first: set r7 {word}, then {statement} r7"),
                _ => String::new(),
            };
            self.wrong(&format!("expected a register, r0 to r7, found `{word}`{hint}"))
        })
    }

    /// The number of the call whose name comes next, in whatever case.
    pub fn call(&mut self) -> Result<u32, String> {
        let word = self.next("the name of a call")?;
        let calls = names::calls();
        let call = calls.iter().find(|(name, _)| name.eq_ignore_ascii_case(word));
        call.map(|(_, number)| *number).ok_or_else(|| {
            let known: Vec<&str> = calls.iter().map(|(name, _)| *name).collect();
            let hint = match did_you_mean(word, known.iter().copied()) {
                hint if hint.is_empty() => format!("; the calls are {}", known.join(" ")),
                hint => hint,
            };
            format!("{} is no call{hint}", names::quote(word))
        })
    }

    /// The number of the kind of sending that comes next, in whatever case.
    pub fn kind(&mut self) -> Result<u16, String> {
        let word = self.next("share, lend or donate")?;
        let kind = names::KINDS.iter().find(|(name, _)| name.eq_ignore_ascii_case(word));
        let wrong = || self.wrong(&format!("expected share, lend or donate, found {}", names::quote(word)));
        kind.map(|(_, number)| *number).ok_or_else(wrong)
    }

    /// All bytes that are left, as hex pairs, at most a payload of them for `record`.
    pub fn bytes(&mut self) -> Result<Vec<u8>, String> {
        let mut bytes = Vec::new();
        for word in std::mem::take(&mut self.words).into_iter().rev() {
            let pairs = byte_pairs(word);
            bytes
                .extend(pairs.ok_or_else(|| format!("{} is no row of hex byte pairs, like 0a1b", names::quote(word)))?);
        }
        if self.statement == "record" && bytes.len() > LONGEST_PAYLOAD {
            return Err(format!(
                "a record holds at most {LONGEST_PAYLOAD} bytes, here are {}",
                bytes.len()
            ));
        }
        Ok(bytes)
    }
}

/// The words of a line, in reverse order so that the next one is at the end.
fn words(text: &str) -> Vec<&str> {
    let words = text.split(|char: char| char.is_whitespace() || char == ',');
    words.filter(|word| !word.is_empty()).rev().collect()
}

/// The bytes of a word of hex digits, two for each byte.
fn byte_pairs(word: &str) -> Option<Vec<u8>> {
    let digits: Option<Vec<u32>> = word.chars().map(|digit| digit.to_digit(16)).collect();
    let digits = digits?;
    // Two digits make at most 255.
    (digits.len() % 2 == 0).then(|| digits.chunks(2).map(|pair| (pair[0] * 16 + pair[1]) as u8).collect())
}
