//! The first pass of `asm`: the names that a text defines, and the problems that it has.

use super::Problem;
use crate::names;
use crate::spelling::did_you_mean;
use crate::statements::{Line, Statement};
use crate::values::{Miss, Room, Value};
use std::collections::HashMap;

/// What is known of a defined name.
struct Definition {
    line: usize,
    label: bool,
    worth: Worth,
}

/// The worth of a defined name.
#[derive(Clone, Copy)]
pub enum Worth {
    /// The lines down to its own have not been placed yet.
    Later,
    /// Its definition is wrong, and a problem says so.
    Wrong,
    Known(i64),
}

/// The names and the problems of a text.
#[derive(Default)]
pub struct Book<'a> {
    names: HashMap<&'a str, Definition>,
    problems: Vec<Problem>,
}

impl<'a> Book<'a> {
    /// All names that the lines define, and the problems that the lines have of themselves.
    pub fn of(lines: &[Line<'a>]) -> Book<'a> {
        let mut book = Book::default();
        for (at, line) in lines.iter().enumerate() {
            for label in &line.labels {
                book.note_name(at + 1, label, true);
            }
            if let Some(Statement::Constant(name, _)) = line.statement {
                book.note_name(at + 1, name, false);
            }
            for problem in &line.problems {
                book.tell(at + 1, problem.clone());
            }
        }
        book
    }

    /// Adds a problem.
    pub fn tell(&mut self, line: usize, what: String) {
        self.problems.push(Problem { line, what });
    }

    /// Whether there is any problem.
    pub fn is_wrong(&self) -> bool {
        !self.problems.is_empty()
    }

    /// The problems, in the order of the lines.
    pub fn problems(self) -> Vec<Problem> {
        let mut problems = self.problems;
        problems.sort_by_key(|problem| problem.line);
        problems
    }

    /// Notes one name, which must be new.
    fn note_name(&mut self, line: usize, name: &'a str, label: bool) {
        if let Some(first) = self.names.get(name) {
            let kind = if first.label { "label" } else { "constant" };
            let what = format!(
                "{} is already defined in line {}, as a {kind}",
                names::quote(name),
                first.line
            );
            return self.tell(line, what);
        }
        let worth = Worth::Later;
        self.names.insert(name, Definition { line, label, worth });
    }

    /// Sets the worth of a name, unless this line is not the one that defined it.
    pub fn settle(&mut self, line: usize, name: &str, worth: Worth) {
        if let Some(definition) = self.names.get_mut(name).filter(|definition| definition.line == line) {
            definition.worth = worth;
        }
    }

    /// The worth of a name in a value for a place with that room; behind `@` a label is refused, being
    /// no page number.
    fn lookup(&self, name: &str, page: bool, room: Room) -> Result<i64, Miss> {
        let Some(definition) = self.names.get(name) else {
            let unknown = || match room.label && !page {
                true => self.unknown_label(name),
                false => self.unknown(name),
            };
            return names::builtin(name).map(i64::from).ok_or_else(|| Miss::New(unknown()));
        };
        let quoted = names::quote(name);
        if page && definition.label {
            return Err(Miss::New(format!(
                "{}: @ takes a page number, and {quoted} is a label; drop the @",
                names::quote(&format!("@{name}"))
            )));
        }
        match definition.worth {
            Worth::Known(worth) => Ok(worth),
            Worth::Wrong => Err(Miss::Told),
            Worth::Later => {
                let line = definition.line;
                Err(Miss::New(format!(
                    "{quoted} is defined in line {line}, but must be defined above to be used here"
                )))
            }
        }
    }

    /// The sentence about a name that nobody defined.
    fn unknown(&self, name: &str) -> String {
        let known = self.own(false).into_iter().chain(self.own(true));
        let known = known.chain(names::builtins().into_iter().map(|(name, _)| name));
        format!("{} is not defined{}", names::quote(name), did_you_mean(name, known))
    }

    /// The same where a label is meant: a constant may be a number of quite another kind.
    fn unknown_label(&self, name: &str) -> String {
        let mut hint = did_you_mean(name, self.own(true));
        let constants = self.own(false);
        let constant = constants.iter().find(|constant| constant.eq_ignore_ascii_case(name));
        if let Some(constant) = constant.filter(|_| hint.is_empty()) {
            let constant = names::quote(constant);
            hint = format!("; {constant}, where only the case differs, is a constant, and a label is meant here");
        }
        format!("{} is not defined{hint}", names::quote(name))
    }

    /// The labels that the text defines, or the constants, in the order of the alphabet.
    fn own(&self, label: bool) -> Vec<&'a str> {
        let own = self.names.iter().filter(|(_, definition)| definition.label == label);
        let mut own: Vec<&str> = own.map(|(name, _)| *name).collect();
        own.sort_unstable();
        own
    }

    /// The worth of a value, with its sign, for a place with that room, and as the place takes it;
    /// none if a problem was told.
    pub fn signed_worth(&mut self, line: usize, value: &Value, what: &str, room: Room) -> Option<(i64, u32)> {
        let sum = value.sum(|name, page| self.lookup(name, page, room));
        let fitted = sum.and_then(|sum| match room.fit(sum, value.text(), what) {
            Ok(worth) => Ok((sum, worth)),
            Err(problem) => Err(Miss::New(problem)),
        });
        match fitted {
            Ok(worth) => Some(worth),
            Err(Miss::Told) => None,
            Err(Miss::New(problem)) => {
                self.tell(line, problem);
                None
            }
        }
    }

    /// The worth of a value as a place with that room takes it; none if a problem was told.
    pub fn worth(&mut self, line: usize, value: &Value, what: &str, room: Room) -> Option<u32> {
        self.signed_worth(line, value, what, room).map(|(_, worth)| worth)
    }
}
