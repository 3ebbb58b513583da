//! The answers that entries give, and their numbers.

/// How an entry ended.
#[derive(Clone, Copy, Debug, PartialEq, Eq)]
pub enum Answer {
    /// The entry did what it is for.
    Done,
    /// The lent memory has another length than the machine's pages together.
    WrongMemory,
    /// The machine is not sound.
    Unsound,
    /// The machine's mode is not normal.
    Stopped,
    /// The image is broken.
    BrokenImage,
    /// The word is no instruction, or no word holds the instruction.
    NotAnInstruction,
}

impl Answer {
    /// The answer of `decode` and `encode`, by whether they found something.
    pub fn of_found<T>(found: &Option<T>) -> Answer {
        match found {
            Some(_) => Answer::Done,
            None => Answer::NotAnInstruction,
        }
    }

    /// The number of the answer in the scope document's table.
    pub fn number(self) -> u8 {
        match self {
            Answer::Done => 0,
            Answer::WrongMemory => 1,
            Answer::Unsound => 2,
            Answer::Stopped => 3,
            Answer::BrokenImage => 4,
            Answer::NotAnInstruction => 5,
        }
    }
}
