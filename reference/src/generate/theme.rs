//! What a program is about, and how often it does what.

use super::random::Random;

/// What a program does most.
#[derive(Clone, Copy, Debug, PartialEq, Eq)]
pub enum Theme {
    General,
    Deals,
    Messages,
    Plain,
    /// Transactions are opened until no handle is free.
    Crowd,
    /// Loops with a call in every round.
    ManyCalls,
    /// Long loops without calls.
    ManySteps,
}

/// What an act is about.
#[derive(Clone, Copy, Debug, PartialEq, Eq)]
pub(super) enum Choice {
    Wrong,
    Plain,
    Handle,
    Sending,
    Message,
    Schedule,
    Move,
    Loop,
    /// A call with the registers as they are.
    Echo,
}

impl Theme {
    /// How often each choice is made.
    fn weights(self) -> [(Choice, u32); 9] {
        let [wrong, plain, handle, sending, message, schedule, wander, repeat, echo] = match self {
            Theme::General => [12, 16, 20, 12, 12, 22, 4, 1, 2],
            Theme::Deals => [8, 20, 30, 14, 4, 20, 4, 1, 1],
            Theme::Messages => [10, 8, 8, 8, 30, 22, 3, 1, 6],
            Theme::Plain => [6, 50, 10, 10, 6, 14, 8, 1, 1],
            Theme::Crowd => [10, 6, 4, 40, 4, 14, 4, 0, 0],
            Theme::ManyCalls => [6, 4, 8, 8, 10, 20, 2, 30, 4],
            Theme::ManySteps => [2, 10, 2, 2, 2, 6, 2, 30, 0],
        };
        [
            (Choice::Wrong, wrong),
            (Choice::Plain, plain),
            (Choice::Handle, handle),
            (Choice::Sending, sending),
            (Choice::Message, message),
            (Choice::Schedule, schedule),
            (Choice::Move, wander),
            (Choice::Loop, repeat),
            (Choice::Echo, echo),
        ]
    }

    /// One of the choices.
    pub(super) fn choose(self, random: &mut Random) -> Choice {
        let weights = self.weights();
        let mut left = random.below(weights.iter().map(|(_, weight)| weight).sum());
        for (choice, weight) in weights {
            if left < weight {
                return choice;
            }
            left -= weight;
        }
        Choice::Plain
    }
}
