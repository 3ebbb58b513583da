//! Programs: which theme, machine, ending and wrong calls each has.

use super::call::{Call, Error};
use super::director::{Director, Task};
use super::ending::{endings, Ending};
use super::flaw::{double_ways, first_flaws, wrong_ways, Flaw};
use super::held::holds;
use super::layout::{Layout, Shape};
use super::oracle::Place;
use super::random::Random;
use super::stage::Stage;
use super::theme::Theme;
use super::wrong::Aim;
use crate::machine::Mode;

/// The themes of programs by their number, and the machine of each.
const THEMES: [(Theme, Shape); 16] = [
    (Theme::Deals, Shape::Busy),
    (Theme::General, Shape::Roomy),
    (Theme::Messages, Shape::Roomy),
    (Theme::Deals, Shape::Roomy),
    (Theme::Plain, Shape::Busy),
    (Theme::Crowd, Shape::Crowd),
    (Theme::General, Shape::Tight),
    (Theme::Deals, Shape::Wide),
    (Theme::Deals, Shape::Busy),
    (Theme::General, Shape::Roomy),
    (Theme::Messages, Shape::Roomy),
    (Theme::Deals, Shape::Rich),
    (Theme::Plain, Shape::Busy),
    (Theme::Crowd, Shape::Rich),
    (Theme::General, Shape::Tight),
    (Theme::Deals, Shape::Wide),
];

/// How many wrong calls each program is asked to make.
const AIMS: usize = 20;

/// Every wrong call that can be aimed at.
pub fn all_aims() -> Vec<Aim> {
    let one = wrong_ways().into_iter().map(|(call, flaw)| Aim::One(call, flaw));
    let two = double_ways()
        .into_iter()
        .map(|(call, first, second)| Aim::Two(call, first, second));
    let at = Call::SENDINGS.into_iter().flat_map(|call| {
        let flaws = [Flaw::BaseUnaligned, Flaw::PageOtherMailbox];
        flaws
            .into_iter()
            .flat_map(move |flaw| Place::ALL.map(|place| Aim::At(call, flaw, place)))
    });
    let before = first_flaws()
        .into_iter()
        .map(|(call, flaw, next)| Aim::Before(call, flaw, next));
    one.chain(two).chain(at).chain(before).collect()
}

/// Whether a wrong call needs all handles to be in use.
fn needs_crowd(aim: &Aim) -> bool {
    matches!(aim, Aim::One(_, Flaw::NoHandleFree) | Aim::Two(_, _, Error::NoMemory))
}

/// The large sending that a program is to make if one of its guests is rich: all come in turn.
fn batches(number: u64, theme: Theme, shape: Shape) -> Vec<(Call, usize)> {
    if (theme, shape) != (Theme::Deals, Shape::Rich) {
        return Vec::new();
    }
    let all: Vec<(Call, usize)> = [8, 7]
        .into_iter()
        .flat_map(|count| Call::SENDINGS.map(|call| (call, count)))
        .collect();
    let turn = number as usize / THEMES.len();
    vec![all[turn % all.len()]]
}

/// A program that has run to its end, and the budget that its image is to have.
pub struct Program {
    pub stage: Stage,
    pub budget: u32,
}

/// The program with this number.
pub fn program(number: u64, random: &mut Random) -> Result<Program, String> {
    let (theme, shape) = THEMES[(number % THEMES.len() as u64) as usize];
    let endings = endings();
    let ending = endings[(number % endings.len() as u64) as usize];
    let shape = if shape == Shape::Tight && ending.is_rare() {
        Shape::Busy
    } else {
        shape
    };
    let all_aims = all_aims();
    let mut aims: Vec<Aim> = (0..AIMS)
        .map(|place| all_aims[(number as usize * AIMS + place) % all_aims.len()])
        .collect();
    if theme == Theme::Crowd {
        aims.splice(0..0, all_aims.iter().copied().filter(needs_crowd));
    }
    let task = Task {
        theme,
        ending,
        aims,
        all_aims,
        batches: batches(number, theme, shape),
        holds: holds(number),
        long_loop: false,
        acts: random.between(60, 220),
    };
    build(task, shape, random)
}

/// A program of loops: of calls if the number is even, of steps without calls if it is odd;
/// every sixth has calls behind a loop of more than 65,536 steps.
pub fn loops(number: u64, random: &mut Random) -> Result<Program, String> {
    let long_loop = number % 6 == 2;
    let theme = if long_loop {
        Theme::Messages
    } else if number.is_multiple_of(2) {
        Theme::ManyCalls
    } else {
        Theme::ManySteps
    };
    let ending = [Ending::Halt, Ending::Halt, Ending::Cut][(number / 2 % 3) as usize];
    let task = Task {
        theme,
        ending,
        aims: vec![Aim::One(Call::Unknown, Flaw::NumberZero)],
        all_aims: all_aims(),
        batches: Vec::new(),
        holds: Vec::new(),
        long_loop,
        acts: random.between(10, 30),
    };
    let shape = random.choose([Shape::Roomy, Shape::Tight, Shape::Busy]);
    let shape = if long_loop { Shape::Busy } else { shape };
    build(task, shape, random)
}

/// Builds a program and chooses its budget.
fn build(task: Task, shape: Shape, random: &mut Random) -> Result<Program, String> {
    let ending = task.ending;
    let layout = Layout::random(shape, random);
    let stage = Stage::new(layout, random)?;
    let stage = Director::direct(stage, task, random)?;
    let steps = stage.steps;
    let more = random.between(1, 1000);
    let budget = match ending {
        Ending::Zero => 0,
        // A program that did not stop would go on as long as the budget lets it.
        _ if stage.machine.mode == Mode::Normal => random.between(1, steps),
        Ending::Cut => random.between(1, steps),
        _ if random.one_in(4) => random.choose([0x1_0000, 0x8000_0000, u32::MAX]).max(steps + 1),
        Ending::Halt => random.choose([steps, steps - 1, steps + more]),
        Ending::Fault(_) => random.choose([steps, steps, steps - 1, steps + more, steps + more, steps + 1]),
    };
    Ok(Program { stage, budget })
}
