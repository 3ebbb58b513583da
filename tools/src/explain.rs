//! The lines of the bench program as sentences.

mod call;
mod end;
mod pages;
mod refused;
mod rerun;

use crate::asm::Assembly;
use crate::numbers::GuestNumber;
use call::Call;
use reference::bench::{BENCH_PAGES, IMAGE_BYTES};
use reference::machine::GUESTS;
use reference::{Mode, VmId};
use rerun::{Refusal, Rerun, Step};

/// The sentence for one line alone, without its newline; none if bench prints no such line. The text
/// of the image that was benched gives names to guests, and what else an `Explainer` tells of it.
pub fn explain(line: &str, text: Option<&Assembly>) -> Option<String> {
    let explanation = Explainer::new(text).explain(line)?;
    Some(explanation.sentence)
}

/// Explains the lines of one run, from the first to the last. With the text, its image is run along
/// with the lines, to tell what they do not hold.
pub struct Explainer<'t> {
    /// None without a text, and once a line was another one's.
    known: Option<Known<'t>>,
}

/// What is known beyond the lines.
struct Known<'t> {
    text: &'t Assembly,
    /// What bench makes of the text's image.
    run: Result<Rerun, Refusal>,
}

/// What is to be said to a line.
#[derive(Clone, Debug, PartialEq, Eq)]
pub struct Explanation {
    pub sentence: String,
    /// This line is the first that bench does not print for the text.
    pub astray: bool,
}

impl<'t> Explainer<'t> {
    /// Before the first line.
    pub fn new(text: Option<&'t Assembly>) -> Explainer<'t> {
        let known = text.map(|text| Known {
            text,
            run: Rerun::start(&text.image),
        });
        Explainer { known }
    }

    /// The sentence for the next line, given without its newline; none if bench prints no such line.
    /// Lines may be left out, but not come in another order.
    pub fn explain(&mut self, line: &str) -> Option<Explanation> {
        let line = Line::read(line)?;
        let step = self.step(&line);
        let astray = !self.agrees(&line, step.as_ref());
        if astray {
            self.known = None;
        }
        let sentence = self.sentence(&line, step.as_ref());
        Some(Explanation { sentence, astray })
    }

    /// The step that a call's line is of, to which the rerun is moved.
    fn step(&mut self, line: &Line) -> Option<Step> {
        let rerun = self.known.as_mut()?.run.as_mut().ok()?;
        match line {
            Line::Call(call) => rerun.move_to(call.step).filter(|step| call.is_of(step)),
            _ => None,
        }
    }

    /// Whether the line is what bench prints for the text, as far as that is known.
    fn agrees(&mut self, line: &Line, step: Option<&Step>) -> bool {
        let Some(known) = &mut self.known else { return true };
        match (line, &mut known.run) {
            (Line::Call(_), _) => step.is_some(),
            (Line::End { steps, mode }, Ok(rerun)) => rerun.ends(*steps, *mode),
            (Line::TooLarge, Err(Refusal::Bytes(_) | Refusal::Pages(_))) => true,
            (Line::Broken(offset), Err(Refusal::Broken(broken))) => broken.offset == *offset,
            _ => false,
        }
    }

    /// The sentence for a line, with what is known beyond it.
    fn sentence(&self, line: &Line, step: Option<&Step>) -> String {
        let known = self.known.as_ref();
        match line {
            Line::Call(call) => call.sentence(known.map(|known| known.text), step),
            Line::End { steps, mode } => {
                let rerun = known.and_then(|known| Some((known.text, known.run.as_ref().ok()?)));
                end::sentence(*steps, *mode, rerun)
            }
            Line::TooLarge => format!("refused: {}", excess(known)),
            Line::Broken(offset) => {
                let rule = known.map(Known::rule).unwrap_or_default();
                format!("refused: the image is broken at byte {offset}{rule}")
            }
        }
    }
}

impl Known<'_> {
    /// Which line of the text breaks which rule; nothing if none does.
    fn rule(&self) -> String {
        let Err(Refusal::Broken(broken)) = &self.run else {
            return String::new();
        };
        match self.text.line_of(broken.offset) {
            Some(line) => format!(", line {line} of the text: {}", self.text.refusal(*broken)),
            None => format!(", the end of the text: {}", self.text.refusal(*broken)),
        }
    }
}

/// Of what there is too much for bench.
fn excess(known: Option<&Known>) -> String {
    match known.map(|known| &known.run) {
        Some(Err(Refusal::Bytes(bytes))) => {
            format!("the image has {bytes} bytes, and bench takes at most {IMAGE_BYTES}")
        }
        Some(Err(Refusal::Pages(pages))) => {
            format!("the machine has {pages} pages, and bench takes at most {BENCH_PAGES}")
        }
        _ => format!("the image has more than {IMAGE_BYTES} bytes, or its machine more than {BENCH_PAGES} pages"),
    }
}

/// A line of bench, taken apart.
enum Line {
    Call(Call),
    End {
        steps: u32,
        mode: Mode,
    },
    TooLarge,
    /// The offset of the bad record.
    Broken(usize),
}

impl Line {
    /// Takes a line apart; none if bench prints no such line.
    fn read(line: &str) -> Option<Line> {
        let words: Vec<&str> = line.split(' ').collect();
        match words.as_slice() {
            ["end", steps, mode] => {
                let modes = [Mode::Normal, Mode::Fault, Mode::Halted];
                Some(Line::End {
                    steps: decimal(steps)?,
                    mode: modes.into_iter().find(|known| known.word() == *mode)?,
                })
            }
            ["refused", "1"] => Some(Line::TooLarge),
            ["refused", "4", offset] => Some(Line::Broken(decimal(offset)? as usize)),
            [step, caller, before, after, r2] => Some(Line::Call(Call {
                step: decimal(step).filter(|step| *step > 0)?,
                caller: decimal(caller).and_then(guest_of)?,
                number: register(before)?,
                r0: register(after)?,
                r2: register(r2)?,
            })),
            _ => None,
        }
    }
}

/// The guest of that number, if a machine can have one.
fn guest_of(number: u32) -> Option<VmId> {
    let number = u8::try_from(number).ok();
    number.filter(|number| usize::from(*number) < GUESTS).map(VmId)
}

/// A decimal number as bench prints it: 32 bits, digits only, no needless zero.
fn decimal(text: &str) -> Option<u32> {
    let plain = text.bytes().all(|byte| byte.is_ascii_digit()) && (text == "0" || !text.starts_with('0'));
    text.parse().ok().filter(|_| plain)
}

/// A register as bench prints it: eight lower-case hex digits.
fn register(text: &str) -> Option<u32> {
    let plain = text.len() == 8 && text.bytes().all(|byte| matches!(byte, b'0'..=b'9' | b'a'..=b'f'));
    u32::from_str_radix(text, 16).ok().filter(|_| plain)
}

/// A number and what it counts.
fn counted(number: u32, what: &str) -> String {
    match number {
        1 => format!("1 {what}"),
        _ => format!("{number} {what}s"),
    }
}

/// A guest by its number and, where the text gives one, its name.
fn guest(VmId(number): VmId, text: Option<&Assembly>) -> String {
    match text.and_then(|text| text.guest_name(GuestNumber(u16::from(number)))) {
        Some(name) => format!("guest {number} ({name})"),
        None => format!("guest {number}"),
    }
}
