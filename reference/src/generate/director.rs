//! The director: builds a program while it runs, one act after the other.

use std::mem;

use super::call::{Call, SUCCESS};
use super::code::{trial_word, word_of, Code};
use super::ending::{fault_act, Ending};
use super::held::{hold_act, Between, Hold};
use super::plain::{call_loop, fresh, plain_act, show, spin};
use super::plan::{empty_others, good_handles, handles, others, some_pages, CallPlan, Sending};
use super::random::Random;
use super::stage::Stage;
use super::standing::{may, pages_standing, Standing, Use};
use super::theme::{Choice, Theme};
use super::wrong::{wrong_call, Aim};
use crate::instructions::Instruction;
use crate::machine::{Handle, Inbox, Mode, VmId, PRIMARY};

/// What a program is to be.
#[derive(Clone, Debug)]
pub struct Task {
    pub theme: Theme,
    pub ending: Ending,
    /// Wrong calls to be made as soon as they are possible.
    pub aims: Vec<Aim>,
    /// Wrong calls to choose from besides.
    pub all_aims: Vec<Aim>,
    /// Sendings of so many pages to be made as soon as a guest has them.
    pub batches: Vec<(Call, usize)>,
    /// Acts that show whether the equal flag lasts, to be done as soon as they are possible.
    pub holds: Vec<Hold>,
    /// Whether a loop of more steps than 16 bits can count comes first.
    pub long_loop: bool,
    /// How many acts before the ending.
    pub acts: u32,
}

/// More acts to come to a state that has the ending.
const EXTRA_ACTS: u32 = 120;
/// Words that every act leaves for a jump elsewhere.
const RESERVE: u32 = 4;
/// Words of a new area of code.
const AREA: u32 = 90;
/// No program runs longer, but for a long loop.
const MOST_STEPS: u32 = 60_000;
/// The least rounds of a long loop, of four steps each.
const LONG_ROUNDS: u32 = 16_400;

/// Builds one program.
pub struct Director<'a> {
    pub stage: Stage,
    task: Task,
    random: &'a mut Random,
    acts: u32,
    /// What the act in the making was asked for.
    aim: Option<Aim>,
    hold: Option<Hold>,
    batch: Option<(Call, usize)>,
    /// The guest that gave control away with its flag to be seen later, and its flag.
    away: Option<(VmId, bool)>,
    /// Whether the last act is written.
    ended: bool,
}

impl Director<'_> {
    /// Builds the whole program on this stage and gives the stage back as it is at the end.
    pub fn direct(stage: Stage, task: Task, random: &mut Random) -> Result<Stage, String> {
        let most_steps = MOST_STEPS + if task.long_loop { 5 * LONG_ROUNDS } else { 0 };
        let mut director = Director {
            stage,
            task,
            random,
            acts: 0,
            aim: None,
            hold: None,
            batch: None,
            away: None,
            ended: false,
        };
        while director.stage.machine.mode == Mode::Normal && director.stage.steps < most_steps {
            if director.stage.wants_code() {
                if director.ended || !director.write_act() {
                    break;
                }
            } else {
                director.stage.step()?;
            }
        }
        Ok(director.stage)
    }

    /// Writes the next act at the current guest's pc and tells whether the program goes on.
    fn write_act(&mut self) -> bool {
        self.acts += 1;
        self.aim = None;
        self.hold = None;
        self.batch = None;
        let code = match self.ending_act() {
            Some(code) => code,
            None if self.ended => return false,
            None => self.any_act(),
        };
        if code.words().len() as u32 + RESERVE <= self.stage.room() {
            self.note_switch();
            self.stage.write_code(code.words());
        } else {
            self.ended = false;
            self.stage.awaited = None;
            self.task.aims.extend(self.aim);
            self.task.holds.extend(self.hold);
            self.task.batches.extend(self.batch);
            self.move_on();
        }
        true
    }

    /// Remembers a guest that gives control away between a comparison and its bne.
    fn note_switch(&mut self) {
        if let Some(Hold {
            over: Between::Switch,
            equal,
        }) = self.hold
        {
            self.away = Some((self.stage.machine.current, equal));
        }
    }

    /// An act about the equal flag: if another guest waits with its bne, a comparison that ends otherwise comes first.
    fn held(&mut self) -> Option<Code> {
        match self.away {
            Some((vm, equal)) if vm != self.stage.machine.current => {
                self.away = None;
                let other = Hold {
                    over: Between::Movi,
                    equal: !equal,
                };
                return hold_act(&self.stage, other, self.random);
            }
            _ if !self.random.one_in(3) => return None,
            _ => {}
        }
        for place in 0..self.task.holds.len() {
            if let Some(code) = hold_act(&self.stage, self.task.holds[place], self.random) {
                self.hold = Some(self.task.holds.remove(place));
                return Some(code);
            }
        }
        None
    }

    /// The last act, if it is time for it and the state has it.
    fn ending_act(&mut self) -> Option<Code> {
        let earliest = if self.task.ending.is_rare() {
            self.task.acts / 4
        } else {
            self.task.acts
        };
        if self.acts <= earliest {
            return None;
        }
        let mut halt = fresh(&self.stage);
        halt.push(Instruction::Halt);
        let late = self.acts > self.task.acts + EXTRA_ACTS;
        let code = match self.task.ending {
            Ending::Cut => None,
            Ending::Halt | Ending::Zero => Some(halt),
            Ending::Fault(cause) => match fault_act(&self.stage, cause, self.random) {
                None if late => Some(halt),
                code => code,
            },
        };
        self.ended = code.is_some() || self.task.ending == Ending::Cut;
        code
    }

    /// An act that is not the last one.
    fn any_act(&mut self) -> Code {
        if mem::take(&mut self.task.long_loop) {
            return spin(&self.stage, LONG_ROUNDS, LONG_ROUNDS + 100, self.random);
        }
        if let Some(code) = self.held() {
            return code;
        }
        if self.random.one_in(2) {
            if let Some(plan) = self.large_sending().or_else(|| self.aimed()) {
                return self.emit(plan);
            }
        }
        let late = self.acts > self.task.acts;
        let theme = if late { Theme::Deals } else { self.task.theme };
        for _ in 0..6 {
            let choice = theme.choose(self.random);
            if let Some(code) = self.act(choice) {
                return code;
            }
        }
        let plan = self.schedule();
        self.emit(plan)
    }

    /// An act about this, if the state has one.
    fn act(&mut self, choice: Choice) -> Option<Code> {
        let plan = match choice {
            Choice::Plain => return plain_act(&self.stage, self.random),
            Choice::Move => return self.jump(),
            Choice::Loop => return Some(self.repeat()),
            Choice::Echo => {
                let mut code = fresh(&self.stage);
                code.push(Instruction::Hvc);
                return Some(code);
            }
            Choice::Wrong => self.wrong()?,
            Choice::Handle => self.handle()?,
            Choice::Sending => self.sending()?,
            Choice::Message => self.message()?,
            Choice::Schedule => self.schedule(),
        };
        Some(self.emit(plan))
    }

    /// The code of a call. What must be found wrong with it is noted.
    fn emit(&mut self, plan: CallPlan) -> Code {
        let mut code = fresh(&self.stage);
        let guest = *self.stage.machine.guest(self.stage.machine.current);
        for (address, &word) in (guest.tx.base() as u32..).zip(&plan.tx) {
            let there = self.stage.memory[address as usize] == word;
            let given = !there && self.random.one_in(2) && self.stage.plan_word(address, word);
            let enough = given || there && self.random.one_in(2);
            if !enough {
                code.store(self.random, address, word);
            }
        }
        let received = guest.rx.base() as u32;
        match plan.r1 {
            Some(r1) if self.stage.memory[received as usize] == r1 => code.load(self.random, 1, received, r1),
            Some(r1) => code.set(self.random, 1, r1),
            None => {}
        }
        match plan.r2 {
            Some(r2) => code.set(self.random, 2, r2),
            None if self.random.one_in(2) => show(&self.stage, &mut code, self.random),
            None => {}
        }
        code.set(self.random, 0, plan.r0);
        code.push(Instruction::Hvc);
        self.stage.awaited = Some(plan.flaws(&self.stage.machine));
        code
    }

    /// A sending of as many pages as the program is to make, if the guest has them beside the one that it stands on.
    fn large_sending(&mut self) -> Option<CallPlan> {
        let machine = &self.stage.machine;
        let mut own = pages_standing(machine, machine.current, Standing::Own);
        own.retain(|&page| Some(page) != self.stage.home());
        let place = self.task.batches.iter().position(|&(_, count)| count <= own.len())?;
        let receiver = self.random.pick(&others(machine))?;
        let (call, count) = self.task.batches[place];
        self.random.shuffle(&mut own);
        own.truncate(count);
        own.sort();
        let plan = Sending::of(call, receiver, &own).plan().if_good(machine)?;
        self.batch = Some(self.task.batches.remove(place));
        Some(plan)
    }

    /// A wrong call that the program is to make, if one is possible now.
    fn aimed(&mut self) -> Option<CallPlan> {
        for place in 0..self.task.aims.len() {
            let aim = self.task.aims[place];
            if let Some(plan) = wrong_call(&self.stage.machine, aim, self.random) {
                self.aim = Some(self.task.aims.remove(place));
                return Some(plan);
            }
        }
        None
    }

    /// Any wrong call that is possible now, if a few attempts find one.
    fn wrong(&mut self) -> Option<CallPlan> {
        for _ in 0..8 {
            let aim = self.random.pick(&self.task.all_aims)?;
            if let Some(plan) = wrong_call(&self.stage.machine, aim, self.random) {
                return Some(plan);
            }
        }
        None
    }

    /// A good Retrieve, Relinquish or Reclaim that leaves the guest the page it stands on.
    fn handle(&mut self) -> Option<CallPlan> {
        let home = self.stage.home();
        let mut calls = [Call::Retrieve, Call::Retrieve, Call::Relinquish, Call::Reclaim];
        self.random.shuffle(&mut calls);
        for call in calls {
            // Transactions are to last a while, above all retrieved ones.
            let times = if call == Call::Retrieve { 1 } else { 2 };
            if !self.random.one_in(times) {
                continue;
            }
            let mut handles = good_handles(&self.stage.machine, call);
            if call == Call::Relinquish {
                let dealt = |handle: Handle| self.stage.machine.transaction(handle).dealt_pages();
                handles.retain(|&handle| !home.is_some_and(|page| dealt(handle).contains(&page)));
            }
            if let Some(handle) = self.random.pick(&handles) {
                return Some(CallPlan::with_handle(call, handle));
            }
        }
        None
    }

    /// A good Donate, Lend or Share: of one page only where transactions are to be many, and often of many if none is open.
    fn sending(&mut self) -> Option<CallPlan> {
        let machine = &self.stage.machine;
        let crowd = self.task.theme == Theme::Crowd;
        let none_open = machine
            .transactions
            .iter()
            .all(|transaction| transaction.deal.is_none());
        let mut own = pages_standing(machine, machine.current, Standing::Own);
        let many = !crowd && none_open && own.len() > 4 && !self.random.one_in(4);
        let few = [Call::Donate, Call::Lend, Call::Lend, Call::Share, Call::Share];
        let call = if many {
            self.random.choose(Call::SENDINGS)
        } else {
            self.random.choose(few)
        };
        if call != Call::Share || self.random.one_in(2) {
            own.retain(|&page| Some(page) != self.stage.home());
        }
        let receiver = self.random.pick(&others(machine))?;
        let pages = if own.is_empty() {
            return None;
        } else if many {
            self.random.shuffle(&mut own);
            own.truncate(self.random.between(4, 8) as usize);
            own.sort();
            own
        } else {
            let most = if crowd && !self.random.one_in(8) { 1 } else { 8 };
            some_pages(&own, most, self.random)
        };
        Sending::of(call, receiver, &pages).plan().if_good(machine)
    }

    /// A good Send, or Poll or Wait for a message that is there.
    fn message(&mut self) -> Option<CallPlan> {
        let machine = &self.stage.machine;
        if machine.guest(machine.current).inbox != Inbox::Empty && !self.random.one_in(3) {
            return Some(CallPlan::plain(self.random.choose([Call::Poll, Call::Wait])));
        }
        let receiver = self.random.pick(&empty_others(machine))?;
        let any = self.random.between(1, 1024);
        let length = self.random.choose([1, 1, 2, 2, 3, 16, 1023, 1024, any]);
        if self.stage.message_hits_code(receiver, length) && !self.random.one_in(40) {
            return None;
        }
        let words = self.message_words(receiver, length);
        CallPlan::send(u32::from(receiver.0), length, words).if_good(&self.stage.machine)
    }

    /// The first words of a message: a handle that the receiver can use, code that comes back by R7, or any.
    fn message_words(&mut self, receiver: VmId, length: u32) -> Vec<u32> {
        let machine = &self.stage.machine;
        let meant = |handle: &Handle| {
            let deal = machine.transaction(*handle).deal;
            deal.is_some_and(|deal| deal.receiver == receiver)
        };
        let handles: Vec<Handle> = handles().filter(meant).collect();
        match self.random.pick(&handles) {
            Some(Handle(number)) if !self.random.one_in(3) => vec![u32::from(number)],
            _ if length > 1 && self.random.one_in(2) => {
                let k = self.random.below(0x1_0000);
                vec![word_of(Instruction::Addi(2, k)), word_of(Instruction::Br(7))]
            }
            _ => vec![trial_word(self.random)],
        }
    }

    /// A call that passes control, or Yield by the primary.
    fn schedule(&mut self) -> CallPlan {
        let machine = &self.stage.machine;
        if machine.current != PRIMARY {
            return CallPlan::plain(self.random.choose([Call::Yield, Call::Yield, Call::Wait]));
        }
        let able = |vm: &VmId| may(machine, *vm, machine.guest(*vm).registers.pc, Use::Fetch);
        let able: Vec<VmId> = others(machine).into_iter().filter(able).collect();
        match self.random.pick(&able) {
            Some(vm) if !self.random.one_in(12) => CallPlan::with_r1(Call::Run, u32::from(vm.0)),
            _ => CallPlan::plain(Call::Yield),
        }
    }

    /// A loop, long or with calls by the theme.
    fn repeat(&mut self) -> Code {
        let rounds = match self.task.theme {
            Theme::ManyCalls => self.random.between(20, 200),
            _ => self.random.between(2, 5),
        };
        match self.task.theme {
            Theme::ManySteps => spin(&self.stage, 300, 3000, self.random),
            _ if self.stage.machine.current == PRIMARY => {
                let vm = self.random.between(1, u32::from(self.stage.machine.n) - 1);
                let call = self
                    .random
                    .choose([Call::Run, Call::Run, Call::Yield, Call::Poll, Call::Unknown]);
                call_loop(&self.stage, call, vm, rounds)
            }
            _ => {
                let call = self
                    .random
                    .choose([Call::Yield, Call::Yield, Call::Wait, Call::Poll, Call::Run]);
                call_loop(&self.stage, call, SUCCESS, rounds)
            }
        }
    }

    /// A jump to another area of code, if there is one.
    fn jump(&mut self) -> Option<Code> {
        let address = self.stage.find_area(self.stage.machine.current, AREA, self.random)?;
        let mut code = fresh(&self.stage);
        code.jump(self.random, address);
        Some(code)
    }

    /// Goes elsewhere, because there is no room for the act here; halts if there is none anywhere.
    fn move_on(&mut self) {
        let code = match self.jump() {
            Some(code) if code.words().len() as u32 <= self.stage.room() => code,
            _ => {
                let mut code = fresh(&self.stage);
                code.push(Instruction::Halt);
                code
            }
        };
        self.stage.write_code(code.words());
    }
}
