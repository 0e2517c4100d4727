//! Random runs on the model and the library at once: plans, calls that lean to full tables, states that no run reaches, pairs of steps.

use crate::calls::{self, Call};
use crate::comparison::Comparison;
use crate::engine::{self, Offer, Step, Taken};
use crate::generate::{self, Random};
use crate::lively;
use crate::order::{Faults, counted};
use crate::packed::{self, SIZE};
use crate::plan::{Kind, NO_SUCH_PARTNER, Plan, Sending, Tuple};
use crate::scramble;
use crate::state::{End, Message, REMEMBERED, State, Tally, WAITING, bare};

/// How often things were seen.
#[derive(Default)]
pub struct Seen {
    pub runs: u64,
    /// Calls on states that no run reaches.
    pub beyond: u64,
    pub refusals: [u64; 19],
    pub ends: [u64; 5],
    pub held_sends: u64,
    pub held_closes: u64,
    pub held_starts: u64,
    pub undone: u64,
    /// Undo parts started by a scope further out than the nearest, closings handed on, and closes that handed some on where 32 were remembered.
    pub through: u64,
    pub handed: u64,
    pub handed_full: u64,
    /// Receives and arms that raised because another was open for the same thing, and steps with several of them.
    pub conflicts: u64,
    pub many_conflicts: u64,
    /// Orders that ended handled, and failed, by the number of the fault.
    pub handled: Faults,
    pub failed: Faults,
    /// Faults out of a part of an inner scope, and faults that were absorbed, by their numbers.
    pub outward: Faults,
    pub absorbed: Faults,
    /// Fault parts by number that were begun, and general ones of scopes that have some.
    pub by_number: u64,
    pub general: u64,
    /// Steps of sends to a partner that a variable holds: sent, of an unbound variable, of a partner above 63, and of one while 64 messages wait; and held.
    pub answered: u64,
    pub answers_unbound: u64,
    pub no_such_partner: u64,
    pub no_such_partner_full: u64,
    pub held_answers: u64,
    /// Receives that stored whom to reply to, and those that stored another than 0.
    pub asked: u64,
    pub asked_by: u64,
    pub taken: u64,
    /// Scopes by their mark, in the order of each step taken in a run.
    pub scopes: [u64; 9],
    pub pairs: u64,
    /// Pairs of which each kind of step was one: set, choose, repeat, raise, leave, close.
    pub paired: [u64; 6],
}

/// How a run leans.
#[derive(Clone, Copy, PartialEq, Eq)]
enum Lean {
    Usual,
    /// To many waiting messages.
    Messages,
    /// To many live orders.
    Orders,
    /// To many steps.
    Long,
}

pub struct Wander {
    pub comparison: Comparison,
    pub random: Random,
    pub seen: Seen,
    bytes: Vec<u8>,
    plan: Plan,
    /// The receives and arms.
    received: Vec<Tuple>,
    lean: Lean,
}

impl Wander {
    pub fn new(comparison: Comparison, seed: u64) -> Wander {
        Wander {
            comparison,
            random: Random::new(seed),
            seen: Seen::default(),
            bytes: Vec::new(),
            plan: Plan::of(&[1, 1, 0, 2, 0, 0, 1, 0, 0]),
            received: Vec::new(),
            lean: Lean::Usual,
        }
    }

    /// One plan and about so many calls on it; then some on states that no run reaches.
    pub fn run(&mut self, calls: usize) {
        self.seen.runs += 1;
        self.comparison.reached = true;
        if self.random.percent(2) {
            self.without_plan();
        }
        self.lean = match self.random.below(100) {
            0..=7 => Lean::Messages,
            8..=15 => Lean::Orders,
            16..=25 => Lean::Long,
            _ => Lean::Usual,
        };
        self.load();
        let mut left = calls;
        if matches!(self.lean, Lean::Messages | Lean::Orders) {
            left += 30;
            for _ in 0..self.random.from_to(50, 70) {
                self.post();
            }
        }
        for _ in 0..left {
            self.any_call();
        }
        self.comparison.reached = false;
        for _ in 0..3 {
            self.unreached();
        }
    }

    fn load(&mut self) {
        let closes = self.lean == Lean::Long && self.random.percent(50);
        let bytes = lively::plan(&mut self.random, closes);
        self.plan = Plan::of(&bytes);
        self.received.clear();
        for activity in &self.plan.activities {
            if let Kind::Receive(tuple, _) | Kind::Arm(tuple) = activity.kind {
                self.received.push(tuple);
            }
        }
        self.bytes = bytes.clone();
        self.comparison.make(Call::Load(bytes));
    }

    /// A plan that may be refused, and calls on what it leaves.
    fn without_plan(&mut self) {
        let bytes = generate::mixed(&mut self.random);
        self.comparison.make(Call::Load(bytes));
        self.comparison.make(Call::Offers);
        for _ in 0..2 {
            self.step();
            self.post();
            self.collect();
            self.run_of_steps();
        }
    }

    fn any_call(&mut self) {
        // Steps, then posts, then runs of steps.
        let (step, post) = match self.lean {
            Lean::Orders => (75, 80),
            Lean::Long => (60, 62),
            _ => (55, 80),
        };
        match self.random.below(100) {
            at if at < step => self.step(),
            at if at < post => self.post(),
            at if at < 87 => self.run_of_steps(),
            at if at < 91 => self.collect(),
            91..=93 => {
                let choice = self.choice(&self.offered());
                let answer = self.comparison.make(Call::Offer(choice)).answer;
                self.refused(answer >> 32);
            }
            94..=96 => {
                let answer = self.comparison.make(Call::Offers).answer;
                self.refused(answer >> 40);
            }
            97 => self.odd(),
            98 => {
                let k = self.random.below(self.plan.count() + 3) as u32;
                let answer = self
                    .comparison
                    .make(Call::Show(self.bytes.clone(), k))
                    .answer;
                self.refused(answer >> 48);
            }
            _ => self.pair(),
        }
    }

    fn refused(&mut self, refusal: u64) {
        self.seen.refusals[refusal as usize] += 1;
    }

    /// The state on the desk, where it has the mark.
    fn state(&self) -> Option<(State, Tally)> {
        packed::unpack(self.comparison.desk.state())
    }

    fn offered(&self) -> Offer {
        let offer = self
            .state()
            .and_then(|(state, _)| engine::offers(&state).ok());
        offer.unwrap_or_default()
    }

    fn choice(&mut self, offer: &Offer) -> u64 {
        let many = offer.steps.len();
        if many == 0 || self.random.percent(4) {
            let beyond = [many as u64, many as u64 + 1, 1 << 32, u64::MAX, 1 << 63];
            return beyond[self.random.below(5)];
        }
        let mut choice = self.random.below(many);
        let old = offer.steps.iter().filter(|step| !step.starts).count();
        let first = self.lean != Lean::Orders || self.random.percent(40);
        if old > 0 && first && self.random.percent(60) {
            choice = self.random.below(old);
        } else if old < many && self.lean == Lean::Orders {
            choice = self.random.from_to(old, many - 1);
        }
        choice as u64
    }

    fn step(&mut self) {
        let offer = self.offered();
        self.seen.held_sends += u64::from(offer.held.sends > 0);
        self.seen.held_answers += u64::from(offer.held.sends_to_held > 0);
        self.seen.held_closes += u64::from(offer.held.closes > 0);
        self.seen.held_starts += u64::from(offer.held.starts > 0);
        if offer.steps.is_empty() && !offer.held.any() && self.random.percent(60) {
            return self.post();
        }
        let choice = self.choice(&offer);
        let before = self.state();
        let told = self.comparison.make(Call::Step(choice));
        self.refused(told.answer >> 32 & 0xFF);
        if let Some(taken) = told.taken {
            self.scopes(taken.step.slot);
            if let Some((state, _)) = before {
                self.replies(&taken, &state);
            }
            self.seen.taken += 1;
            self.seen.undone += taken.undone as u64;
            self.seen.through += taken.through as u64;
            self.seen.handed += taken.handed as u64;
            if taken.handed > 0 {
                let kept = self
                    .state()
                    .map(|(state, _)| state.orders[taken.step.slot].kept);
                self.seen.handed_full += u64::from(kept == Some(REMEMBERED as u64));
            }
            self.seen.conflicts += taken.conflicts as u64;
            self.seen.many_conflicts += u64::from(taken.conflicts > 1);
            self.seen.ends[taken.end.map_or(0, |end| end as usize)] += 1;
            let ended = match taken.end {
                Some(End::Handled) => Some(&mut self.seen.handled),
                Some(End::Failed) => Some(&mut self.seen.failed),
                _ => None,
            };
            if let (Some(by), Some(fault)) = (ended, taken.fault) {
                by[counted(fault)] += 1;
            }
            self.seen.by_number += taken.by_number as u64;
            self.seen.general += taken.general as u64;
            for number in 0..taken.outward.len() {
                self.seen.outward[number] += taken.outward[number];
                self.seen.absorbed[number] += taken.absorbed[number];
            }
        }
    }

    /// What a step did with whom to reply to, given the state before it.
    fn replies(&mut self, taken: &Taken, before: &State) {
        match self.plan.kind(taken.step.activity) {
            Kind::Receive(_, Some(_)) => {
                self.seen.asked += 1;
                let reply = before.messages[taken.step.place].reply;
                self.seen.asked_by += u64::from(reply > 0);
            }
            Kind::Send(Sending {
                held_in: Some(_), ..
            }) => match taken.unsent {
                None => self.seen.answered += 1,
                Some(NO_SUCH_PARTNER) => {
                    self.seen.no_such_partner += 1;
                    self.seen.no_such_partner_full += u64::from(before.waiting == WAITING as u64);
                }
                Some(_) => self.seen.answers_unbound += 1,
            },
            _ => {}
        }
    }

    fn scopes(&mut self, slot: usize) {
        let marks = packed::marks(self.comparison.desk.state(), slot);
        for (k, &mark) in marks.iter().enumerate() {
            if self.comparison.reached && self.plan.is_scope(k) {
                self.seen.scopes[usize::from(bare(mark))] += 1;
            }
        }
    }

    fn run_of_steps(&mut self) {
        let most = if self.lean == Lean::Long { 150 } else { 12 };
        let many = self.random.below(most);
        let high = self.random.from_to(1, 3);
        let choices = (0..many).map(|_| self.random.below(high) as u64).collect();
        let budget = match self.random.below(5) {
            0 => self.random.below(4) as u64,
            1 => u64::MAX,
            _ => self.random.below(most + 1) as u64,
        };
        let answer = self.comparison.make(Call::Run(budget, choices)).answer;
        self.refused(answer);
    }

    fn collect(&mut self) {
        let room = match self.random.below(20) {
            0 => self.random.below(packed::MESSAGE),
            1 => calls::MESSAGE,
            _ => packed::MESSAGE,
        };
        let answer = self.comparison.make(Call::Collect(room)).answer;
        self.refused(answer);
    }

    /// Posts a message, most often one that some receive of the plan may take.
    fn post(&mut self) {
        let mut message = Message::default();
        let outward = if self.lean == Lean::Messages { 30 } else { 10 };
        if self.received.is_empty() || self.random.percent(outward) {
            message.partner = self.random.from_to(0, 5) as u32;
            message.operation = self.random.from_to(0, 2) as u32;
            message.count = self.random.from_to(1, 4) as u32;
        } else {
            // A start receive stands early.
            let early = self.random.below(self.received.len()) + 1;
            let tuple = self.received[self.random.below(early)];
            message.partner = tuple.partner;
            message.operation = tuple.operation;
            message.count = tuple.count as u32;
        }
        let high = self.random.from_to(1, 4);
        for value in &mut message.values {
            *value = match self.random.below(40) {
                0 => u32::MAX,
                1 => self.random.value(),
                2..=4 => self.random.from_to(62, 65) as u32,
                _ => self.random.below(high) as u32,
            };
        }
        // Whom to reply to: most often one that is told apart by few values.
        message.reply = match self.random.below(4) {
            0 => 0,
            1 => self.random.below(64) as u32,
            _ => self.random.below(high + 1) as u32,
        };
        // Now and then against its rule.
        match self.random.below(60) {
            0 => message.partner = [64, 65, u32::MAX, 1 << 31][self.random.below(4)],
            1 => message.operation = [64, 65, u32::MAX, 256][self.random.below(4)],
            2 => message.count = [0, 5, 6, u32::MAX, 257][self.random.below(5)],
            3 => message.reply = [64, 65, u32::MAX, 1 << 16][self.random.below(4)],
            _ => {}
        }
        let answer = self.comparison.make(Call::Post(message)).answer;
        self.refused(answer);
    }

    /// A call with a state of another size.
    fn odd(&mut self) {
        let size = [0, 8, SIZE - 1, SIZE + 1, calls::STATE][self.random.below(5)];
        let call = match self.random.below(7) {
            0 => Call::Load(self.bytes.clone()),
            1 => Call::Post(Message::default()),
            2 => Call::Collect(packed::MESSAGE),
            3 => Call::Offer(0),
            4 => Call::Offers,
            5 => Call::Step(0),
            _ => Call::Run(3, vec![0, 0]),
        };
        self.comparison.make_sized(size, call);
    }

    /// Calls on a state that no run reaches, most of them within their limits.
    fn unreached(&mut self) {
        let Some((mut state, mut tally)) = self.state() else {
            return;
        };
        scramble::scramble(&mut self.random, &self.plan, &mut state, &mut tally);
        let mut bytes = Box::new([0; SIZE]);
        packed::pack(&state, &tally, &mut bytes[..]);
        if self.random.below(200) == 0 {
            let at = self.random.below(8);
            bytes[at] ^= 1 << self.random.below(8);
        }
        self.comparison.make(Call::Put(bytes));
        let before = self.comparison.calls;
        self.comparison.make(Call::Offers);
        for _ in 0..3 {
            if self.random.percent(70) {
                self.step();
            } else {
                self.any_call();
            }
        }
        self.pair();
        self.seen.beyond += self.comparison.calls - before;
    }

    /// Two offered steps of different orders that touch no message, taken in both orders, where there are two.
    pub fn pair(&mut self) {
        let Some((state, tally)) = self.state() else {
            return;
        };
        let offer = self.offered();
        let steps: Vec<&Step> = offer
            .steps
            .iter()
            .filter(|step| self.alone(step).is_some())
            .collect();
        if steps.is_empty() {
            return;
        }
        let one = *steps[self.random.below(steps.len())];
        let others: Vec<&&Step> = steps.iter().filter(|step| step.slot != one.slot).collect();
        if others.is_empty() {
            return;
        }
        let other = **others[self.random.below(others.len())];
        let mut bytes = Box::new([0; SIZE]);
        packed::pack(&state, &tally, &mut bytes[..]);
        self.comparison.make(Call::Put(bytes.clone()));
        let there = self.both(one, other);
        self.comparison.make(Call::Put(bytes));
        let back = self.both(other, one);
        assert!(there == back, "{one:?} and {other:?} differ by their order");
        self.seen.pairs += 1;
        for step in [one, other] {
            if let Some(kind) = self.alone(&step) {
                self.seen.paired[kind] += 1;
            }
        }
    }

    /// Takes one step and then the other, which must still be offered. Answers the packed state.
    fn both(&mut self, first: Step, second: Step) -> Vec<u8> {
        for step in [first, second] {
            let choice = self.offered().steps.iter().position(|each| *each == step);
            let choice = choice.expect("the second step is still offered after the first");
            self.comparison.make(Call::Step(choice as u64));
        }
        self.comparison.desk.state().to_vec()
    }

    /// Which kind of step it is, of those that touch no message.
    fn alone(&self, step: &Step) -> Option<usize> {
        match self.plan.kind(step.activity) {
            Kind::Set(..) => Some(0),
            Kind::Choose(_) => Some(1),
            Kind::Repeat(_) => Some(2),
            Kind::Raise(_) => Some(3),
            Kind::Leave => Some(4),
            Kind::Scope(_) => Some(5),
            _ => None,
        }
    }
}
