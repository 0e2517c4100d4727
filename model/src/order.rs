//! How one order runs: what begins, goes on, closes, faults, stops and is undone within a step.
//!
//! On states that no run reaches document 01 leaves some answers open. There the model was made to answer as the proved engine does:
//! - a scope that waits for inner scopes looks again after each step within its body, but not where an undo part that it doesn't run ends or raises;
//!   what comes of an undo part passes scopes around it that have none and are idle, and the next one is asked whether it runs it;
//! - a closing that is remembered for a scope which cannot have it is taken off its list like any other, and nothing begins;
//! - inner scopes that it waits for are those directly within it; a body that stops leaves what stands in an idle scope as it is;
//! - a raise in an undo or fault part that no scope runs does nothing more;
//! - a flow is over where every mark within it is idle; an empty that is over at once keeps its mark;
//! - a list that is looked through for what to forget is 0 beyond its end.

use crate::plan::{Fault, Kind, Part, Plan, Scope};
use crate::state::*;

/// How many faults there were by their numbers: 0 to 5, and 16 to 255 together.
pub type Faults = [u64; 7];

/// Where a fault of this number is counted.
pub fn counted(number: Fault) -> usize {
    usize::from(number.min(6))
}

/// An order while a step changes it.
pub struct Running<'a> {
    pub plan: &'a Plan,
    pub order: &'a mut Order,
    pub end: Option<End>,
    /// The number of the fault that the root handled, or that went out of it, where the order ended so.
    pub fault: Option<Fault>,
    /// How many faults went out of a part of an inner scope, and how many were absorbed.
    pub outward: Faults,
    pub absorbed: Faults,
    /// How many fault parts by number were begun, and how many general ones of scopes that have some.
    pub by_number: usize,
    pub general: usize,
    /// How many undo parts were started.
    pub undone: usize,
    /// How many of these by a scope further out than the nearest.
    pub through: usize,
    /// How many closings were handed on.
    pub handed: usize,
    /// The scope whose undo part ended or raised while no scope ran it, and the one that was asked.
    unheard: Option<(usize, Scope)>,
}

impl Running<'_> {
    pub fn new<'a>(plan: &'a Plan, order: &'a mut Order) -> Running<'a> {
        Running {
            plan,
            order,
            end: None,
            fault: None,
            outward: [0; 7],
            absorbed: [0; 7],
            by_number: 0,
            general: 0,
            undone: 0,
            through: 0,
            handed: 0,
            unheard: None,
        }
    }

    fn mark(&self, scope: Scope) -> u8 {
        scope.map_or(self.order.root, |s| self.order.marks[s])
    }

    fn set_mark(&mut self, scope: Scope, mark: u8) {
        match scope {
            None => self.order.root = mark,
            Some(s) => self.order.marks[s] = mark,
        }
    }

    /// Another mark, with the fault part that the scope chose as it was.
    fn go_to(&mut self, scope: Scope, mark: u8) {
        self.set_mark(scope, self.mark(scope) & 0xF0 | mark);
    }

    /// Begins an activity. Answers whether it is over at once.
    pub fn begin(&mut self, k: usize) -> bool {
        let plan = self.plan;
        match plan.kind(k) {
            Kind::Empty => true,
            Kind::Sequence => {
                self.order.marks[k] = ACTIVE;
                self.begin_in_turn(k, plan.within(k))
            }
            Kind::Flow => {
                self.order.marks[k] = ACTIVE;
                let mut over = true;
                for each in plan.within(k) {
                    over &= self.begin(each);
                }
                if over {
                    self.order.marks[k] = IDLE;
                }
                over
            }
            Kind::Scope(_) => {
                self.order.marks[k] = ACTIVE;
                if self.begin(plan.body(Some(k))) {
                    self.order.marks[k] = DONE;
                }
                false
            }
            _ => {
                self.order.marks[k] = ACTIVE;
                false
            }
        }
    }

    /// Begins these of sequence k, each where the one before is over at once.
    fn begin_in_turn(&mut self, k: usize, mut these: impl Iterator<Item = usize>) -> bool {
        let over = these.all(|each| self.begin(each));
        if over {
            self.order.marks[k] = IDLE;
        }
        over
    }

    /// Activity k is over: what stands around it goes on, where it isn't stopped.
    pub fn over(&mut self, k: usize) {
        self.order.marks[k] = IDLE;
        self.go_on(k);
    }

    fn go_on(&mut self, k: usize) {
        match self.plan.activities[k].part {
            Part::Within(around) => self.over_within(k, around),
            Part::Body(None) if self.order.root == ACTIVE => self.end = Some(End::Well),
            Part::Body(Some(s)) if self.order.marks[s] == ACTIVE => self.order.marks[s] = DONE,
            Part::Fault(scope) if bare(self.mark(scope)) == HANDLING => self.finish(scope),
            Part::Undo(s) => match self.runner(s) {
                Ok(scope) => self.undo_on(scope),
                Err(asked) => self.unheard = Some((s, asked)),
            },
            _ => {}
        }
    }

    fn over_within(&mut self, k: usize, around: usize) {
        let plan = self.plan;
        let mark = self.order.marks[around];
        match plan.kind(around) {
            Kind::Sequence if mark == ACTIVE => {
                let rest = plan.within(around).skip_while(|&each| each <= k);
                if self.begin_in_turn(around, rest) {
                    self.over(around);
                }
            }
            Kind::Flow if mark == ACTIVE => {
                let within = &self.order.marks[around + 1..plan.end(around)];
                if within.iter().all(|&mark| mark == IDLE) {
                    self.over(around);
                }
            }
            Kind::Choose(_) if mark == INSIDE => self.over(around),
            // It decides anew.
            Kind::Repeat(_) if mark == INSIDE => self.order.marks[around] = ACTIVE,
            Kind::Arm(_) => {
                if let Part::Within(pick) = plan.activities[around].part
                    && self.order.marks[pick] == INSIDE
                {
                    self.over(pick);
                }
            }
            _ => {}
        }
    }

    /// A receive or an arm was taken.
    pub fn taken(&mut self, k: usize) {
        match (self.plan.kind(k), self.plan.activities[k].part) {
            (Kind::Arm(_), Part::Within(pick)) => self.go_inside(pick, k + 1),
            _ => self.over(k),
        }
    }

    /// After a step of k: scopes in whose bodies it stands, and which wait for inner scopes, look again.
    pub fn settle_around(&mut self, k: usize) {
        let mut at = k;
        while self.end.is_none() {
            let scope = match self.plan.activities[at].part {
                Part::Within(around) => {
                    at = around;
                    continue;
                }
                Part::Body(scope) => {
                    self.settle(scope);
                    scope
                }
                Part::Fault(scope) => scope,
                Part::Undo(s) => match self.unheard {
                    Some((undo, asked)) if undo == s => asked,
                    _ => Some(s),
                },
            };
            match scope {
                None => return,
                Some(s) => at = s,
            }
        }
    }

    fn go_inside(&mut self, k: usize, inside: usize) {
        self.order.marks[k] = INSIDE;
        if self.begin(inside) {
            self.go_on(inside);
        }
    }

    /// The step of a set, choose, repeat, raise, leave or scope.
    pub fn act(&mut self, k: usize) {
        let plan = self.plan;
        match plan.kind(k) {
            Kind::Set(variable, place) => match self.value(place) {
                Ok(value) => {
                    self.order.bind(variable, value);
                    self.over(k);
                }
                Err(fault) => self.raise(k, fault),
            },
            Kind::Choose(place) => match self.value(place) {
                Ok(0) => self.go_inside(k, plan.end(k + 1)),
                Ok(_) => self.go_inside(k, k + 1),
                Err(fault) => self.raise(k, fault),
            },
            Kind::Repeat(place) => match self.value(place) {
                Ok(0) => self.over(k),
                Ok(_) => {
                    self.order.marks[k + 1..plan.end(k)].fill(IDLE);
                    self.go_inside(k, k + 1);
                }
                Err(fault) => self.raise(k, fault),
            },
            Kind::Leave => self.end = Some(End::Left),
            Kind::Scope(_) => self.close(k),
            Kind::Raise(number) => self.raise(k, number),
            _ => {}
        }
    }

    fn value(&self, place: usize) -> Result<u32, Fault> {
        self.plan
            .value(place, &|variable| self.order.variable(variable))
    }

    /// A scope with an undo part joins the list of the one around it; one with none hands on its own list.
    fn close(&mut self, k: usize) {
        let around = self.plan.activities[k].around;
        let kept = &self.order.remembered[..self.order.kept as usize];
        let scopes: Vec<u8> = if self.plan.has_undo(k) {
            vec![k as u8]
        } else {
            let own = kept.iter().filter(|each| is_for(self.plan, each, Some(k)));
            own.map(|each| each.scope).collect()
        };
        if !self.plan.has_undo(k) {
            self.handed = scopes.len();
        }
        self.forget(Some(k));
        let part = self.plan.body(around) as u8;
        for scope in scopes {
            self.order.remembered[self.order.kept as usize] = Closing { scope, part };
            self.order.kept += 1;
        }
        self.over(k);
        self.settle(around);
    }

    /// The scope that runs the undo part of s, or the one that might and does not: the nearest around it, where those that have handed on don't count.
    fn runner(&self, s: usize) -> Result<Scope, Scope> {
        let mut scope = self.plan.activities[s].around;
        while let Some(around) = scope
            && self.order.marks[around] == IDLE
            && !self.plan.has_undo(around)
        {
            scope = self.plan.activities[around].around;
        }
        match bare(self.mark(scope)) {
            UNDOING | STOPPED_UNDOING => Ok(scope),
            _ => Err(scope),
        }
    }

    /// A raise at k. What goes out of a part has its number.
    pub fn raise(&mut self, k: usize, number: Fault) {
        self.order.marks[k] = IDLE;
        let mut at = k;
        loop {
            match self.plan.activities[at].part {
                Part::Within(around) => at = around,
                Part::Body(scope) => return self.fault(scope, number),
                Part::Fault(scope) => {
                    if bare(self.mark(scope)) == HANDLING {
                        self.break_off(scope, number);
                    }
                    return;
                }
                Part::Undo(s) => {
                    return match self.runner(s) {
                        Ok(scope) => self.break_off(scope, number),
                        Err(asked) => self.unheard = Some((s, asked)),
                    };
                }
            }
        }
    }

    /// A raise in place of a receive or an arm, which is over with it: an arm with its pick.
    pub fn raise_in_place(&mut self, k: usize, number: Fault) {
        if let (Kind::Arm(_), Part::Within(pick)) =
            (self.plan.kind(k), self.plan.activities[k].part)
        {
            self.order.marks[pick] = INSIDE;
        }
        self.raise(k, number);
    }

    /// A fault reaches a scope. One already stopped or faulted absorbs it, and may have waited for what just ended.
    fn fault(&mut self, scope: Scope, number: Fault) {
        if matches!(self.mark(scope), ACTIVE | DONE) {
            self.stop(self.plan.body(scope));
            let choice = self.plan.choice(scope, number) as u8;
            self.set_mark(scope, choice << 4 | FAULTED);
            if scope.is_none() {
                self.order.cause = number;
            }
        } else {
            self.absorbed[counted(number)] += 1;
        }
        self.settle(scope);
    }

    /// A raise in an undo or fault part that the scope runs.
    fn break_off(&mut self, scope: Scope, number: Fault) {
        match scope {
            None => {
                self.end = Some(End::Failed);
                self.fault = Some(number);
            }
            Some(s) => {
                self.outward[counted(number)] += 1;
                self.order.marks[s..self.plan.end(s)].fill(IDLE);
                self.forget(scope);
                self.fault(self.plan.activities[s].around, number);
            }
        }
    }

    /// Stops an activity of a body. An inner scope that faulted or was stopped before is left to finish.
    fn stop(&mut self, k: usize) {
        let plan = self.plan;
        match (plan.kind(k), self.order.marks[k]) {
            (Kind::Scope(_), IDLE | INSIDE | FAULTED..) => {}
            // Begun and not yet closed: it turns to undoing, without a fault part.
            (Kind::Scope(_), ACTIVE | DONE) => {
                self.stop(plan.body(Some(k)));
                self.order.marks[k] = STOPPED;
                if !self.inner_runs(Some(k)) {
                    self.order.marks[k] = STOPPED_UNDOING;
                    if self.undo(Some(k)) {
                        self.order.marks[k] = IDLE;
                    }
                }
            }
            _ => {
                self.order.marks[k] = IDLE;
                for each in plan.within(k) {
                    self.stop(each);
                }
            }
        }
    }

    /// Whether one of the scopes directly within a scope runs.
    fn inner_runs(&self, scope: Scope) -> bool {
        let plan = self.plan;
        (plan.body(scope)..plan.body_end(scope)).any(|k| {
            plan.is_scope(k) && plan.activities[k].around == scope && self.order.marks[k] != IDLE
        })
    }

    /// A scope that waits for inner scopes undoes, once none of them runs.
    fn settle(&mut self, scope: Scope) {
        let next = match bare(self.mark(scope)) {
            FAULTED => UNDOING,
            STOPPED => STOPPED_UNDOING,
            _ => return,
        };
        if self.end.is_none() && !self.inner_runs(scope) {
            self.go_to(scope, next);
            self.undo_on(scope);
        }
    }

    /// Starts undo parts up to the first that isn't over at once. Answers whether the list came to its end.
    fn undo(&mut self, scope: Scope) -> bool {
        while let Some(closed) = self.remove_last(scope) {
            if !self.plan.may_undo(scope, closed) {
                continue;
            }
            self.undone += 1;
            self.through += usize::from(self.plan.activities[closed].around != scope);
            if !self.begin(self.plan.undo(closed)) {
                return false;
            }
        }
        true
    }

    fn undo_on(&mut self, scope: Scope) {
        if !self.undo(scope) {
            return;
        }
        if bare(self.mark(scope)) == UNDOING {
            self.go_to(scope, HANDLING);
            let choice = choice(self.mark(scope));
            let numbers = self.plan.numbers(scope).len();
            self.by_number += usize::from((1..=numbers).contains(&choice));
            self.general += usize::from(!(1..=numbers).contains(&choice) && numbers > 0);
            if !self.begin(self.plan.fault(scope, choice)) {
                return;
            }
        }
        self.finish(scope);
    }

    /// A scope that faulted or was stopped is done. It is not remembered.
    fn finish(&mut self, scope: Scope) {
        match scope {
            None => {
                self.end = Some(End::Handled);
                self.fault = Some(self.order.cause);
            }
            Some(s) => {
                self.over(s);
                self.settle(self.plan.activities[s].around);
            }
        }
    }

    fn forget(&mut self, scope: Scope) {
        for at in (0..self.order.kept as usize).rev() {
            if is_for(self.plan, &self.order.remembered[at], scope) {
                self.remove(at);
            }
        }
        self.order.remembered[self.order.kept as usize..].fill(NO_CLOSING);
    }

    fn remove_last(&mut self, scope: Scope) -> Option<usize> {
        let kept = &self.order.remembered[..self.order.kept as usize];
        let at = kept
            .iter()
            .rposition(|each| is_for(self.plan, each, scope))?;
        let closed = usize::from(kept[at].scope);
        self.remove(at);
        Some(closed)
    }

    /// Removes from the list; what is beyond it holds 0.
    fn remove(&mut self, at: usize) {
        let order = &mut *self.order;
        order.remembered.copy_within(at + 1.., at);
        order.kept -= 1;
        order.remembered[order.kept as usize..].fill(NO_CLOSING);
    }
}

/// Whether a closing is remembered for this scope.
fn is_for(plan: &Plan, closing: &Closing, scope: Scope) -> bool {
    usize::from(closing.part) == plan.body(scope)
}

/// How many are remembered once scope k, which has an undo part, has closed.
pub fn kept_after_close(plan: &Plan, order: &Order, k: usize) -> usize {
    let kept = &order.remembered[..order.kept as usize];
    1 + kept
        .iter()
        .filter(|each| !is_for(plan, each, Some(k)))
        .count()
}
