//! The calls of the engine on a state: load, post, collect, offer, offers, step and run, written from documents 01 and 02 alone.

use crate::order::{Faults, Running, kept_after_close};
use crate::plan::{CONFLICT, Fault, Kind, NO_SUCH_PARTNER, Part, Plan, Sending, Tuple, UNBOUND};
use crate::reader::{self, Refusal};
use crate::state::*;

/// A step that is offered; a start has the lowest free slot.
#[derive(Clone, Copy, Debug, PartialEq, Eq)]
pub struct Step {
    pub slot: usize,
    pub activity: usize,
    /// Which message it takes; 0 where none.
    pub place: usize,
    pub starts: bool,
}

/// A step that was taken, how it ended its order if it did, and what it did there.
#[derive(Clone, Copy, Debug, PartialEq, Eq)]
pub struct Taken {
    pub step: Step,
    pub end: Option<End>,
    /// The number of the fault that the root handled, or that went out of it, where the order ended so.
    pub fault: Option<Fault>,
    /// How many faults went out of a part of an inner scope, and how many were absorbed.
    pub outward: Faults,
    pub absorbed: Faults,
    /// How many fault parts by number it began, and how many general ones of scopes that have some.
    pub by_number: usize,
    pub general: usize,
    /// How many undo parts it started, how many of them for a scope further out than the nearest, and how many closings it handed on.
    pub undone: usize,
    pub through: usize,
    pub handed: usize,
    /// How many receives or arms raised because another was open for the same thing.
    pub conflicts: usize,
    /// The fault that its send acted as.
    pub unsent: Option<Fault>,
}

/// All that is offered, in order, and what is held.
#[derive(Clone, Debug, Default, PartialEq, Eq)]
pub struct Offer {
    pub steps: Vec<Step>,
    pub held: Held,
}

/// How many sends, closes and starts are held.
#[derive(Clone, Copy, Debug, Default, PartialEq, Eq)]
pub struct Held {
    pub sends: usize,
    /// Of these, to a partner that a variable holds.
    pub sends_to_held: usize,
    pub closes: usize,
    pub starts: usize,
}

impl Held {
    pub fn any(&self) -> bool {
        self.sends + self.closes + self.starts > 0
    }
}

/// A fresh state of the plan.
pub fn load(bytes: &[u8]) -> Result<State, Refusal> {
    reader::read(bytes)?;
    let mut state = State::without_plan();
    state.length = bytes.len() as u64;
    state.plan[..bytes.len()].copy_from_slice(bytes);
    Ok(state)
}

pub fn post(state: &mut State, message: Message) -> Result<(), u32> {
    state.passes().ok_or(17u32)?;
    if !message.in_rule() {
        return Err(13);
    }
    if state.waiting == WAITING as u64 {
        return Err(14);
    }
    state.add(message.cut());
    Ok(())
}

pub fn collect(state: &mut State) -> Result<Message, u32> {
    let plan = state.passes().ok_or(17u32)?;
    let outward = |message: &Message| !plan.partners[message.partner as usize];
    let place = state.waiting().iter().position(outward).ok_or(15u32)?;
    Ok(state.remove(place))
}

pub fn offers(state: &State) -> Result<Offer, u32> {
    Ok(offered(&state.passes().ok_or(17u32)?, state))
}

/// The step that this choice would take.
pub fn offer(state: &State, choice: u64) -> Result<Step, u32> {
    chosen(&state.passes().ok_or(17u32)?, state, choice)
}

pub fn step(state: &mut State, choice: u64, tally: &mut Tally) -> Result<Taken, u32> {
    let plan = state.passes().ok_or(17u32)?;
    let step = chosen(&plan, state, choice)?;
    Ok(take(&plan, state, step, tally))
}

/// Takes steps up to the end of the choices or of the budget, or to the first refusal. Answers how many, and that refusal.
pub fn run(state: &mut State, choices: &[u64], budget: &mut u64, tally: &mut Tally) -> (u64, u32) {
    if state.passes().is_none() {
        return (0, 17);
    }
    let mut taken = 0;
    for &choice in choices {
        if *budget == 0 {
            break;
        }
        if let Err(refusal) = step(state, choice, tally) {
            return (taken, refusal);
        }
        *budget -= 1;
        taken += 1;
    }
    (taken, 0)
}

fn chosen(plan: &Plan, state: &State, choice: u64) -> Result<Step, u32> {
    let offer = offered(plan, state);
    if offer.steps.is_empty() {
        return Err(if offer.held.any() { 11 } else { 10 });
    }
    let choice = usize::try_from(choice).unwrap_or(usize::MAX);
    offer.steps.get(choice).copied().ok_or(12)
}

/// The tuple of a receive or arm that is open in an order.
fn open(plan: &Plan, order: &Order, k: usize) -> Option<Tuple> {
    let (tuple, awaits) = match (plan.kind(k), plan.activities[k].part) {
        (Kind::Receive(tuple, _), _) => (tuple, k),
        (Kind::Arm(tuple), Part::Within(pick)) => (tuple, pick),
        _ => return None,
    };
    (order.marks[awaits] == ACTIVE).then_some(tuple)
}

/// How many places are unchecked, where the message fits.
fn fits(plan: &Plan, order: &Order, tuple: &Tuple, message: &Message) -> Option<usize> {
    let alike = (tuple.partner, tuple.operation, tuple.count as u32)
        == (message.partner, message.operation, message.count);
    if !alike {
        return None;
    }
    let mut unchecked = 0;
    for (&variable, &value) in tuple.variables().iter().zip(&message.values) {
        match order.variable(variable) {
            Some(held) if plan.correlation[variable] => {
                if held != value {
                    return None;
                }
            }
            _ => unchecked += 1,
        }
    }
    Some(unchecked)
}

/// A new order as it begins, before its start receive takes the message.
fn fresh(plan: &Plan) -> Order {
    let mut order = NO_ORDER;
    order.root = ACTIVE;
    Running::new(plan, &mut order).begin(plan.body(None));
    order
}

fn offered(plan: &Plan, state: &State) -> Offer {
    let mut offer = Offer::default();
    let messages = state.waiting();
    let live = || {
        state
            .orders
            .iter()
            .enumerate()
            .filter(|(_, order)| order.live())
    };

    // For each message the fewest unchecked places, over all open receives that it fits.
    let mut fewest = [None; WAITING];
    for (_, order) in live() {
        for k in 0..plan.count() {
            let Some(tuple) = open(plan, order, k) else {
                continue;
            };
            for (place, message) in messages.iter().enumerate() {
                if let Some(unchecked) = fits(plan, order, &tuple, message)
                    && fewest[place].is_none_or(|least| unchecked < least)
                {
                    fewest[place] = Some(unchecked);
                }
            }
        }
    }

    for (slot, order) in live() {
        let eager = |k: usize| {
            matches!(plan.kind(k), Kind::Raise(_) | Kind::Leave) && order.marks[k] == ACTIVE
        };
        let hurries = (0..plan.count()).any(eager);
        for k in 0..plan.count() {
            if hurries && !eager(k) {
                continue;
            }
            if let Some(tuple) = open(plan, order, k) {
                for (place, message) in messages.iter().enumerate() {
                    let unchecked = fits(plan, order, &tuple, message);
                    if unchecked.is_some() && unchecked == fewest[place] {
                        offer.steps.push(Step {
                            slot,
                            activity: k,
                            place,
                            starts: false,
                        });
                    }
                }
            } else if acts(plan, state, order, k, &mut offer.held) {
                offer.steps.push(Step {
                    slot,
                    activity: k,
                    place: 0,
                    starts: false,
                });
            }
        }
    }
    starts(plan, state, &fewest, &mut offer);
    offer
}

/// Whether an activity that takes no message has its step on offer; or it is held.
fn acts(plan: &Plan, state: &State, order: &Order, k: usize, held: &mut Held) -> bool {
    let mark = order.marks[k];
    match plan.kind(k) {
        Kind::Send(sending) if mark == ACTIVE => {
            let full = state.waiting == WAITING as u64 && sent(order, &sending).is_ok();
            held.sends += usize::from(full);
            held.sends_to_held += usize::from(full && sending.held_in.is_some());
            !full
        }
        Kind::Scope(handlers) if mark == DONE => {
            let full = handlers.undo && kept_after_close(plan, order, k) > REMEMBERED;
            held.closes += usize::from(full);
            !full
        }
        Kind::Set(..) | Kind::Choose(_) | Kind::Repeat(_) | Kind::Raise(_) | Kind::Leave => {
            mark == ACTIVE
        }
        _ => false,
    }
}

/// The starts: of messages that fit no open receive.
fn starts(plan: &Plan, state: &State, fewest: &[Option<usize>], offer: &mut Offer) {
    let order = fresh(plan);
    let free = state.free_slot();
    for (place, message) in state.waiting().iter().enumerate() {
        if fewest[place].is_some() {
            continue;
        }
        for k in 0..plan.body_end(None) {
            let fit = open(plan, &order, k).and_then(|tuple| fits(plan, &order, &tuple, message));
            match (fit, free) {
                (Some(_), Some(slot)) => offer.steps.push(Step {
                    slot,
                    activity: k,
                    place,
                    starts: true,
                }),
                (Some(_), None) => offer.held.starts += 1,
                (None, _) => {}
            }
        }
    }
}

/// Takes a step that is offered.
fn take(plan: &Plan, state: &mut State, step: Step, tally: &mut Tally) -> Taken {
    let k = step.activity;
    if step.starts {
        state.orders[step.slot] = fresh(plan);
        tally.started();
    }
    // What the step does to the table of messages.
    let mut message = Message::default();
    let mut unsent = None;
    match plan.kind(k) {
        Kind::Receive(..) | Kind::Arm(_) => message = state.remove(step.place),
        Kind::Send(sending) => match sent(&state.orders[step.slot], &sending) {
            Ok(message) => state.add(message),
            Err(fault) => unsent = Some(fault),
        },
        _ => {}
    }
    // And to its order.
    let order = &mut state.orders[step.slot];
    let mut running = Running::new(plan, order);
    match plan.kind(k) {
        Kind::Receive(tuple, _) | Kind::Arm(tuple) => {
            for (&variable, &value) in tuple.variables().iter().zip(&message.values) {
                running.order.bind(variable, value);
            }
            if let Kind::Receive(_, Some(variable)) = plan.kind(k) {
                running.order.bind(variable, message.reply);
            }
            running.taken(k);
        }
        Kind::Send(_) => match unsent {
            Some(fault) => running.raise(k, fault),
            None => running.over(k),
        },
        _ => running.act(k),
    }
    running.settle_around(k);
    let Running {
        mut end,
        mut fault,
        mut outward,
        mut absorbed,
        mut by_number,
        mut general,
        mut undone,
        mut through,
        handed,
        ..
    } = running;
    // And what is open then is judged.
    let mut conflicts = 0;
    while end.is_none()
        && let Some(higher) = conflict(plan, order)
    {
        let mut running = Running::new(plan, order);
        running.raise_in_place(higher, CONFLICT);
        running.settle_around(higher);
        end = running.end;
        fault = running.fault;
        for number in 0..outward.len() {
            outward[number] += running.outward[number];
            absorbed[number] += running.absorbed[number];
        }
        by_number += running.by_number;
        general += running.general;
        undone += running.undone;
        through += running.through;
        conflicts += 1;
    }
    if let Some(end) = end {
        *order = NO_ORDER;
        tally.ended(end);
    }
    Taken {
        step,
        end,
        fault,
        outward,
        absorbed,
        by_number,
        general,
        undone,
        through,
        handed,
        conflicts,
        unsent,
    }
}

/// Of the receives and arms that are open, the first that is for the same thing as one before it.
fn conflict(plan: &Plan, order: &Order) -> Option<usize> {
    let mut things = Vec::new();
    (0..plan.count()).find(|&k| {
        open(plan, order, k).is_some_and(|thing| {
            let known = things.contains(&thing);
            things.push(thing);
            known
        })
    })
}

/// The message that a send adds, or the fault that it acts as: that of any unbound variable first.
fn sent(order: &Order, sending: &Sending) -> Result<Message, Fault> {
    let held = |variable| order.variable(variable).ok_or(UNBOUND);
    let tuple = &sending.tuple;
    let mut message = Message {
        partner: sending.held_in.map_or(Ok(tuple.partner), held)?,
        operation: tuple.operation,
        count: tuple.count as u32,
        values: [0; 4],
        reply: sending.reply,
    };
    for (place, &variable) in tuple.variables().iter().enumerate() {
        message.values[place] = held(variable)?;
    }
    if message.partner > 63 {
        return Err(NO_SUCH_PARTNER);
    }
    Ok(message)
}
