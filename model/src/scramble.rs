//! States that no run reaches: a state with marks, variables, lists and messages changed at random, within their limits or beyond.

use crate::generate::Random;
use crate::plan::{Fault, Plan};
use crate::state::*;

/// Changes a state that a run reached. The plan is its own.
pub fn scramble(random: &mut Random, plan: &Plan, state: &mut State, tally: &mut Tally) {
    match random.below(10) {
        // A few numbers of orders as they stand.
        0..=3 => {
            for _ in 0..random.from_to(1, 4) {
                let slot = some_slot(random, state);
                touch(random, plan, &mut state.orders[slot]);
            }
        }
        // Some orders wholly, in a state that may be full.
        4..=8 => {
            let many = [1, 2, 2, 3, 16][random.below(5)];
            let density = [5, 20, 60][random.below(3)];
            for slot in 0..many {
                wild(random, plan, &mut state.orders[slot], density);
            }
        }
        _ => {}
    }
    if random.percent(25) {
        for _ in 0..random.from_to(1, 64) {
            if state.waiting < WAITING as u64 {
                state.add(message(random, plan));
            }
        }
    }
    if random.percent(5) {
        for count in &mut tally.0 {
            *count = u32::MAX - random.below(2) as u32;
        }
    }
    // What no rule reads.
    if random.percent(5) {
        let place = random.below(WAITING);
        if place as u64 >= state.waiting {
            state.messages[place].operation = random.value();
        }
        let order = &mut state.orders[random.below(ORDERS)];
        order.remembered[31].scope = random.byte();
        order.remembered[31].part = random.byte();
        order.values[random.below(16)] = random.value();
    }
    if random.percent(12) {
        beyond(random, state);
    }
}

fn some_slot(random: &mut Random, state: &State) -> usize {
    let live: Vec<usize> = (0..ORDERS)
        .filter(|&slot| state.orders[slot].live())
        .collect();
    if live.is_empty() || random.percent(10) {
        random.below(ORDERS)
    } else {
        live[random.below(live.len())]
    }
}

fn root(random: &mut Random) -> u8 {
    let mark = [ACTIVE, ACTIVE, FAULTED, UNDOING, HANDLING][random.below(5)];
    if mark == ACTIVE {
        return mark;
    }
    // With a choice, which the root has for what it says of the fault.
    [0, 1, 8, 9, 14, 15][random.below(6)] << 4 | mark
}

fn fault(random: &mut Random) -> Fault {
    match random.below(4) {
        0 => random.from_to(16, 255) as Fault,
        1 => [16, 255][random.below(2)],
        _ => random.below(6) as Fault,
    }
}

/// What a variable holds: most often a small number, now and then about the highest partner.
fn some_value(random: &mut Random) -> u32 {
    match random.below(8) {
        0 => random.from_to(62, 65) as u32,
        _ => random.below(4) as u32,
    }
}

fn mark(random: &mut Random, plan: &Plan, k: usize) -> u8 {
    if plan.is_scope(k) || random.percent(20) {
        let mark = random.below(9) as u8;
        // With a choice that the scope may not have.
        let most = match mark {
            FAULTED | UNDOING | HANDLING => [0, plan.numbers(Some(k)).len(), 15][random.below(3)],
            _ => 0,
        };
        (random.from_to(0, most) as u8) << 4 | mark
    } else {
        [IDLE, ACTIVE, ACTIVE, INSIDE][random.below(4)]
    }
}

/// One number of an order changed, within its limit.
fn touch(random: &mut Random, plan: &Plan, order: &mut Order) {
    match random.below(13) {
        0 => order.root = root(random),
        12 => order.cause = fault(random),
        1 => {
            let variable = random.below(16);
            order.bound[variable] ^= 1;
            order.values[variable] = some_value(random);
        }
        2 | 3 => remember(random, plan, order),
        _ => {
            let k = if random.percent(5) {
                random.below(MARKS)
            } else {
                random.below(plan.count())
            };
            order.marks[k] = mark(random, plan, k);
        }
    }
}

/// An order of which nothing need fit the rest.
fn wild(random: &mut Random, plan: &Plan, order: &mut Order, density: usize) {
    order.root = root(random);
    order.cause = fault(random);
    for k in 0..plan.count() {
        order.marks[k] = IDLE;
        if random.percent(density) {
            order.marks[k] = mark(random, plan, k);
        }
    }
    for variable in 0..16 {
        order.bound[variable] = u8::from(random.percent(70));
        order.values[variable] = some_value(random);
    }
    remember(random, plan, order);
    if random.percent(5) {
        hand_on(random, plan, order);
    }
}

/// A scope with no undo part that may close and hand something on, where 32 are remembered.
fn hand_on(random: &mut Random, plan: &Plan, order: &mut Order) {
    let scopes: Vec<usize> = (0..plan.count()).filter(|&k| plan.is_scope(k)).collect();
    let bare = scopes.iter().find(|&&k| !plan.has_undo(k));
    if let Some(&k) = bare {
        order.marks[k] = DONE;
        order.kept = REMEMBERED as u64;
        for each in &mut order.remembered {
            *each = closing(random, plan, &scopes);
        }
        order.remembered[random.below(REMEMBERED)].part = plan.body(Some(k)) as u8;
    }
}

/// Another list of closings; now and then such as no scope has.
fn remember(random: &mut Random, plan: &Plan, order: &mut Order) {
    let scopes: Vec<usize> = (0..plan.count()).filter(|&k| plan.is_scope(k)).collect();
    let most = [3, 3, 8, 32][random.below(4)];
    order.kept = random.from_to(0, most) as u64;
    if random.percent(10) {
        order.kept = 32;
    }
    for at in 0..REMEMBERED {
        order.remembered[at] = if at as u64 >= order.kept {
            NO_CLOSING
        } else {
            closing(random, plan, &scopes)
        };
    }
}

/// A closing of some scope, most often for one that stands around it.
fn closing(random: &mut Random, plan: &Plan, scopes: &[usize]) -> Closing {
    if scopes.is_empty() || random.percent(3) {
        return Closing {
            scope: random.byte(),
            part: random.byte(),
        };
    }
    let k = scopes[random.below(scopes.len())];
    let mut around = plan.activities[k].around;
    while let Some(s) = around
        && random.percent(if plan.has_undo(s) { 5 } else { 60 })
    {
        around = plan.activities[s].around;
    }
    let some = random
        .percent(10)
        .then(|| scopes[random.below(scopes.len())]);
    Closing {
        scope: k as u8,
        part: plan.body(some.or(around)) as u8,
    }
}

fn message(random: &mut Random, plan: &Plan) -> Message {
    let partners: Vec<u32> = (0..64).filter(|&p| plan.partners[p as usize]).collect();
    let value = |random: &mut Random| random.below(3) as u32;
    Message {
        partner: partners[random.below(partners.len())] + u32::from(random.percent(10)),
        operation: random.below(2) as u32,
        count: random.from_to(1, 2) as u32,
        values: [value(random), value(random), 0, 0],
        reply: random.below(64) as u32,
    }
    .in_reach()
}

impl Message {
    fn in_reach(mut self) -> Message {
        self.partner = self.partner.min(63);
        self.cut()
    }
}

/// One number past its limit.
fn beyond(random: &mut Random, state: &mut State) {
    let order = &mut state.orders[random.below(ORDERS)];
    match random.below(11) {
        0 => order.root = [2, 3, 7, 8, 9, 255][random.below(6)],
        // On both sides of the limit.
        10 => order.cause = [5, 6, 7, 14, 15, 16][random.below(6)],
        // On both sides of the limit: choices beside what has none.
        1 => {
            let marks = [
                9, 10, 15, 0x10, 0x11, 0x17, 0x18, 0x80, 0x84, 0x86, 0x94, 0xF5, 0xFF,
            ];
            order.marks[random.below(MARKS)] = marks[random.below(marks.len())];
        }
        2 => order.bound[random.below(16)] = [2, 3, 255][random.below(3)],
        3 => order.kept = [33, 34, 256, u64::MAX][random.below(4)],
        4 => state.waiting = [65, 66, 256, u64::MAX][random.below(4)],
        5 => state.length = [0, 4097, 1 << 32, u64::MAX, state.length + 1][random.below(5)],
        6 => {
            let at = random.below(state.length.clamp(1, BYTES as u64) as usize);
            state.plan[at] = random.byte();
        }
        _ => {
            // At the edge of each limit, on both sides.
            state.waiting = state.waiting.clamp(1, WAITING as u64);
            let place = random.below(state.waiting as usize);
            let message = &mut state.messages[place];
            match random.below(5) {
                0 => message.partner = random.from_to(63, 64) as u32,
                1 => message.operation = random.from_to(63, 64) as u32,
                2 => message.count = random.from_to(4, 5) as u32 % 5,
                3 => message.reply = random.from_to(63, 64) as u32,
                _ => message.values[3] = 1,
            }
        }
    }
}
