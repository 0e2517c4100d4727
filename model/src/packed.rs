//! The engine over packed states: a state with its tally as 12,748 bytes, and each call as the library's C function of that name answers it.

use crate::engine::{self, Step, Taken};
use crate::layout::{self, MARK, ORDER};
use crate::plan::Plan;
use crate::reader::{self, Refusal};
use crate::state::*;

pub const SIZE: usize = layout::STATE;
pub const MESSAGE: usize = layout::MESSAGE;
const AT_PLAN: usize = layout::PLAN;
const AT_WAITING: usize = layout::WAITING;
const AT_MESSAGES: usize = layout::MESSAGES;
const AT_ORDERS: usize = layout::ORDERS;
const AT_ORDER_VALUES: usize = layout::ORDER_VALUES;
const AT_BOUND: usize = layout::ORDER_BOUND;
const AT_REMEMBERED: usize = layout::ORDER_REMEMBERED;
const AT_KEPT: usize = layout::ORDER_KEPT;
const AT_CAUSE: usize = layout::ORDER_CAUSE;

fn long(bytes: &[u8]) -> u64 {
    u64::from_le_bytes(bytes[..8].try_into().expect("eight bytes"))
}

fn numbers<const N: usize>(bytes: &[u8]) -> [u32; N] {
    std::array::from_fn(|at| {
        u32::from_le_bytes(bytes[4 * at..4 * at + 4].try_into().expect("four bytes"))
    })
}

fn put_numbers(bytes: &mut [u8], numbers: &[u32]) {
    for (four, number) in bytes.chunks_exact_mut(4).zip(numbers) {
        four.copy_from_slice(&number.to_le_bytes());
    }
}

pub fn unpack_message(bytes: &[u8]) -> Message {
    let [partner, operation, count, a, b, c, d, reply] = numbers(bytes);
    Message {
        partner,
        operation,
        count,
        values: [a, b, c, d],
        reply,
    }
}

pub fn pack_message(message: &Message, bytes: &mut [u8]) {
    put_numbers(bytes, &[message.partner, message.operation, message.count]);
    put_numbers(&mut bytes[layout::MESSAGE_VALUES..], &message.values);
    put_numbers(&mut bytes[layout::MESSAGE_REPLY..], &[message.reply]);
}

fn unpack_order(bytes: &[u8]) -> Order {
    Order {
        root: bytes[0],
        marks: bytes[layout::ORDER_MARKS..AT_ORDER_VALUES]
            .try_into()
            .expect("256 marks"),
        values: numbers(&bytes[AT_ORDER_VALUES..]),
        bound: bytes[AT_BOUND..AT_REMEMBERED].try_into().expect("16 flags"),
        remembered: std::array::from_fn(|at| {
            let two = &bytes[AT_REMEMBERED + layout::CLOSING * at..];
            Closing {
                scope: two[layout::CLOSING_SCOPE],
                part: two[layout::CLOSING_PART],
            }
        }),
        kept: long(&bytes[AT_KEPT..]),
        cause: bytes[AT_CAUSE],
    }
}

fn pack_order(order: &Order, bytes: &mut [u8]) {
    bytes[0] = order.root;
    bytes[layout::ORDER_MARKS..AT_ORDER_VALUES].copy_from_slice(&order.marks);
    put_numbers(&mut bytes[AT_ORDER_VALUES..AT_BOUND], &order.values);
    bytes[AT_BOUND..AT_REMEMBERED].copy_from_slice(&order.bound);
    let closings = bytes[AT_REMEMBERED..AT_KEPT].chunks_exact_mut(layout::CLOSING);
    for (two, closing) in closings.zip(&order.remembered) {
        two[layout::CLOSING_SCOPE] = closing.scope;
        two[layout::CLOSING_PART] = closing.part;
    }
    bytes[AT_KEPT..AT_CAUSE].copy_from_slice(&order.kept.to_le_bytes());
    bytes[AT_CAUSE] = order.cause;
}

/// A state and its tally, where the bytes have the length and the mark.
pub fn unpack(bytes: &[u8]) -> Option<(State, Tally)> {
    if bytes.len() != SIZE || &bytes[..8] != MARK {
        return None;
    }
    let state = State {
        length: long(&bytes[layout::PLAN_LENGTH..]),
        plan: bytes[AT_PLAN..AT_WAITING].try_into().expect("the plan"),
        waiting: long(&bytes[AT_WAITING..]),
        messages: std::array::from_fn(|at| unpack_message(&bytes[AT_MESSAGES + MESSAGE * at..])),
        orders: std::array::from_fn(|at| unpack_order(&bytes[AT_ORDERS + ORDER * at..])),
    };
    Some((state, Tally(numbers(&bytes[layout::TALLY_STARTED..]))))
}

/// Brings a state of any version up to date, as `moonhalyard_upgrade` does. The messages of older ones have no reply partner, and get 0. The orders of the
/// first two have no cause, and those of the first have for a closing its scope alone, which closed for the nearest scope around it.
pub fn upgrade(old: &[u8], state: &mut [u8]) -> u32 {
    if state.len() != SIZE {
        return 18;
    }
    if unpack(old).is_some() {
        state.copy_from_slice(old);
        return 0;
    }
    let version = match (old.len(), old.get(..8)) {
        (11_964, Some(b"MOONHAL1")) => 1,
        (12_476, Some(b"MOONHAL2")) => 2,
        (12_492, Some(b"MOONHAL3")) => 3,
        _ => return 17,
    };
    let (message, order) = (28, [377, 409, 410][version - 1]);
    state[..AT_MESSAGES].copy_from_slice(&old[..AT_MESSAGES]);
    state[..8].copy_from_slice(MARK);
    let (messages, orders) = old[AT_MESSAGES..].split_at(WAITING * message);
    let now = state[AT_MESSAGES..AT_ORDERS].chunks_exact_mut(MESSAGE);
    for (from, to) in messages.chunks_exact(message).zip(now) {
        to[..message].copy_from_slice(from);
        to[message..].fill(0);
    }
    let length = usize::try_from(long(&old[layout::PLAN_LENGTH..])).unwrap_or(usize::MAX);
    let bytes = old[AT_PLAN..AT_WAITING].get(..length).unwrap_or(&[]);
    let plan = reader::read(bytes).ok().map(|_| Plan::of(bytes));
    let now = state[AT_ORDERS..].chunks_exact_mut(ORDER);
    for (from, to) in orders.chunks_exact(order).zip(now) {
        if version == 3 {
            to.copy_from_slice(from);
            continue;
        }
        to[..AT_REMEMBERED].copy_from_slice(&from[..AT_REMEMBERED]);
        let (closings, kept) = from[AT_REMEMBERED..].split_at(order - 8 - AT_REMEMBERED);
        if version == 1 {
            for (&k, two) in closings.iter().zip(to[AT_REMEMBERED..].chunks_exact_mut(2)) {
                two[layout::CLOSING_SCOPE] = k;
                two[layout::CLOSING_PART] = part_around(plan.as_ref(), usize::from(k));
            }
        } else {
            to[AT_REMEMBERED..AT_KEPT].copy_from_slice(closings);
        }
        to[AT_KEPT..AT_CAUSE].copy_from_slice(kept);
        to[AT_CAUSE] = 0;
    }
    0
}

/// The body of the nearest scope around k, of those that plans had at first; or the root's.
fn part_around(plan: Option<&Plan>, k: usize) -> u8 {
    let around = |plan: &Plan| {
        let before = 0..k.min(plan.count());
        before
            .rev()
            .find(|&s| plan.has_undo(s) && plan.numbers(Some(s)).is_empty() && k < plan.end(s))
            .map(|s| s + 1)
    };
    plan.and_then(around).unwrap_or(0) as u8
}

/// The marks of an order in a packed state.
pub fn marks(bytes: &[u8], slot: usize) -> &[u8] {
    &bytes[AT_ORDERS + ORDER * slot + layout::ORDER_MARKS..][..MARKS]
}

pub fn pack(state: &State, tally: &Tally, bytes: &mut [u8]) {
    bytes[..8].copy_from_slice(MARK);
    put_numbers(
        &mut bytes[layout::TALLY_STARTED..layout::PLAN_LENGTH],
        &tally.0,
    );
    bytes[layout::PLAN_LENGTH..AT_PLAN].copy_from_slice(&state.length.to_le_bytes());
    bytes[AT_PLAN..AT_WAITING].copy_from_slice(&state.plan);
    bytes[AT_WAITING..AT_MESSAGES].copy_from_slice(&state.waiting.to_le_bytes());
    let (messages, orders) = bytes[AT_MESSAGES..].split_at_mut(AT_ORDERS - AT_MESSAGES);
    for (message, bytes) in state
        .messages
        .iter()
        .zip(messages.chunks_exact_mut(MESSAGE))
    {
        pack_message(message, bytes);
    }
    for (order, bytes) in state.orders.iter().zip(orders.chunks_exact_mut(ORDER)) {
        pack_order(order, bytes);
    }
}

pub fn load(plan: &[u8], state: &mut [u8]) -> u64 {
    if state.len() != SIZE {
        return 18 << 32;
    }
    let (loaded, answer) = match engine::load(plan) {
        Ok(loaded) => (loaded, 0),
        Err(Refusal { number, place }) => (
            State::without_plan(),
            u64::from(number) << 32 | u64::from(place),
        ),
    };
    pack(&loaded, &Tally::default(), state);
    answer
}

pub fn post(state: &mut [u8], message: Message) -> u32 {
    let Some((mut now, tally)) = unpack(state) else {
        return 17;
    };
    match engine::post(&mut now, message) {
        Ok(()) => pack(&now, &tally, state),
        Err(refusal) => return refusal,
    }
    0
}

pub fn collect(state: &mut [u8], message: &mut [u8]) -> u32 {
    if message.len() < MESSAGE {
        return 18;
    }
    let collected = match unpack(state) {
        None => Err(17),
        Some((mut now, tally)) => engine::collect(&mut now).inspect(|_| pack(&now, &tally, state)),
    };
    pack_message(&collected.unwrap_or_default(), &mut message[..MESSAGE]);
    collected.err().unwrap_or(0)
}

fn answer(step: &Step, end: Option<End>) -> u64 {
    let end = end.map_or(0, |end| end as u64);
    (step.slot as u64) << 24 | (step.activity as u64) << 16 | (step.place as u64) << 8 | end
}

fn refused(refusal: u32) -> u64 {
    u64::from(refusal) << 32
}

pub fn offer(state: &[u8], choice: u64) -> u64 {
    match unpack(state) {
        None => refused(17),
        Some((now, _)) => {
            engine::offer(&now, choice).map_or_else(refused, |step| answer(&step, None))
        }
    }
}

pub fn offers(state: &[u8]) -> u64 {
    match unpack(state)
        .ok_or(17)
        .and_then(|(now, _)| engine::offers(&now))
    {
        Err(refusal) => u64::from(refusal) << 40,
        Ok(offer) => u64::from(offer.held.any()) << 32 | offer.steps.len() as u64,
    }
}

/// Takes a step of a packed state.
pub fn stepped(state: &mut [u8], choice: u64) -> Result<Taken, u32> {
    let (mut now, mut tally) = unpack(state).ok_or(17u32)?;
    engine::step(&mut now, choice, &mut tally).inspect(|_| pack(&now, &tally, state))
}

/// The answer of `step`, in one number: fault * 2^40 + refusal * 2^32 + slot * 2^24 + activity * 2^16 + place * 2^8 + end.
pub fn told(stepped: Result<Taken, u32>) -> u64 {
    stepped.map_or_else(refused, |taken| {
        u64::from(taken.fault.unwrap_or(0)) << 40 | answer(&taken.step, taken.end)
    })
}

pub fn step(state: &mut [u8], choice: u64) -> u64 {
    told(stepped(state, choice))
}

pub fn run(state: &mut [u8], choices: &[u64], budget: &mut u64) -> u32 {
    let Some((mut now, mut tally)) = unpack(state) else {
        return 17;
    };
    let (taken, refusal) = engine::run(&mut now, choices, budget, &mut tally);
    if taken > 0 {
        pack(&now, &tally, state);
    }
    refusal
}

/// Shows activity k of a plan: refusal * 2^48 + start * 2^24 + length.
pub fn show(plan: &[u8], k: u32) -> u64 {
    match reader::read(plan) {
        Err(refusal) => u64::from(refusal.number) << 48,
        Ok(plan) => plan.parts.get(k as usize).map_or(16 << 48, |part| {
            u64::from(part.start) << 24 | u64::from(part.end - part.start)
        }),
    }
}
