//! What the engine keeps: the plan's bytes, the waiting messages and the orders; which of it 17 limits; and the tally.

use crate::plan::{Fault, Plan, is_fault};
use crate::reader;

pub const BYTES: usize = 4096;
pub const WAITING: usize = 64;
pub const ORDERS: usize = 16;
pub const MARKS: usize = 256;
pub const REMEMBERED: usize = 32;

/// The marks of an activity, and of the root, which is free where its slot is.
pub const IDLE: u8 = 0;
/// A sequence or flow runs, a scope's body runs; anything else awaits its step.
pub const ACTIVE: u8 = 1;
/// A choose or repeat has decided, or an arm of a pick was taken, and what stands within runs.
pub const INSIDE: u8 = 2;
/// Of scopes: the body is done.
pub const DONE: u8 = 3;
/// Faulted, and waiting for inner scopes. This and the next two have beside them the fault part that the scope chose, in the upper four bits: i the i-th by
/// number, any other the general one, which is 9 + n for a fault n of 0 to 5 and 15 for one of 16 to 255.
pub const FAULTED: u8 = 4;
pub const UNDOING: u8 = 5;
/// Running its fault part.
pub const HANDLING: u8 = 6;
/// Stopped by a fault around it, and waiting for inner scopes.
pub const STOPPED: u8 = 7;
pub const STOPPED_UNDOING: u8 = 8;

/// A mark without the choice of a fault part, and that choice.
pub fn bare(mark: u8) -> u8 {
    mark & 0x0F
}

pub fn choice(mark: u8) -> usize {
    usize::from(mark >> 4)
}

fn is_mark(mark: u8) -> bool {
    mark <= STOPPED_UNDOING || matches!(bare(mark), FAULTED | UNDOING | HANDLING)
}

#[derive(Clone, Copy, Debug, Default, PartialEq, Eq)]
pub struct Message {
    pub partner: u32,
    pub operation: u32,
    pub count: u32,
    pub values: [u32; 4],
    /// The partner to reply to.
    pub reply: u32,
}

impl Message {
    /// Whether partner, operation, count and reply partner keep their rule.
    pub fn in_rule(&self) -> bool {
        self.partner < 64 && self.operation < 64 && (1..=4).contains(&self.count) && self.reply < 64
    }

    /// With places beyond the count made 0.
    pub fn cut(mut self) -> Message {
        for place in self.count as usize..4 {
            self.values[place] = 0;
        }
        self
    }
}

/// A closing that is remembered: the scope that closed, and for which part, by the number of that part's first activity.
#[derive(Clone, Copy, Debug, Default, PartialEq, Eq)]
pub struct Closing {
    pub scope: u8,
    pub part: u8,
}

pub const NO_CLOSING: Closing = Closing { scope: 0, part: 0 };

#[derive(Clone, Copy, Debug, PartialEq, Eq)]
pub struct Order {
    /// The root's mark; idle where the slot is free.
    pub root: u8,
    pub marks: [u8; MARKS],
    pub values: [u32; 16],
    pub bound: [u8; 16],
    /// Oldest first.
    pub remembered: [Closing; REMEMBERED],
    pub kept: u64,
    /// The number that the root faulted with; 0 where it has not.
    pub cause: Fault,
}

pub const NO_ORDER: Order = Order {
    root: 0,
    marks: [0; MARKS],
    values: [0; 16],
    bound: [0; 16],
    remembered: [NO_CLOSING; REMEMBERED],
    kept: 0,
    cause: 0,
};

impl Order {
    pub fn live(&self) -> bool {
        self.root != IDLE
    }

    pub fn variable(&self, variable: usize) -> Option<u32> {
        (self.bound[variable] != 0).then_some(self.values[variable])
    }

    pub fn bind(&mut self, variable: usize, value: u32) {
        self.values[variable] = value;
        self.bound[variable] = 1;
    }

    fn in_limits(&self) -> bool {
        (matches!(self.root, IDLE | ACTIVE)
            || matches!(bare(self.root), FAULTED | UNDOING | HANDLING))
            && self.marks.iter().all(|&mark| is_mark(mark))
            && self.bound.iter().all(|&bound| bound <= 1)
            && self.kept <= REMEMBERED as u64
            && is_fault(u32::from(self.cause))
    }
}

#[derive(Clone, Debug, PartialEq, Eq)]
pub struct State {
    pub length: u64,
    pub plan: [u8; BYTES],
    pub waiting: u64,
    pub messages: [Message; WAITING],
    pub orders: [Order; ORDERS],
}

impl State {
    pub fn without_plan() -> State {
        State {
            length: 0,
            plan: [0; BYTES],
            waiting: 0,
            messages: [Message::default(); WAITING],
            orders: [NO_ORDER; ORDERS],
        }
    }

    /// The plan of a state that passes 17.
    pub fn passes(&self) -> Option<Plan> {
        let within = self.length <= BYTES as u64
            && self.waiting <= WAITING as u64
            && self.waiting().iter().all(|m| m.in_rule() && *m == m.cut())
            && self.orders.iter().all(Order::in_limits);
        if !within {
            return None;
        }
        let bytes = &self.plan[..self.length as usize];
        reader::read(bytes).ok().map(|_| Plan::of(bytes))
    }

    /// The waiting messages, oldest first.
    pub fn waiting(&self) -> &[Message] {
        &self.messages[..self.waiting as usize]
    }

    /// Adds a message; there is room.
    pub fn add(&mut self, message: Message) {
        self.messages[self.waiting as usize] = message;
        self.waiting += 1;
    }

    /// Takes the message at a place, and closes the gap.
    pub fn remove(&mut self, place: usize) -> Message {
        let message = self.messages[place];
        self.messages.copy_within(place + 1.., place);
        self.messages[WAITING - 1] = Message::default();
        self.waiting -= 1;
        message
    }

    pub fn free_slot(&self) -> Option<usize> {
        self.orders.iter().position(|order| !order.live())
    }
}

/// How an order ended.
#[derive(Clone, Copy, Debug, PartialEq, Eq)]
pub enum End {
    Well = 1,
    Handled = 2,
    Failed = 3,
    Left = 4,
}

/// Started, and the four ends by their numbers.
#[derive(Clone, Copy, Debug, Default, PartialEq, Eq)]
pub struct Tally(pub [u32; 5]);

impl Tally {
    pub fn started(&mut self) {
        self.0[0] = self.0[0].saturating_add(1);
    }

    pub fn ended(&mut self, end: End) {
        let count = &mut self.0[end as usize];
        *count = count.saturating_add(1);
    }
}
