//! Moonhalyard: a proved order engine. A [`State`] has a plan, its orders, the messages that wait and the tally; each call answers on every input, and what
//! it refuses is a [`Refused`]. docs/EMBEDDING.md tells what the calls mean and what a host must do to last; [`kept`] does it.
//!
//! A call takes up to 256 KiB of the calling thread's stack, [`text`] 512 KiB.
//!
//! ```no_run
//! # fn main() -> Result<(), Box<dyn std::error::Error>> {
//! let plan = moonhalyard::text(std::fs::read("order.txt")?.as_slice())?;
//! moonhalyard::kept("day.state", Some(&plan), |state| {
//!     state.post(0, 0, &[7, 9])?;
//!     while state.offers()?.many > 0 {
//!         println!("{:?}", state.step(0)?);
//!     }
//!     Ok::<(), moonhalyard::Refused>(())
//! })??;
//! # Ok(())
//! # }
//! ```

mod keeping;
pub mod layout;
mod sys;

pub use keeping::{kept, replace};

use std::ffi::CStr;
use std::fmt;

/// What a call refuses: its number, and the place (or row, or line) in trouble where it has one.
#[derive(Clone, Copy, Debug, PartialEq, Eq)]
pub struct Refused {
    pub number: u32,
    pub place: u32,
}

impl fmt::Display for Refused {
    fn fmt(&self, f: &mut fmt::Formatter<'_>) -> fmt::Result {
        write!(f, "{}: {}", self.number, says(self.number))
    }
}

impl std::error::Error for Refused {}

/// How an order ended with a step.
#[derive(Clone, Copy, Debug, PartialEq, Eq)]
pub enum End {
    None,
    Well,
    Handled,
    Failed,
    Left,
}

/// A step: its order's slot, its activity, the place of the message that it takes, the order's end, and the number of the fault that it ended handled or failed
/// by: 0 a raise, 1 a variable that is not bound, 2 a sum too large, 3 a difference below zero, 4 conflicting receives; 0 where it did not end so.
#[derive(Clone, Copy, Debug, PartialEq, Eq)]
pub struct Step {
    pub slot: u8,
    pub activity: u8,
    pub place: u8,
    pub end: End,
    pub fault: u8,
}

/// How many steps are offered, and whether something is held for want of room.
#[derive(Clone, Copy, Debug, PartialEq, Eq)]
pub struct Offers {
    pub many: u32,
    pub held: bool,
}

/// A message: its partner, its operation, one to four values, and the partner to reply to.
#[derive(Clone, Debug, PartialEq, Eq)]
pub struct Message {
    pub partner: u32,
    pub operation: u32,
    pub values: Vec<u32>,
    pub reply: u32,
}

/// How many orders started, and how many ended in each way.
#[derive(Clone, Copy, Debug, Default, PartialEq, Eq)]
pub struct Tally {
    pub started: u32,
    pub well: u32,
    pub handled: u32,
    pub failed: u32,
    pub left: u32,
}

/// A live order: its slot, its root's mark, the marks of activities and arms, its variables, the scopes that it remembers, and the number of the fault that its
/// root faulted with, 0 where it has not. What a mark says stands in its lower four bits (docs/EMBEDDING.md).
#[derive(Clone, Debug, PartialEq, Eq)]
pub struct Order {
    pub slot: usize,
    pub root: u8,
    pub marks: Vec<u8>,
    pub variables: Vec<Option<u32>>,
    pub remembered: Vec<u8>,
    pub cause: u8,
}

/// How many steps a run took, and the refusal that stopped it, or 0.
#[derive(Clone, Copy, Debug, PartialEq, Eq)]
pub struct Ran {
    pub taken: u64,
    pub refusal: u32,
}

/// The version of the library: 10,000 for each first number, 100 for each second, and the third.
pub fn version() -> u32 {
    // SAFETY: it takes nothing.
    unsafe { sys::moonhalyard_version() }
}

/// The seal of bytes, to be kept behind them: read again, they are whole where their seal is the one that was kept.
pub fn seal(kept: &[u8]) -> u64 {
    // SAFETY: the bytes are read, and no more of them than there are.
    unsafe { sys::moonhalyard_seal(kept.as_ptr(), kept.len()) }
}

/// A refusal in words.
pub fn says(refusal: u32) -> &'static str {
    // SAFETY: the library answers a string of its own, which ends in 0 and stays, whatever the number.
    unsafe { CStr::from_ptr(sys::moonhalyard_says(refusal)) }.to_str().unwrap_or("unknown refusal")
}

fn refused(number: u32) -> Result<(), Refused> {
    match number {
        0 => Ok(()),
        number => Err(Refused { number, place: 0 }),
    }
}

fn told(answer: u64) -> Result<usize, Refused> {
    match (answer >> 32) as u32 {
        0 => Ok(answer as usize),
        number => Err(Refused { number, place: answer as u32 }),
    }
}

// Each call below lends the library a slice with its length, or several, of which those that it writes are borrowed by &mut: they are valid, and apart.

/// The plan that a text says (docs/DESK.md, "A plan as text"). The place of a refusal is the line in trouble, counted from 1.
pub fn text(said: &[u8]) -> Result<Vec<u8>, Refused> {
    let mut plan = vec![0; 4096];
    // SAFETY: as above.
    let length = told(unsafe { sys::moonhalyard_text(said.as_ptr(), said.len(), plan.as_mut_ptr(), plan.len()) })?;
    plan.truncate(length);
    Ok(plan)
}

/// A plan as text, which [`text`] reads back as the same bytes.
pub fn draw(plan: &[u8]) -> Result<String, Refused> {
    let mut said = Vec::new();
    loop {
        // SAFETY: as above.
        match told(unsafe { sys::moonhalyard_draw(plan.as_ptr(), plan.len(), said.as_mut_ptr(), said.len()) }) {
            Err(Refused { number: 18, place }) => said.resize(place as usize, 0),
            answer => return answer.map(|length| String::from_utf8_lossy(&said[..length]).into_owned()),
        }
    }
}

/// How many activities and arms a plan has.
pub fn accept(plan: &[u8]) -> Result<usize, Refused> {
    // SAFETY: as above.
    told(unsafe { sys::moonhalyard_accept(plan.as_ptr(), plan.len()) })
}

/// The part of a plan that spells activity or arm k.
pub fn show(plan: &[u8], k: u32) -> Result<&[u8], Refused> {
    // SAFETY: as above.
    let answer = unsafe { sys::moonhalyard_show(plan.as_ptr(), plan.len(), k) };
    refused((answer >> 48) as u32)?;
    let (start, length) = ((answer >> 24) as usize & 0xFF_FFFF, answer as usize & 0xFF_FFFF);
    Ok(&plan[start..start + length])
}

/// The plan of a table, rows of 20 numbers each. The place of a refusal is the row in trouble.
pub fn write(table: &[u32]) -> Result<Vec<u8>, Refused> {
    let mut plan = vec![0; 4096];
    // SAFETY: as above.
    let length = told(unsafe { sys::moonhalyard_write(table.as_ptr(), table.len(), plan.as_mut_ptr(), plan.len()) })?;
    plan.truncate(length);
    Ok(plan)
}

/// The table of a plan: 20 numbers for each row.
pub fn rows(plan: &[u8]) -> Result<Vec<u32>, Refused> {
    let mut table = vec![0; 20 * 4355];
    // SAFETY: as above.
    let many = told(unsafe { sys::moonhalyard_rows(plan.as_ptr(), plan.len(), table.as_mut_ptr(), table.len()) })?;
    table.truncate(many);
    Ok(table)
}

/// A plan whose numbers are padded with zero groups, in shortest form, and how many groups were cut.
pub fn mend(plan: &[u8]) -> Result<(Vec<u8>, usize), Refused> {
    let mut out = vec![0; 4096];
    // SAFETY: as above.
    let answer = told(unsafe { sys::moonhalyard_mend(plan.as_ptr(), plan.len(), out.as_mut_ptr(), out.len()) })?;
    out.truncate(answer & 0xFFFF);
    Ok((out, answer >> 16))
}

fn number(bytes: &[u8], at: usize) -> u32 {
    u32::from_le_bytes(bytes[at..at + 4].try_into().expect("four bytes"))
}

fn long(bytes: &[u8], at: usize) -> usize {
    u64::from_le_bytes(bytes[at..at + 8].try_into().expect("eight bytes")).try_into().unwrap_or(usize::MAX)
}

fn message(bytes: &[u8]) -> Message {
    let count = (number(bytes, layout::MESSAGE_COUNT) as usize).min(layout::MESSAGE_VALUES_MOST);
    Message {
        partner: number(bytes, layout::MESSAGE_PARTNER),
        operation: number(bytes, layout::MESSAGE_OPERATION),
        values: (0..count).map(|i| number(bytes, layout::MESSAGE_VALUES + 4 * i)).collect(),
        reply: number(bytes, layout::MESSAGE_REPLY),
    }
}

fn step_of(answer: u64) -> Step {
    Step {
        slot: (answer >> 24) as u8,
        activity: (answer >> 16) as u8,
        place: (answer >> 8) as u8,
        end: match answer as u8 {
            0 => End::None,
            1 => End::Well,
            2 => End::Handled,
            3 => End::Failed,
            _ => End::Left,
        },
        fault: (answer >> 40) as u8,
    }
}

fn step(answer: u64) -> Result<Step, Refused> {
    refused(u32::from((answer >> 32) as u8))?;
    Ok(step_of(answer))
}

/// A plan with its orders, the messages that wait and the tally.
#[derive(Clone, PartialEq, Eq)]
pub struct State(Box<[u8]>);

impl State {
    /// A fresh state with a plan.
    pub fn load(plan: &[u8]) -> Result<State, Refused> {
        let mut state = State(vec![0; layout::STATE].into());
        // SAFETY: as above.
        told(unsafe { sys::moonhalyard_load(plan.as_ptr(), plan.len(), state.0.as_mut_ptr(), state.0.len()) })?;
        Ok(state)
    }

    /// The state that bytes hold, as [`State::bytes`] gave them, of this or an older version; 17 where they hold none.
    pub fn from_bytes(old: &[u8]) -> Result<State, Refused> {
        let mut state = State(vec![0; layout::STATE].into());
        // SAFETY: as above.
        refused(unsafe { sys::moonhalyard_upgrade(old.as_ptr(), old.len(), state.0.as_mut_ptr(), state.0.len()) })?;
        Ok(state)
    }

    /// The bytes to save: they can be given to [`State::from_bytes`], to a host in C or Python, and to the desk's `open`.
    pub fn bytes(&self) -> &[u8] {
        &self.0
    }

    /// Posts a message with one to four values: it waits after the others. Its partner to reply to is 0.
    pub fn post(&mut self, partner: u32, operation: u32, values: &[u32]) -> Result<(), Refused> {
        self.post_with_reply(partner, operation, values, 0)
    }

    /// The same, with the partner to reply to, 0 to 63.
    pub fn post_with_reply(&mut self, partner: u32, operation: u32, values: &[u32], reply: u32) -> Result<(), Refused> {
        let v: Vec<u32> = (0..4).map(|i| values.get(i).copied().unwrap_or(0)).collect();
        let count = u32::try_from(values.len()).unwrap_or(u32::MAX);
        // SAFETY: as above.
        refused(unsafe { sys::moonhalyard_post(self.0.as_mut_ptr(), self.0.len(), partner, operation, count, v[0], v[1], v[2], v[3], reply) })
    }

    /// The oldest message for a partner that the plan never receives on, which waits no longer; 15 where there is none.
    pub fn collect(&mut self) -> Result<Message, Refused> {
        let mut bytes = [0; layout::MESSAGE];
        // SAFETY: as above.
        refused(unsafe { sys::moonhalyard_collect(self.0.as_mut_ptr(), self.0.len(), bytes.as_mut_ptr(), bytes.len()) })?;
        Ok(message(&bytes))
    }

    /// The message that waits at a place, counted from 0, which waits no longer, whatever its partner; 15 where none waits there.
    pub fn drop_at(&mut self, place: usize) -> Result<Message, Refused> {
        let mut bytes = [0; layout::MESSAGE];
        // SAFETY: as above.
        refused(unsafe { sys::moonhalyard_drop(self.0.as_mut_ptr(), self.0.len(), place, bytes.as_mut_ptr(), bytes.len()) })?;
        Ok(message(&bytes))
    }

    /// How many steps are offered, and whether something is held.
    pub fn offers(&self) -> Result<Offers, Refused> {
        // SAFETY: as above.
        let answer = unsafe { sys::moonhalyard_offers(self.0.as_ptr(), self.0.len()) };
        refused((answer >> 40) as u32)?;
        Ok(Offers { many: answer as u32, held: answer >> 32 & 1 == 1 })
    }

    /// The step that a choice would take, not taken.
    pub fn offer(&self, choice: u64) -> Result<Step, Refused> {
        // SAFETY: as above.
        step(unsafe { sys::moonhalyard_offer(self.0.as_ptr(), self.0.len(), choice) })
    }

    /// The steps that are offered from the choice `first` on, not taken, `most` of them at most.
    pub fn list(&self, first: u32, most: usize) -> Result<Vec<Step>, Refused> {
        let mut out = vec![0; most];
        // SAFETY: as above.
        let many = told(unsafe { sys::moonhalyard_list(self.0.as_ptr(), self.0.len(), first, out.as_mut_ptr(), out.len()) })?;
        Ok(out[..many].iter().map(|&answer| step_of(answer)).collect())
    }

    /// Takes the step with a choice.
    pub fn step(&mut self, choice: u64) -> Result<Step, Refused> {
        // SAFETY: as above.
        step(unsafe { sys::moonhalyard_step(self.0.as_mut_ptr(), self.0.len(), choice) })
    }

    /// Takes the steps with these choices, until they end, the budget is used up or a step is refused.
    pub fn run(&mut self, choices: &[u64], budget: u64) -> Ran {
        let mut left = budget;
        // SAFETY: as above.
        let refusal = unsafe { sys::moonhalyard_run(self.0.as_mut_ptr(), self.0.len(), choices.as_ptr(), choices.len(), &mut left) };
        Ran { taken: budget - left, refusal }
    }

    /// The same, and the steps that were taken, one after the other: which order, which activity, and how the order ended, if it did.
    pub fn tell(&mut self, choices: &[u64], budget: u64) -> (Ran, Vec<Step>) {
        let mut left = budget;
        let mut told = vec![0; choices.len()];
        // SAFETY: as above.
        let refusal = unsafe {
            sys::moonhalyard_tell(self.0.as_mut_ptr(), self.0.len(), choices.as_ptr(), choices.len(), &mut left, told.as_mut_ptr(), told.len())
        };
        let taken = budget - left;
        let steps = told.iter().take(taken as usize).map(|&answer| step_of(answer)).collect();
        (Ran { taken, refusal }, steps)
    }

    /// The plan's bytes.
    pub fn plan(&self) -> &[u8] {
        let length = long(&self.0, layout::PLAN_LENGTH).min(layout::WAITING - layout::PLAN);
        &self.0[layout::PLAN..layout::PLAN + length]
    }

    /// How many orders started, and how they ended.
    pub fn tally(&self) -> Tally {
        Tally {
            started: number(&self.0, layout::TALLY_STARTED),
            well: number(&self.0, layout::TALLY_WELL),
            handled: number(&self.0, layout::TALLY_HANDLED),
            failed: number(&self.0, layout::TALLY_FAILED),
            left: number(&self.0, layout::TALLY_LEFT),
        }
    }

    /// The messages that wait, oldest first.
    pub fn waiting(&self) -> Vec<Message> {
        let many = long(&self.0, layout::WAITING).min(layout::MESSAGES_MOST);
        self.0[layout::MESSAGES..].chunks_exact(layout::MESSAGE).take(many).map(message).collect()
    }

    /// The live orders, by their slots.
    pub fn orders(&self) -> Vec<Order> {
        let all = self.0[layout::ORDERS..].chunks_exact(layout::ORDER).enumerate();
        all.filter(|(_, bytes)| bytes[layout::ORDER_ROOT] != 0).map(|(slot, bytes)| order(slot, bytes)).collect()
    }
}

fn order(slot: usize, bytes: &[u8]) -> Order {
    let variable = |i: usize| (bytes[layout::ORDER_BOUND + i] != 0).then(|| number(bytes, layout::ORDER_VALUES + 4 * i));
    let kept = long(bytes, layout::ORDER_KEPT).min(layout::ORDER_REMEMBERED_MOST);
    Order {
        slot,
        root: bytes[layout::ORDER_ROOT],
        marks: bytes[layout::ORDER_MARKS..][..layout::ORDER_MARKS_MOST].to_vec(),
        variables: (0..layout::ORDER_VALUES_MOST).map(variable).collect(),
        remembered: (0..kept).map(|i| bytes[layout::ORDER_REMEMBERED + layout::CLOSING_SCOPE + layout::CLOSING * i]).collect(),
        cause: bytes[layout::ORDER_CAUSE],
    }
}
