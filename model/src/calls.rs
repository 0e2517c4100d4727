//! A call on the engine as a value: made on a desk by the model, or told to a process that has the library (`engine.c`).

use crate::engine::Taken;
use crate::packed::{self, SIZE};
use crate::process::Process;
use crate::state::Message;
use std::io;

/// All that a call may write: a state with some bytes after it, a message with some after it, a budget.
pub const STATE: usize = 12_768;
pub const MESSAGE: usize = 48;
pub const DESK: usize = STATE + MESSAGE + 8;

#[derive(Clone, Debug, PartialEq, Eq)]
pub enum Call {
    /// Lays a packed state on the desk.
    Put(Box<[u8; SIZE]>),
    Load(Vec<u8>),
    Post(Message),
    /// With this much room for the message.
    Collect(usize),
    Offer(u64),
    Offers,
    Step(u64),
    Run(u64, Vec<u64>),
    /// Shows an activity of a plan, on no state.
    Show(Vec<u8>, u32),
}

/// What a call told: its answer as the C function gives it, and the step that was taken.
pub struct Told {
    pub answer: u64,
    pub taken: Option<Taken>,
}

/// Where the model makes its calls.
#[derive(Clone)]
pub struct Desk {
    pub bytes: Box<[u8; DESK]>,
}

impl Desk {
    pub fn new() -> Desk {
        Desk {
            bytes: Box::new([0; DESK]),
        }
    }

    pub fn state(&self) -> &[u8] {
        &self.bytes[..SIZE]
    }

    /// The call that lays this state on a desk.
    pub fn put(&self) -> Call {
        Call::Put(Box::new(self.state().try_into().expect("a state")))
    }

    /// The message that a collect wrote.
    pub fn message(&self) -> &[u8] {
        &self.bytes[STATE..STATE + packed::MESSAGE]
    }

    pub fn budget(&self) -> u64 {
        let eight = self.bytes[STATE + MESSAGE..].try_into();
        u64::from_le_bytes(eight.expect("eight bytes"))
    }

    /// Makes a call by the model, told that the state has `size` bytes.
    pub fn call(&mut self, size: usize, call: &Call) -> Told {
        let (state, rest) = self.bytes.split_at_mut(STATE);
        if matches!(call, Call::Put(_) | Call::Load(_)) {
            rest.fill(0);
        }
        let (message, budget) = rest.split_at_mut(MESSAGE);
        let state = &mut state[..size];
        let mut taken = None;
        let answer = match call {
            Call::Put(bytes) => {
                state.copy_from_slice(&bytes[..]);
                0
            }
            Call::Load(plan) => packed::load(plan, state),
            Call::Post(message) => u64::from(packed::post(state, *message)),
            Call::Collect(room) => u64::from(packed::collect(state, &mut message[..*room])),
            Call::Offer(choice) => packed::offer(state, *choice),
            Call::Offers => packed::offers(state),
            Call::Step(choice) => {
                let stepped = packed::stepped(state, *choice);
                taken = stepped.as_ref().ok().copied();
                packed::told(stepped)
            }
            Call::Run(most, choices) => {
                let mut left = *most;
                let refusal = packed::run(state, choices, &mut left);
                budget.copy_from_slice(&left.to_le_bytes());
                u64::from(refusal)
            }
            Call::Show(plan, k) => packed::show(plan, *k),
        };
        Told { answer, taken }
    }

    /// A digest of the whole desk, as `engine.c` makes it.
    pub fn digest(&self) -> u64 {
        let mut digest = 0x9E37_79B9_7F4A_7C15u64;
        for eight in self.bytes.chunks_exact(8) {
            let word = u64::from_le_bytes(eight.try_into().expect("eight bytes"));
            digest = (digest ^ word).wrapping_mul(0xD6E8_FEB8_6659_FD93);
            digest ^= digest >> 32;
        }
        digest
    }
}

impl Default for Desk {
    fn default() -> Desk {
        Desk::new()
    }
}

/// Writes a call as `engine.c` reads it.
pub fn tell(call: &Call, size: usize, to: &mut Vec<u8>) {
    let four = |n: usize| (n as u32).to_le_bytes();
    let head = |to: &mut Vec<u8>, number: u8| {
        to.push(number);
        to.extend(four(size));
    };
    match call {
        Call::Put(bytes) => {
            head(to, 0);
            to.extend(&bytes[..]);
        }
        Call::Load(plan) => {
            head(to, 1);
            to.extend(four(plan.len()));
            to.extend(plan);
        }
        Call::Post(message) => {
            head(to, 2);
            let mut bytes = [0; packed::MESSAGE];
            packed::pack_message(message, &mut bytes);
            to.extend(bytes);
        }
        Call::Collect(room) => {
            head(to, 3);
            to.extend(four(*room));
        }
        Call::Offer(choice) => {
            head(to, 4);
            to.extend(choice.to_le_bytes());
        }
        Call::Offers => head(to, 5),
        Call::Step(choice) => {
            head(to, 6);
            to.extend(choice.to_le_bytes());
        }
        Call::Run(budget, choices) => {
            head(to, 7);
            to.extend(budget.to_le_bytes());
            to.extend(four(choices.len()));
            for choice in choices {
                to.extend(choice.to_le_bytes());
            }
        }
        Call::Show(plan, k) => {
            head(to, 9);
            to.extend(four(plan.len()));
            to.extend(plan);
            to.extend(k.to_le_bytes());
        }
    }
}

/// Asks for the whole desk.
pub const GET: [u8; 5] = [8, 0, 0, 0, 0];

/// Reads a call, as the library's side does; the other way of `tell`. `None` where the whole desk is asked for.
pub fn heard(bytes: &mut &[u8]) -> Option<(usize, Call)> {
    let kind = take(bytes, 1)[0];
    let size = number(bytes, 4) as usize;
    let call = match kind {
        0 => Call::Put(Box::new(take(bytes, size).try_into().expect("a state"))),
        1 => {
            let length = number(bytes, 4) as usize;
            Call::Load(take(bytes, length).to_vec())
        }
        2 => Call::Post(packed::unpack_message(take(bytes, packed::MESSAGE))),
        3 => Call::Collect(number(bytes, 4) as usize),
        4 => Call::Offer(number(bytes, 8)),
        5 => Call::Offers,
        6 => Call::Step(number(bytes, 8)),
        7 => {
            let budget = number(bytes, 8);
            let many = number(bytes, 4);
            Call::Run(budget, (0..many).map(|_| number(bytes, 8)).collect())
        }
        9 => {
            let length = number(bytes, 4) as usize;
            let plan = take(bytes, length).to_vec();
            Call::Show(plan, number(bytes, 4) as u32)
        }
        _ => return None,
    };
    Some((size, call))
}

fn take<'a>(bytes: &mut &'a [u8], length: usize) -> &'a [u8] {
    let (taken, rest) = bytes.split_at(length);
    *bytes = rest;
    taken
}

fn number(bytes: &mut &[u8], length: usize) -> u64 {
    let mut eight = [0; 8];
    eight[..length].copy_from_slice(take(bytes, length));
    u64::from_le_bytes(eight)
}

/// The library, which answers as `engine.c` does.
pub struct Library {
    process: Process,
}

impl Library {
    pub fn start(command: &str) -> Library {
        Library {
            process: Process::start(command),
        }
    }

    /// Asks; an error where the process has ended.
    pub fn ask(&mut self, batch: &[u8]) -> io::Result<()> {
        let length = u32::try_from(batch.len()).expect("a short batch");
        self.process.say(&length.to_le_bytes())?;
        self.process.say(batch)
    }

    /// Answer and digest of so many calls.
    pub fn answers(&mut self, many: usize) -> io::Result<Vec<(u64, u64)>> {
        let mut bytes = vec![0; 16 * many];
        self.process.hear(&mut bytes)?;
        let long = |eight: &[u8]| u64::from_le_bytes(eight.try_into().expect("eight bytes"));
        let both = |both: &[u8]| (long(&both[..8]), long(&both[8..]));
        Ok(bytes.chunks_exact(16).map(both).collect())
    }

    /// The answer to one call on a desk, and the desk after it.
    pub fn alone(&mut self, before: &Desk, size: usize, call: &Call) -> io::Result<(u64, Desk)> {
        let mut batch = Vec::new();
        tell(&before.put(), SIZE, &mut batch);
        tell(call, size, &mut batch);
        batch.extend(GET);
        self.ask(&batch)?;
        let answer = self.answers(2)?[1].0;
        let mut desk = Desk::new();
        self.process.hear(&mut desk.bytes[..])?;
        Ok((answer, desk))
    }

    /// Another process in its place.
    pub fn again(&self) -> Library {
        Library {
            process: self.process.again(),
        }
    }
}
