//! The model's engine and the library side by side: every call made on both, every answer and the whole desk after it compared, by batches.

use crate::calls::{Call, Desk, Library, Told, tell};
use crate::describe;
use crate::packed::{self, SIZE};
use crate::state::{NO_CLOSING, NO_ORDER, State};
use std::process::exit;

const BATCH: usize = 1 << 19;
const CALLS: usize = 2_000;

/// A call that was made by the model and is still to be compared.
struct Made {
    before: Desk,
    size: usize,
    call: Call,
    reached: bool,
    answer: u64,
    digest: u64,
}

/// A call on which the two differ, and whether a run reaches the state.
pub struct Difference {
    pub reached: bool,
    pub before: Desk,
    pub size: usize,
    pub call: Call,
}

pub struct Comparison {
    library: Library,
    pub desk: Desk,
    batch: Vec<u8>,
    made: Vec<Made>,
    /// Asked, and not yet answered.
    asked: Vec<Made>,
    /// The two differed, and have not been brought together since.
    apart: bool,
    pub calls: u64,
    /// The state on the desk is one that a run reaches.
    pub reached: bool,
    /// How many differences there were in runs, and on states that no run reaches.
    pub differences: [usize; 2],
    pub smallest: Option<Difference>,
}

impl Comparison {
    pub fn new(library: Library) -> Comparison {
        Comparison {
            library,
            desk: Desk::new(),
            batch: Vec::new(),
            made: Vec::new(),
            asked: Vec::new(),
            apart: false,
            calls: 0,
            reached: true,
            differences: [0; 2],
            smallest: None,
        }
    }

    pub fn make(&mut self, call: Call) -> Told {
        self.make_sized(SIZE, call)
    }

    /// Makes a call that is told another size of the state.
    pub fn make_sized(&mut self, size: usize, call: Call) -> Told {
        if self.batch.len() > BATCH || self.made.len() >= CALLS {
            self.flush();
        }
        self.calls += u64::from(!matches!(call, Call::Put(_)));
        tell(&call, size, &mut self.batch);
        let before = self.desk.clone();
        let told = self.desk.call(size, &call);
        self.made.push(Made {
            before,
            size,
            call,
            reached: self.reached,
            answer: told.answer,
            digest: self.desk.digest(),
        });
        told
    }

    /// Asks the library for what was made, and compares what was asked before: so that both work at once.
    fn flush(&mut self) {
        let asked = self.library.ask(&self.batch);
        self.batch.clear();
        self.compare();
        self.asked = std::mem::take(&mut self.made);
        if asked.is_err() {
            self.ended();
        }
    }

    /// The library's process ended: shows the call that ends it.
    fn ended(&mut self) -> ! {
        println!("FAILED: the library ended, or its stack did");
        for made in &self.asked {
            self.library = self.library.again();
            if self
                .library
                .alone(&made.before, made.size, &made.call)
                .is_err()
            {
                println!(
                    "{}\ncall {:?}",
                    describe::described(&made.before),
                    made.call
                );
                break;
            }
        }
        exit(1);
    }

    /// Compares all that was made.
    pub fn finish(&mut self) {
        self.flush();
        self.compare();
    }

    fn compare(&mut self) {
        let Ok(answers) = self.library.answers(self.asked.len()) else {
            self.ended();
        };
        for (made, (answer, digest)) in std::mem::take(&mut self.asked).into_iter().zip(answers) {
            if matches!(made.call, Call::Put(_) | Call::Load(_)) {
                self.apart = false;
            }
            if self.apart || (made.answer, made.digest) == (answer, digest) {
                continue;
            }
            self.apart = true;
            self.differences[usize::from(!made.reached)] += 1;
            let difference = Difference {
                reached: made.reached,
                before: made.before,
                size: made.size,
                call: made.call,
            };
            let smaller = |other: &Difference| difference.weight() < other.weight();
            if self.smallest.as_ref().is_none_or(smaller) {
                self.smallest = Some(difference);
            }
        }
    }

    /// What the model and the library give on one call, each with its desk after it.
    pub fn both(&mut self, difference: &Difference) -> [(u64, Desk); 2] {
        let mut desk = Desk::new();
        desk.call(SIZE, &difference.before.put());
        let answer = desk.call(difference.size, &difference.call).answer;
        let Difference {
            before, size, call, ..
        } = difference;
        let library = self.library.alone(before, *size, call);
        [(answer, desk), library.expect("an answer of the library")]
    }

    /// Makes the state of a difference as bare as it stays one.
    pub fn shrink(&mut self, mut difference: Difference) -> Difference {
        loop {
            let before = difference.before.state().to_vec();
            'barer: for bytes in bare(&before) {
                // With less before it, the same step may have another choice.
                for call in calls_like(&difference.call) {
                    let mut before = Desk::new();
                    before.bytes[..SIZE].copy_from_slice(&bytes);
                    let barer = Difference {
                        before,
                        call,
                        ..difference
                    };
                    if self.differs(&barer) {
                        difference = barer;
                        break 'barer;
                    }
                }
            }
            if difference.before.state() == before {
                return difference;
            }
        }
    }

    fn differs(&mut self, difference: &Difference) -> bool {
        let [(a, one), (b, other)] = self.both(difference);
        a != b || one.bytes != other.bytes
    }
}

impl Difference {
    /// How small it is: in a run first, then by its plan, then by what stands in the state.
    fn weight(&self) -> (bool, u64, usize) {
        let state = self.before.state();
        let length = packed::unpack(state).map_or(u64::MAX, |(state, _)| state.length);
        let used = state[36 + 4096..].iter().filter(|&&byte| byte != 0);
        (!self.reached, length, used.count())
    }
}

fn calls_like(call: &Call) -> Vec<Call> {
    match call {
        Call::Step(choice) => (0..=*choice).rev().map(Call::Step).collect(),
        other => vec![other.clone()],
    }
}

/// Barer states: with an order, a message or one number of an order gone.
fn bare(bytes: &[u8]) -> Vec<Vec<u8>> {
    let Some((state, tally)) = packed::unpack(bytes) else {
        return Vec::new();
    };
    let mut barer = Vec::new();
    let mut add = |state: &State| {
        let mut bytes = vec![0; SIZE];
        packed::pack(state, &tally, &mut bytes);
        barer.push(bytes);
    };
    for slot in 0..state.orders.len() {
        if state.orders[slot] != NO_ORDER {
            let mut less = state.clone();
            less.orders[slot] = NO_ORDER;
            add(&less);
        }
    }
    if state.waiting <= 64 {
        for place in 0..state.waiting as usize {
            let mut less = state.clone();
            less.remove(place);
            add(&less);
        }
    }
    for slot in 0..state.orders.len() {
        let order = &state.orders[slot];
        for k in 0..256 {
            if order.marks[k] != 0 {
                let mut less = state.clone();
                less.orders[slot].marks[k] = 0;
                add(&less);
            }
        }
        for variable in 0..16 {
            if (order.bound[variable], order.values[variable]) != (0, 0) {
                let mut less = state.clone();
                less.orders[slot].bound[variable] = 0;
                less.orders[slot].values[variable] = 0;
                add(&less);
            }
        }
        if order.cause != 0 {
            let mut less = state.clone();
            less.orders[slot].cause = 0;
            add(&less);
        }
        if (1..=32).contains(&order.kept) {
            for at in 0..order.kept as usize {
                let mut less = state.clone();
                let order = &mut less.orders[slot];
                order.remembered.copy_within(at + 1.., at);
                order.remembered[31] = NO_CLOSING;
                order.kept -= 1;
                add(&less);
            }
        }
    }
    barer
}
