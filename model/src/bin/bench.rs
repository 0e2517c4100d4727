//! Times the proved reader and engine beside the model, and measures the stack that their calls use.

#![forbid(unsafe_code)]

use model::full::{FULL, plans};
use model::plan::{Kind, Plan as PlanTree};
use model::reader::{Plan, read, read_into};
use model::state::Message;
use model::{boundary, edges, fullest, packed};
use std::hint::black_box;
use std::time::Instant;

/// Readings timed as one, and how often that is done. The median of these counts.
const INNER: u32 = 20;
const ROUNDS: usize = 1001;

fn main() {
    if std::env::args().nth(1).as_deref() == Some("stack") {
        return engine_stack();
    }
    speed();
    engine_speed();
    stack();
    engine_stack();
}

fn speed() {
    println!(
        "Reading a full plan of {FULL} bytes; bytes per second, median of {ROUNDS} rounds of {INNER} readings."
    );
    println!("The model also keeps each part; the proved reader's accept gives the count alone.");
    for (name, bytes) in plans() {
        assert_eq!(bytes.len(), FULL);
        let count = read(&bytes).expect("a full plan is legal").count();
        assert_eq!(
            boundary::accept(&bytes),
            count as u64,
            "{name}: the proved reader accepts it too"
        );
        let mut plan = Plan::default();
        let mut proved = Vec::with_capacity(ROUNDS);
        let mut model = Vec::with_capacity(ROUNDS);
        for round in 0..ROUNDS {
            // Side by side, first one first, then the other.
            if round % 2 == 0 {
                proved.push(time_proved(&bytes));
                model.push(time_model(&bytes, &mut plan));
            } else {
                model.push(time_model(&bytes, &mut plan));
                proved.push(time_proved(&bytes));
            }
        }
        let proved = rate(&mut proved);
        let model = rate(&mut model);
        println!(
            "{name} ({count} activities): proved {proved:.0} B/s, model {model:.0} B/s, proved/model {:.2}",
            proved / model
        );
    }
}

#[inline(never)]
fn time_proved(bytes: &[u8]) -> u64 {
    let began = Instant::now();
    for _ in 0..INNER {
        black_box(boundary::accept(black_box(bytes)));
    }
    began.elapsed().as_nanos() as u64
}

#[inline(never)]
fn time_model(bytes: &[u8], plan: &mut Plan) -> u64 {
    let began = Instant::now();
    for _ in 0..INNER {
        let _ = black_box(read_into(black_box(bytes), black_box(plan)));
    }
    began.elapsed().as_nanos() as u64
}

/// Bytes per second at the median.
fn rate(times: &mut [u64]) -> f64 {
    times.sort_unstable();
    let median = times[times.len() / 2].max(1);
    f64::from(INNER) * FULL as f64 / (median as f64 / 1e9)
}

/// A call on a plan and a number k.
type Work = fn(&[u8], u32) -> u64;

fn stack() {
    let cases = edges::all();
    let worked = cases
        .iter()
        .filter(|case| case.answer != edges::Answer::Open);
    let mut all: Vec<(&str, &[u8])> = worked
        .map(|case| (case.name.as_str(), &case.bytes[..]))
        .collect();
    let full = plans();
    all.extend(full.iter().map(|(name, bytes)| (*name, &bytes[..])));
    // The last activity, or any where there is none.
    let last = |bytes: &[u8]| read(bytes).map_or(0, |plan| plan.count() as u32 - 1);

    // First on a thread with a guard: running out would end this program.
    std::thread::scope(|scope| {
        let run = || {
            for (_, bytes) in &all {
                black_box(boundary::accept(bytes));
                black_box(boundary::show(bytes, last(bytes)));
                black_box(boundary::show(bytes, u32::MAX));
            }
        };
        let thread = std::thread::Builder::new()
            .stack_size(boundary::STACK)
            .spawn_scoped(scope, run);
        thread
            .expect("a thread with 256 KiB")
            .join()
            .expect("its end");
    });
    println!(
        "Accept and show of {} plans ran on a thread with a stack of {} bytes.",
        all.len(),
        boundary::STACK
    );

    // Then on a painted stack. What a last call reserves and never writes is not seen.
    let works: [(&str, Work); 4] = [
        ("nothing (the least that can be told)", |_, _| 0),
        ("proved accept", |bytes, _| boundary::accept(bytes)),
        ("proved show", boundary::show),
        ("model", |bytes, _| {
            read(bytes).map_or(0, |plan| plan.count() as u64)
        }),
    ];
    let mut painted = boundary::PaintedStack::new();
    for (name, work) in works {
        let mut most = (0, "");
        for (plan, bytes) in &all {
            let k = last(bytes);
            let (answer, used) = painted.run(&mut || work(bytes, k));
            black_box(answer);
            if used > most.0 {
                most = (used, plan);
            }
        }
        println!(
            "Stack used by {name}: at most {} bytes ({}).",
            most.0, most.1
        );
    }
}

/// The calls of an engine on packed states.
#[derive(Clone, Copy)]
struct Engine {
    post: fn(&mut [u8], Message) -> u32,
    collect: fn(&mut [u8], &mut [u8]) -> u32,
    offers: fn(&[u8]) -> u64,
    step: fn(&mut [u8], u64) -> u64,
    run: fn(&mut [u8], &[u64], &mut u64) -> u32,
}

const PROVED: Engine = Engine {
    post: boundary::post,
    collect: boundary::collect,
    offers: boundary::offers,
    step: boundary::step,
    run: boundary::run,
};

const MODEL: Engine = Engine {
    post: packed::post,
    collect: packed::collect,
    offers: packed::offers,
    step: packed::step,
    run: packed::run,
};

/// Something done with an engine on a state, and how many calls it counts for.
struct Task {
    name: &'static str,
    state: Vec<u8>,
    calls: u32,
    work: Box<dyn Fn(Engine, &mut [u8]) -> u64>,
}

fn tasks() -> Vec<Task> {
    let task = |name, state, calls, work| Task {
        name,
        state,
        calls,
        work,
    };
    let full = fullest::fullest(64);
    let last = packed::offers(&full) - 1;
    let mut outward = fullest::fullest(63);
    assert_eq!(packed::post(&mut outward, fullest::outward()), 0);
    let sample = fullest::sample();
    let many = sample.len() as u32;
    let (first, zeros) = (sample[0].clone(), vec![0; 1000]);
    vec![
        task(
            "step on the fullest state, first choice",
            full.clone(),
            1,
            Box::new(|engine, state| (engine.step)(state, 0)),
        ),
        task(
            "step on the fullest state, last choice",
            full.clone(),
            1,
            Box::new(move |engine, state| (engine.step)(state, last)),
        ),
        task(
            "offers of the fullest state",
            full,
            1,
            Box::new(|engine, state| (engine.offers)(state)),
        ),
        task(
            "post of message 64 on the fullest state",
            fullest::fullest(63),
            1,
            Box::new(|engine, state| u64::from((engine.post)(state, fullest::outward()))),
        ),
        task(
            "collect of message 64 on the fullest state",
            outward,
            1,
            Box::new(|engine, state| u64::from((engine.collect)(state, &mut [0; packed::MESSAGE]))),
        ),
        task(
            "step of the sample order",
            first,
            many,
            Box::new(move |engine, state| {
                sample.iter().fold(0, |sum, before| {
                    state.copy_from_slice(before);
                    sum + (engine.step)(state, 0)
                })
            }),
        ),
        task(
            "run of 1,000 steps",
            fullest::repeating(),
            1,
            Box::new(move |engine, state| u64::from((engine.run)(state, &zeros, &mut 1000))),
        ),
    ]
}

/// Rounds of each task, and how long each is to take at least.
const TASK_ROUNDS: usize = 101;
const TASK_ROUND: u128 = 2_000_000;

fn engine_speed() {
    println!(
        "Calls on packed states, each on a fresh copy; microseconds, median of {TASK_ROUNDS} rounds."
    );
    for task in tasks() {
        let (mut one, mut other) = (task.state.clone(), task.state.clone());
        let answers = (
            (task.work)(PROVED, &mut one),
            (task.work)(MODEL, &mut other),
        );
        assert!(
            answers.0 == answers.1 && one == other,
            "{}: both do the same",
            task.name
        );
        let mut inner = 1;
        while time_task(&task, MODEL, inner) < TASK_ROUND {
            inner *= 2;
        }
        let mut times = [Vec::new(), Vec::new()];
        for round in 0..2 * TASK_ROUNDS {
            let engine = [PROVED, MODEL][round % 2];
            times[round % 2].push(time_task(&task, engine, inner));
        }
        let [proved, model] = times.map(|mut times| {
            times.sort_unstable();
            times[times.len() / 2] as f64 / f64::from(inner) / f64::from(task.calls) / 1000.0
        });
        println!(
            "{}: proved {proved:.1} us, model {model:.1} us, proved/model {:.2}",
            task.name,
            proved / model
        );
    }
}

#[inline(never)]
fn time_task(task: &Task, engine: Engine, inner: u32) -> u128 {
    let mut state = task.state.clone();
    let began = Instant::now();
    for _ in 0..inner {
        state.copy_from_slice(&task.state);
        black_box((task.work)(engine, black_box(&mut state)));
    }
    began.elapsed().as_nanos()
}

fn engine_stack() {
    let mut painted = boundary::PaintedStack::new();
    for task in tasks() {
        let mut used = [0; 2];
        for (at, engine) in [PROVED, MODEL].into_iter().enumerate() {
            let mut state = task.state.clone();
            used[at] = painted.run(&mut || (task.work)(engine, &mut state)).1;
        }
        println!(
            "Stack used by {}: proved {} bytes, model {} bytes.",
            task.name, used[0], used[1]
        );
    }
    // A start of each plan that is accepted, for the deepest of them.
    let mut most = [(0, String::new()), (0, String::new())];
    for case in edges::all() {
        let mut state = vec![0; packed::SIZE];
        if packed::load(&case.bytes, &mut state) != 0 {
            continue;
        }
        for activity in PlanTree::of(&case.bytes).activities {
            if let Kind::Receive(tuple, _) | Kind::Arm(tuple) = activity.kind {
                let message = Message {
                    partner: tuple.partner,
                    operation: tuple.operation,
                    count: tuple.count as u32,
                    values: [0; 4],
                    reply: 0,
                };
                packed::post(&mut state, message);
                break;
            }
        }
        let works: [fn(&mut [u8]) -> u64; 2] = [
            |state| boundary::step(state, 0),
            |state| boundary::offers(state),
        ];
        for (at, work) in works.into_iter().enumerate() {
            let mut state = state.clone();
            let used = painted.run(&mut || work(&mut state)).1;
            if used > most[at].0 {
                most[at] = (used, case.name.clone());
            }
        }
    }
    for (name, (used, plan)) in ["step", "offers"].iter().zip(most) {
        println!("Stack used by a proved {name} on a fresh state: at most {used} bytes ({plan}).");
    }
}
