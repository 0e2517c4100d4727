//! Compares the model with the proved library: edge cases, vectors and generated plans.

#![forbid(unsafe_code)]

use model::answers::Library;
use model::edges;
use model::generate::{self, Random};
use model::reader::{Plan, Refusal, read_into};
use model::vectors;
use std::process::exit;
use std::time::Instant;

const SEED: u64 = 1;
const COUNT: u64 = 200_000;
/// A plan with more activities has only so many of them shown.
const SHOWN: usize = 24;

struct Comparison {
    library: Library,
    plan: Plan,
    /// Accepted at 0, refusals at their numbers.
    tally: [u64; 22],
    parts: u64,
    /// Chooses the parts to show.
    random: Random,
}

fn main() {
    let mut arguments = std::env::args().skip(1);
    let mut number = |default| match arguments.next() {
        None => default,
        Some(text) => text.parse().unwrap_or_else(|_| {
            eprintln!("usage: compare [SEED] [COUNT]");
            exit(2);
        }),
    };
    let seed = number(SEED);
    let count = number(COUNT);
    let began = Instant::now();
    let command = std::env::var("MOONHALYARD_ANSWERS").unwrap_or_else(|_| {
        eprintln!("compare: MOONHALYARD_ANSWERS is the command that answers for the library; model/run sets it");
        exit(2);
    });
    let mut comparison = Comparison {
        library: Library::start(&command),
        plan: Plan::default(),
        tally: [0; 22],
        parts: 0,
        random: Random::new(!seed),
    };

    // Short plans first: a difference is then shown on a short plan.
    let mut cases = edges::all();
    cases.sort_by_key(|case| case.bytes.len());
    for case in &cases {
        comparison.compare(&case.name, &case.bytes);
        check_edge(case);
    }
    let written = vectors::all();
    for vector in &written {
        comparison.compare(&format!("vector on line {}", vector.line), &vector.bytes);
        check_vector(vector);
    }
    let mut random = Random::new(seed);
    for at in 0..count {
        let bytes = generate::mixed(&mut random);
        comparison.compare(&format!("generated plan {at} of seed {seed}"), &bytes);
    }

    let tally = &comparison.tally;
    let earned = [1, 2, 3, 4, 5, 6, 7, 8, 9, 21];
    let refusals: Vec<String> = earned
        .iter()
        .map(|&number| format!("{number}: {}", tally[number]))
        .collect();
    println!(
        "{} plans alike ({} edge cases, {} vectors, {count} of seed {seed}), {} parts shown, {:.1} s",
        tally.iter().sum::<u64>(),
        cases.len(),
        written.len(),
        comparison.parts,
        began.elapsed().as_secs_f64(),
    );
    println!("accepted {}, refused {}", tally[0], refusals.join(", "));
    if tally[0] == 0 || earned.iter().any(|&number| tally[number] == 0) {
        println!("FAILED: an answer that no plan got");
        exit(1);
    }
}

/// The model must also give the answer that an edge case came with.
fn check_edge(case: &edges::Case) {
    let answer = match model::reader::read(&case.bytes) {
        Ok(plan) => edges::Answer::Accepted(plan.count()),
        Err(Refusal { number, place }) => edges::Answer::Refused(number, place as usize),
    };
    if case.answer != edges::Answer::Open && case.answer != answer {
        println!(
            "FAILED: model on {}: {answer:?}, not {:?}",
            case.name, case.answer
        );
        println!("plan {}", vectors::hex(&case.bytes));
        exit(1);
    }
}

/// And the answer that stands on a vector's line.
fn check_vector(vector: &vectors::Vector) {
    let answer = match model::reader::read(&vector.bytes) {
        Ok(plan) => (0, 0, plan.count()),
        Err(Refusal { number, place }) => (number, place, 0),
    };
    if answer != (vector.refusal, vector.place, vector.count) {
        println!(
            "FAILED: model on line {}: refusal, place, count are {answer:?}",
            vector.line
        );
        exit(1);
    }
}

impl Comparison {
    fn compare(&mut self, name: &str, bytes: &[u8]) {
        let refusal = read_into(bytes, &mut self.plan).err();
        let count = self.plan.count();
        self.tally[refusal.map_or(0, |refusal| refusal.number) as usize] += 1;
        let expected = match refusal {
            Some(Refusal { number, place }) => u64::from(number) << 32 | u64::from(place),
            None => count as u64,
        };
        let activities = self.activities(refusal.is_some(), count);
        let answers = self.library.answers(bytes, &activities);
        let got = answers[0];
        if got != expected {
            let part = |answer: u64| match answer >> 32 {
                0 => format!("accepted with {answer} activities and arms"),
                number => format!("refusal {number} at place {}", answer as u32),
            };
            differ(name, bytes, "accept", &part(expected), &part(got), got);
        }
        for (k, got) in activities.iter().zip(&answers[1..]) {
            self.shown(name, bytes, refusal, *k, *got);
        }
    }

    /// The activities to be shown: all, or some of many; one more than there are; and the largest number.
    fn activities(&mut self, refused: bool, count: usize) -> Vec<u32> {
        let mut some: Vec<u32> = if refused {
            vec![0]
        } else if count <= SHOWN {
            (0..count as u32).collect()
        } else {
            let random = &mut self.random;
            [0, count as u32 - 1]
                .into_iter()
                .chain((2..SHOWN).map(|_| random.below(count) as u32))
                .collect()
        };
        some.push(count as u32);
        some.push(u32::MAX);
        some
    }

    fn shown(&mut self, name: &str, bytes: &[u8], refusal: Option<Refusal>, k: u32, got: u64) {
        let expected = match (refusal, self.plan.parts.get(k as usize)) {
            (Some(refusal), _) => u64::from(refusal.number) << 48,
            (None, None) => 16 << 48,
            (None, Some(part)) => u64::from(part.start) << 24 | u64::from(part.end - part.start),
        };
        self.parts += u64::from(expected >> 48 == 0);
        if got != expected {
            let part = |answer: u64| {
                let (start, length) = (answer >> 24 & 0xFF_FFFF, answer & 0xFF_FFFF);
                format!("refusal {}, start {start}, length {length}", answer >> 48)
            };
            differ(
                name,
                bytes,
                &format!("show {k}"),
                &part(expected),
                &part(got),
                got,
            );
        }
    }
}

fn differ(name: &str, bytes: &[u8], call: &str, expected: &str, got: &str, raw: u64) -> ! {
    println!("DIFFERENT: {call} of {name}");
    println!("plan    {}", vectors::hex(bytes));
    println!("model   {expected}");
    println!("library {got} ({raw:#018x})");
    exit(1);
}
