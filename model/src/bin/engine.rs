//! Compares the engine's model with the proved library: random runs, states that no run reaches, pairs of steps.

#![forbid(unsafe_code)]

use model::calls::Library;
use model::comparison::{Comparison, Difference};
use model::describe;
use model::order::Faults;
use model::wander::{Seen, Wander};
use std::process::exit;
use std::time::Instant;

const SEED: u64 = 1;
const RUNS: u64 = 20_000;
const CALLS: u64 = 1_000_000;
/// Fewer runs are not held to these.
const BEYOND: u64 = 50_000;
const PAIRS: u64 = 20_000;

fn main() {
    let mut arguments = std::env::args().skip(1);
    let mut number = |default| match arguments.next() {
        None => default,
        Some(text) => text.parse().unwrap_or_else(|_| {
            eprintln!("usage: engine [SEED] [RUNS] [CALLS]");
            exit(2);
        }),
    };
    let (seed, runs, calls) = (number(SEED), number(RUNS), number(CALLS));
    let command = std::env::var("MOONHALYARD_ENGINE").unwrap_or_else(|_| {
        eprintln!("engine: MOONHALYARD_ENGINE is the command that answers for the library; model/run sets it");
        exit(2);
    });
    let began = Instant::now();
    let mut wander = Wander::new(Comparison::new(Library::start(&command)), seed);
    for at in 0..runs {
        // What is left of the calls, shared by the runs that are left.
        let left = calls.saturating_sub(wander.comparison.calls - wander.seen.beyond);
        wander.run((left / (runs - at)).max(1) as usize);
    }
    wander.comparison.finish();
    let Wander {
        mut comparison,
        seen,
        ..
    } = wander;
    if let Some(difference) = comparison.smallest.take() {
        differ(&mut comparison, difference);
        let [reached, beyond] = comparison.differences;
        println!(
            "DIFFERENT: {reached} calls in runs and {beyond} on states that no run reaches, of {} calls of seed {seed}",
            comparison.calls
        );
        exit(1);
    }
    println!(
        "{} calls alike in {} runs of seed {seed}, {} of them on states that no run reaches; {:.1} s",
        comparison.calls,
        seen.runs,
        seen.beyond,
        began.elapsed().as_secs_f64()
    );
    told(&seen, runs >= RUNS);
}

/// How often each number of a fault was seen.
fn by_number(seen: &Faults) -> String {
    let [plain, unbound, large, below, conflict, partner, numbered] = seen;
    format!(
        "0: {plain}, 1: {unbound}, 2: {large}, 3: {below}, 4: {conflict}, 5: {partner}, 16 to 255: {numbered}"
    )
}

/// Prints how often things were seen, and fails where one was not.
fn told(seen: &Seen, full: bool) {
    let refusals: Vec<String> = (10..=18)
        .map(|number| format!("{number}: {}", seen.refusals[number]))
        .collect();
    println!("refused {}", refusals.join(", "));
    let [going, well, handled, failed, left] = seen.ends;
    println!(
        "{} steps alone: {going} ended no order, well {well}, handled {handled}, failed {failed}, left {left}; {} undo parts started",
        seen.taken, seen.undone
    );
    println!(
        "two receives open for one thing: {} raises, {} steps with several",
        seen.conflicts, seen.many_conflicts
    );
    println!("ended handled by fault {}", by_number(&seen.handled));
    println!("failed by fault {}", by_number(&seen.failed));
    println!(
        "out of a part of an inner scope went fault {}",
        by_number(&seen.outward)
    );
    println!("absorbed was fault {}", by_number(&seen.absorbed));
    println!(
        "fault parts of scopes that have some by number: {} by number, {} general ones",
        seen.by_number, seen.general
    );
    println!(
        "handed on: {} closings, {} closes at 32; {} undo parts started by a scope further out",
        seen.handed, seen.handed_full, seen.through
    );
    println!(
        "held at a step: sends {}, closes {}, starts {}",
        seen.held_sends, seen.held_closes, seen.held_starts
    );
    println!(
        "sends to a partner that a variable holds: {} sent, {} of an unbound variable, {} of no such partner, {} of them while 64 wait; held at {} steps",
        seen.answered,
        seen.answers_unbound,
        seen.no_such_partner,
        seen.no_such_partner_full,
        seen.held_answers
    );
    println!(
        "receives that stored whom to reply to: {}, {} of them another than 0",
        seen.asked, seen.asked_by
    );
    let [
        _,
        active,
        _,
        done,
        faulted,
        undoing,
        handling,
        stopped,
        stopped_undoing,
    ] = seen.scopes;
    println!(
        "scopes after a step of a run: active {active}, body done {done}, faulted and waiting {faulted}, undoing {undoing}, handling {handling}, stopped and waiting {stopped}, stopped and undoing {stopped_undoing}"
    );
    let [set, choose, repeat, raise, leave, close] = seen.paired;
    println!(
        "{} pairs of steps alike in both orders (set {set}, choose {choose}, repeat {repeat}, raise {raise}, leave {leave}, close {close})",
        seen.pairs
    );
    let few = [
        seen.held_sends,
        seen.held_closes,
        seen.held_starts,
        seen.undone,
        seen.through,
        seen.handed,
        seen.handed_full,
        seen.conflicts,
        seen.many_conflicts,
        seen.by_number,
        seen.general,
        seen.answered,
        seen.answers_unbound,
        seen.no_such_partner,
        seen.no_such_partner_full,
        seen.held_answers,
        seen.asked,
        seen.asked_by,
    ];
    let missing = seen.refusals[10..].contains(&0)
        || seen.ends.contains(&0)
        || few.contains(&0)
        || seen.handled.contains(&0)
        || seen.failed.contains(&0)
        || seen.outward.contains(&0)
        || seen.absorbed.contains(&0)
        || seen.paired.contains(&0)
        || seen.scopes[3..].contains(&0);
    if missing {
        println!("FAILED: something was never seen");
        exit(1);
    }
    if full && (seen.beyond < BEYOND || seen.pairs < PAIRS) {
        println!(
            "FAILED: fewer than {BEYOND} calls on states that no run reaches, or fewer than {PAIRS} pairs"
        );
        exit(1);
    }
}

/// Shows the smallest difference, on a state as bare as it stays one.
fn differ(comparison: &mut Comparison, difference: Difference) {
    let difference = comparison.shrink(difference);
    println!(
        "The smallest difference, on a state that {} run reaches but for what was taken away:",
        if difference.reached { "a" } else { "no" }
    );
    println!("{}", describe::described(&difference.before));
    println!(
        "call    {:?} (state of {} bytes)",
        difference.call, difference.size
    );
    let [(a, one), (b, other)] = comparison.both(&difference);
    println!(
        "model   answers {a:#x}, budget {}, message {:02x?}",
        one.budget(),
        one.message()
    );
    println!(
        "library answers {b:#x}, budget {}, message {:02x?}",
        other.budget(),
        other.message()
    );
    println!("{}", describe::apart(&one, &other));
}
