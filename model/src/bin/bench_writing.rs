//! Times the proved writer beside the model's: full plans written from their rows, and given as rows.

#![forbid(unsafe_code)]

use model::full::plans;
use model::{boundary_writer, rows};
use std::hint::black_box;
use std::time::Instant;

/// Calls timed as one, and how often that is done. The median of these counts.
const INNER: u32 = 20;
const ROUNDS: usize = 501;

/// Nanoseconds of a call.
fn timed(work: &mut dyn FnMut() -> u64) -> u64 {
    let began = Instant::now();
    for _ in 0..INNER {
        black_box(work());
    }
    began.elapsed().as_nanos() as u64 / u64::from(INNER)
}

/// The medians of two calls, turn and turn about.
fn medians(one: &mut dyn FnMut() -> u64, other: &mut dyn FnMut() -> u64) -> (u64, u64) {
    let (mut first, mut second) = (Vec::new(), Vec::new());
    for round in 0..ROUNDS {
        if round % 2 == 0 {
            first.push(timed(one));
            second.push(timed(other));
        } else {
            second.push(timed(other));
            first.push(timed(one));
        }
    }
    first.sort_unstable();
    second.sort_unstable();
    (first[ROUNDS / 2], second[ROUNDS / 2])
}

fn main() {
    println!(
        "Writing full plans from rows, and giving their rows: median of {ROUNDS} rounds of {INNER} calls."
    );
    for (name, bytes) in plans() {
        let table = rows::table_of(&bytes).expect("a full plan is accepted");
        let mut out = vec![0; bytes.len()];
        let mut given = vec![0; table.len()];
        assert_eq!(boundary_writer::write(&table, &mut out), bytes.len() as u64);
        assert_eq!(out, bytes, "{name}: written as it was");
        assert_eq!(
            boundary_writer::rows(&bytes, &mut given),
            table.len() as u64
        );
        assert_eq!(given, table, "{name}: the same rows");
        let mut other = vec![0; bytes.len()];
        let (proved, model) = medians(
            &mut || boundary_writer::write(black_box(&table), &mut out),
            &mut || rows::write(black_box(&table), &mut other).map_or(0, |n| n as u64),
        );
        let mut also = vec![0; table.len()];
        let (proved_rows, model_rows) = medians(
            &mut || boundary_writer::rows(black_box(&bytes), &mut given),
            &mut || rows::give(black_box(&bytes), &mut also).map_or(0, |n| n as u64),
        );
        let us = |time: u64| time as f64 / 1e3;
        println!(
            "{name} ({} rows): write proved {:.1} us, model {:.1} us, {:.2}; rows proved {:.1} us, model {:.1} us, {:.2}",
            table.len() / rows::PLACES,
            us(proved),
            us(model),
            proved as f64 / model as f64,
            us(proved_rows),
            us(model_rows),
            proved_rows as f64 / model_rows as f64
        );
    }
}
