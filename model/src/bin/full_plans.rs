//! Writes the full plans of the benchmark, each with its length in four bytes before it.

#![forbid(unsafe_code)]

use std::io::{Write, stdout};

fn main() {
    let mut out = stdout().lock();
    for (_, bytes) in model::full::plans() {
        let length = u32::try_from(bytes.len()).expect("a short plan");
        out.write_all(&length.to_le_bytes())
            .expect("an open output");
        out.write_all(&bytes).expect("an open output");
    }
}
