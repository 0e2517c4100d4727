//! The model in the library's place, over the same pipes as `engine.c`: for testing what compares the two.

#![forbid(unsafe_code)]

use model::calls::{Desk, heard};
use std::io::{Read, Write, stdin, stdout};

fn main() {
    let (mut from, mut to) = (stdin().lock(), stdout().lock());
    let mut desk = Desk::new();
    let mut length = [0; 4];
    while from.read_exact(&mut length).is_ok() {
        let mut batch = vec![0; u32::from_le_bytes(length) as usize];
        from.read_exact(&mut batch).expect("a whole batch");
        let mut rest = &batch[..];
        let mut told = Vec::new();
        while !rest.is_empty() {
            match heard(&mut rest) {
                None => told.extend(&desk.bytes[..]),
                Some((size, call)) => {
                    told.extend(desk.call(size, &call).answer.to_le_bytes());
                    told.extend(desk.digest().to_le_bytes());
                }
            }
        }
        to.write_all(&told)
            .and_then(|()| to.flush())
            .expect("an open output");
    }
}
