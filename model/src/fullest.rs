//! The packed states of the benchmark: the fullest, one that repeats, and those of the sample order before each of its steps.

use crate::full::{code, list};
use crate::generate::{Kind, Sheet};
use crate::packed::{self, SIZE};
use crate::state::Message;

/// The sample plan as text, taken in when this package is built.
pub const SAMPLE: &str = include_str!("../../examples/order.txt");

fn message(partner: u32, operation: u32, values: &[u32]) -> Message {
    let mut message = Message {
        partner,
        operation,
        count: values.len() as u32,
        values: [0; 4],
        reply: 0,
    };
    message.values[..values.len()].copy_from_slice(values);
    message
}

fn loaded(plan: &[u8]) -> Vec<u8> {
    let mut state = vec![0; SIZE];
    assert_eq!(packed::load(plan, &mut state), 0);
    state
}

fn posted(state: &mut [u8], message: Message) {
    assert_eq!(packed::post(state, message), 0);
}

/// A plan of 256 activities: after its start 244 receives are open, all on (1, 1) with variable 0 for correlation, and no two with the same variables.
fn many_receives() -> Vec<u8> {
    let mut sheet = Sheet::default();
    let mut others =
        (1..16).flat_map(|a| (a + 1..16).flat_map(move |b| (b + 1..16).map(move |c| [0, a, b, c])));
    sheet.header(16, &[0]);
    list(&mut sheet, 8, 2);
    sheet.begin();
    sheet.message(Some(2), 0, 0, &[0]);
    list(&mut sheet, 9, 8);
    for count in [31, 31, 31, 31, 31, 31, 31, 27] {
        list(&mut sheet, 9, count);
        for _ in 0..count {
            sheet.begin();
            let variables = others.next().expect("three of fifteen");
            sheet.message(Some(2), 1, 1, &variables);
        }
    }
    code(&mut sheet, 0);
    assert_eq!(sheet.parts.len(), 256);
    sheet.bytes
}

/// 16 live orders and, but for the last places, 64 messages that each fit the 244 open receives of one order.
pub fn fullest(waiting: u32) -> Vec<u8> {
    let mut state = loaded(&many_receives());
    for order in 0..16 {
        posted(&mut state, message(0, 0, &[order]));
        assert_eq!(packed::step(&mut state, 0) >> 32, 0);
    }
    for at in 0..waiting {
        posted(&mut state, message(1, 1, &[at % 16, 7, 7, 7]));
    }
    state
}

/// A message that no receive of that plan takes.
pub fn outward() -> Message {
    message(2, 0, &[1])
}

/// An order that repeats a set for ever.
pub fn repeating() -> Vec<u8> {
    let mut sheet = Sheet::default();
    sheet.header(2, &[]);
    list(&mut sheet, 8, 2);
    sheet.begin();
    sheet.message(Some(2), 0, 0, &[0]);
    code(&mut sheet, 7);
    sheet.put(Kind::Form, 0);
    sheet.put(Kind::Constant, 1);
    code(&mut sheet, 3);
    sheet.put(Kind::Variable, 1);
    sheet.put(Kind::Form, 1);
    sheet.put(Kind::Variable, 0);
    code(&mut sheet, 0);
    let mut state = loaded(&sheet.bytes);
    posted(&mut state, message(0, 0, &[5]));
    assert_eq!(packed::step(&mut state, 0) >> 32, 0);
    state
}

/// The sample order from its start to its end, paid: the state before each step.
pub fn sample() -> Vec<Vec<u8>> {
    let plan = crate::text::read(SAMPLE.as_bytes()).expect("a plan as text");
    let mut state = loaded(&plan);
    let mut states = Vec::new();
    let answers = [
        Message {
            reply: 10,
            ..message(5, 0, &[101, 5, 3])
        },
        message(1, 2, &[101, 5, 1]),
        message(2, 4, &[101]),
        message(3, 7, &[101]),
        message(4, 10, &[101]),
    ];
    let mut answers = answers.into_iter();
    loop {
        let before = state.clone();
        let answer = packed::step(&mut state, 0);
        match answer >> 32 {
            0 => states.push(before),
            _ => posted(
                &mut state,
                answers.next().expect("an answer that it waits for"),
            ),
        }
        if answer >> 32 == 0 && answer & 0xFF == 1 {
            return states;
        }
    }
}
