//! The scenarios of data/scenarios.txt, data/hand.txt and data/held.txt: calls on one engine from a fresh state, each with its answer.

use crate::engine::{self, Taken};
use crate::reader;
use crate::state::{Message, State, Tally};
use crate::vectors;

/// The files, taken in when this package is built.
pub const TEXT: &str = include_str!("../../data/scenarios.txt");
pub const HAND: &str = include_str!("../../data/hand.txt");
pub const HELD: &str = include_str!("../../data/held.txt");

/// What a file came to: its scenarios and lines, each line whose answer differs, and the state at the end.
pub struct Played {
    pub scenarios: usize,
    pub lines: usize,
    pub wrong: Vec<String>,
    pub state: State,
}

/// Plays all scenarios of a file.
pub fn play(text: &str) -> Played {
    let mut played = Played {
        scenarios: 0,
        lines: 0,
        wrong: Vec::new(),
        state: State::without_plan(),
    };
    let mut tally = Tally::default();
    let mut plan = Vec::new();
    for (at, line) in text.lines().enumerate() {
        if line.starts_with("# scenario") {
            played.scenarios += 1;
        }
        if line.trim().is_empty() || line.starts_with('#') {
            continue;
        }
        played.lines += 1;
        let (call, expected) = line.split_once('=').expect("an answer behind '='");
        let expected = expected.trim();
        let words: Vec<&str> = call.split_whitespace().collect();
        let answer = call_of(&words, &mut plan, &mut played.state, &mut tally);
        if answer != expected {
            played.wrong.push(format!(
                "line {}: {} = {answer}, not {expected}",
                at + 1,
                call.trim()
            ));
        }
    }
    played
}

fn joined<T: ToString>(numbers: impl IntoIterator<Item = T>) -> String {
    let words: Vec<String> = numbers.into_iter().map(|n| n.to_string()).collect();
    words.join(" ")
}

fn written(message: &Message) -> String {
    let head = [message.partner, message.operation, message.count];
    let values = &message.values[..message.count as usize];
    joined(head.iter().chain(values).chain([&message.reply]))
}

/// Makes the call that the words spell; `plan` are the bytes of the last plan. Answers what stands behind '='.
fn call_of(words: &[&str], plan: &mut Vec<u8>, state: &mut State, tally: &mut Tally) -> String {
    let number = |at: usize| words[at].parse::<u64>().expect("a number");
    match words[0] {
        "plan" => {
            *tally = Tally::default();
            *plan = vectors::bytes(words[1]).expect("a plan");
            let loaded = engine::load(plan);
            *state = loaded.clone().unwrap_or_else(|_| State::without_plan());
            match loaded {
                Ok(state) => format!("0 {}", state.passes().expect("an accepted plan").count()),
                Err(refusal) => format!("{} {}", refusal.number, refusal.place),
            }
        }
        "show" => match reader::read(plan) {
            Err(refusal) => refusal.number.to_string(),
            Ok(read) => match read.parts.get(number(1) as usize) {
                Some(part) => format!(
                    "0 {}",
                    vectors::hex(&plan[part.start as usize..part.end as usize])
                ),
                None => "16".to_string(),
            },
        },
        "post" => {
            let reply = words.iter().position(|&word| word == "reply");
            let end = reply.unwrap_or(words.len());
            let mut values = [0; 4];
            for at in 3..end.min(7) {
                values[at - 3] = number(at) as u32;
            }
            let message = Message {
                partner: number(1) as u32,
                operation: number(2) as u32,
                count: end as u32 - 3,
                values,
                reply: reply.map_or(0, |at| number(at + 1) as u32),
            };
            engine::post(state, message).err().unwrap_or(0).to_string()
        }
        "offer" => match engine::offers(state) {
            Err(refusal) => refusal.to_string(),
            Ok(offer) => {
                let held = if offer.held.any() { "held" } else { "free" };
                let mut words = vec![offer.steps.len().to_string(), held.to_string()];
                for step in offer.steps {
                    words.push(format!("{}:{}:{}", step.slot, step.activity, step.place));
                }
                words.join(" ")
            }
        },
        "step" => match engine::step(state, number(1), tally) {
            Err(refusal) => refusal.to_string(),
            Ok(Taken {
                step, end, fault, ..
            }) => {
                let end = end.map_or(0, |end| end as usize);
                let fault = fault.map_or("-".to_string(), |fault| fault.to_string());
                let taken = joined([0, step.slot, step.activity, step.place, end]);
                format!("{taken} {fault}")
            }
        },
        "run" => {
            let mut budget = number(1);
            let choices: Vec<u64> = (2..words.len()).map(number).collect();
            let (taken, refusal) = engine::run(state, &choices, &mut budget, tally);
            format!("{taken} {refusal}")
        }
        "collect" => match engine::collect(state) {
            Err(refusal) => refusal.to_string(),
            Ok(message) => format!("0 {}", written(&message)),
        },
        "waiting" => {
            let messages: Vec<String> = state.waiting().iter().map(written).collect();
            messages.join(" | ")
        }
        "tally" => joined(tally.0),
        other => panic!("no call is named {other}"),
    }
}
