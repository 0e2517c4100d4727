//! A small host: examples/host.c in Rust, with the same commands, the same answers and the same file, also beside it.

use moonhalyard::{End, Refused, State, Step};
use std::env;
use std::fs;
use std::io::{self, ErrorKind, Write};
use std::process::ExitCode;

fn told(word: &str, step: &Step) -> String {
    let end = match step.end {
        End::None => String::new(),
        End::Well => ", the order ended well".into(),
        End::Handled => format!(", the order ended handled, fault {}", step.fault),
        End::Failed => format!(", the order failed, fault {}", step.fault),
        End::Left => ", the order left".into(),
    };
    format!("{word}: slot {}, activity {}, message place {}{end}\n", step.slot, step.activity, step.place)
}

fn load(name: &str, plan_name: &str) -> Result<String, String> {
    let text = fs::read(plan_name).map_err(|_| format!("load: cannot read {plan_name}\n"))?;
    let plan = moonhalyard::text(&text).map_err(|r| format!("load: {plan_name}, line {}: {}\n", r.place, moonhalyard::says(r.number)))?;
    let fresh = State::load(&plan).map_err(|r| format!("load: refused, {r}\n"))?;
    moonhalyard::replace(name, &fresh).map_err(|_| format!("load: the state could not be saved in {name}\n"))?;
    Ok(format!("load: a plan of {} bytes\n", plan.len()))
}

/// What a command answers.
fn done(state: &mut State, word: &str, numbers: &[u64], reply: u64) -> Result<String, Refused> {
    Ok(match word {
        "post" => {
            let small: Vec<u32> = numbers.iter().map(|&n| n as u32).collect();
            state.post_with_reply(small[0], small[1], &small[2..], reply as u32)?;
            "post: it waits\n".into()
        }
        "offers" => {
            let offers = state.offers()?;
            let mut all = format!("offers: {}, {} is held\n", offers.many, if offers.held { "something" } else { "nothing" });
            for choice in 0..offers.many {
                all += &told("  offered", &state.offer(choice.into())?);
            }
            all
        }
        "step" => told("step", &state.step(numbers[0])?),
        "run" => {
            let ran = state.run(&numbers[1..], numbers[0]);
            format!("run: {} steps, refusal {}, {} left of the budget\n", ran.taken, ran.refusal, numbers[0] - ran.taken)
        }
        "collect" => {
            let message = state.collect()?;
            let values: String = message.values.iter().map(|v| format!(" {v}")).collect();
            format!("collect: to partner {}, operation {}:{values}, reply to partner {}\n", message.partner, message.operation, message.reply)
        }
        "tally" => {
            let t = state.tally();
            format!("tally: started {}, well {}, handled {}, failed {}, left {}\n", t.started, t.well, t.handled, t.failed, t.left)
        }
        _ => {
            let mut all = format!("orders: {} messages wait\n", state.waiting().len());
            for order in state.orders() {
                let bound = order.variables.iter().enumerate().filter_map(|(i, v)| v.map(|v| format!(" v{i} is {v}")));
                all += &format!("  order {}:{}\n", order.slot, bound.collect::<String>());
            }
            all
        }
    })
}

/// Hands an answer out. What was answered must have gone out before what it says becomes lasting.
fn say(answer: &str) -> io::Result<()> {
    let mut out = io::stdout();
    out.write_all(answer.as_bytes())?;
    out.flush()
}

fn told_with(status: u8, answer: &str) -> ExitCode {
    match say(answer) {
        Ok(()) => status.into(),
        Err(_) => ExitCode::FAILURE,
    }
}

/// Why a state was lent and not kept: the command was refused, or its answer could not be handed out.
enum Undone {
    Refused(Refused),
    Unsaid,
}

fn main() -> ExitCode {
    let words: Vec<String> = env::args().skip(1).collect();
    let [name, word, rest @ ..] = words.as_slice() else {
        return told_with(2, "usage: host FILE load|post|offers|step|run|collect|tally|orders ..\n");
    };
    if word == "load" && rest.len() == 1 {
        return match load(name, &rest[0]) {
            Ok(answer) => told_with(0, &answer),
            Err(answer) => told_with(1, &answer),
        };
    }
    let most = if word == "post" { u64::from(u32::MAX) } else { u64::MAX };
    let mut numbers = Vec::new();
    // The word before the last number is left out, and the number is the partner to reply to.
    let replies = word == "post" && rest.len() > 1 && rest[rest.len() - 2] == "reply";
    for (i, digits) in rest.iter().enumerate().filter(|_| word != "load") {
        if replies && i + 2 == rest.len() {
            continue;
        }
        let digital = !digits.is_empty() && digits.bytes().all(|b| b.is_ascii_digit());
        match digits.parse::<u64>() {
            Ok(n) if digital && n <= most => numbers.push(n),
            _ => return told_with(2, &format!("{word}: '{digits}' is no number\n")),
        }
    }
    let reply = if replies { numbers.pop().unwrap_or(0) } else { 0 };
    let takes = match word.as_str() {
        "post" => 3..=1024,
        "run" => 1..=1024,
        "step" => 1..=1,
        "offers" | "collect" | "tally" | "orders" => 0..=0,
        _ => 1..=0,
    };
    let kept = moonhalyard::kept(name, None, |state| {
        if !takes.contains(&numbers.len()) {
            return Ok(Some(format!("{word}: no such command, or not with so many numbers\n")));
        }
        let answer = done(state, word, &numbers, reply).map_err(Undone::Refused)?;
        say(&answer).map_err(|_| Undone::Unsaid)?;
        Ok(None)
    });
    match kept {
        Ok(Ok(None)) => ExitCode::SUCCESS,
        Ok(Ok(Some(misunderstood))) => told_with(2, &misunderstood),
        Ok(Err(Undone::Refused(refused))) => told_with(1, &format!("{word}: refused, {refused}\n")),
        Ok(Err(Undone::Unsaid)) => ExitCode::FAILURE,
        Err(error) if matches!(error.kind(), ErrorKind::NotFound | ErrorKind::InvalidData) => told_with(1, &format!("{word}: no state in {name}\n")),
        Err(_) => told_with(1, &format!("{word}: the state could not be saved in {name}\n")),
    }
}
