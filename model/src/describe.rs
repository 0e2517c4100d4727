//! A plan, a packed state and a call in words, for showing a difference.

use crate::calls::Desk;
use crate::packed;
use crate::plan::Plan;
use crate::state::{Message, State};
use crate::vectors::hex;

/// The plan on the desk, an activity on each line, and what isn't idle, unbound or empty.
pub fn described(desk: &Desk) -> String {
    let Some((state, tally)) = packed::unpack(desk.state()) else {
        return "a state without its mark".to_string();
    };
    let mut lines = Vec::new();
    match state.passes() {
        None => lines.push("a state that does not pass 17".to_string()),
        Some(plan) => {
            lines.push(format!(
                "plan {}",
                hex(&state.plan[..state.length as usize])
            ));
            lines.extend(activities(&plan));
        }
    }
    lines.extend(fields(&state));
    lines.push(format!("tally {:?}", tally.0));
    lines.join("\n")
}

fn activities(plan: &Plan) -> Vec<String> {
    let mut lines = Vec::new();
    for (k, activity) in plan.activities.iter().enumerate() {
        lines.push(format!(
            "  {k} {:?}, {:?}, to {}",
            activity.kind, activity.part, activity.end
        ));
    }
    lines
}

/// Everything in a state but the plan that isn't 0.
pub fn fields(state: &State) -> Vec<String> {
    let mut lines = vec![format!("length {}", state.length)];
    lines.push(format!("waiting {}", state.waiting));
    for (place, message) in state.messages.iter().enumerate() {
        if *message != Default::default() {
            let head = (message.partner, message.operation, message.count);
            let Message { values, reply, .. } = message;
            lines.push(format!("message {place} {head:?} {values:?} reply {reply}"));
        }
    }
    for (slot, order) in state.orders.iter().enumerate() {
        if *order == crate::state::NO_ORDER {
            continue;
        }
        lines.push(format!(
            "order {slot} root {} cause {}",
            order.root, order.cause
        ));
        for (k, mark) in order
            .marks
            .iter()
            .enumerate()
            .filter(|(_, mark)| **mark != 0)
        {
            lines.push(format!("order {slot} mark of {k} {mark}"));
        }
        for (v, (bound, value)) in order.bound.iter().zip(order.values).enumerate() {
            if (*bound, value) != (0, 0) {
                lines.push(format!(
                    "order {slot} variable {v} bound {bound} value {value}"
                ));
            }
        }
        let closings: Vec<(u8, u8)> = order
            .remembered
            .iter()
            .map(|each| (each.scope, each.part))
            .collect();
        lines.push(format!("order {slot} kept {} of {closings:?}", order.kept));
    }
    lines
}

/// The lines of each state that the other has not.
pub fn apart(one: &Desk, other: &Desk) -> String {
    let lines = |desk: &Desk| {
        packed::unpack(desk.state()).map_or(vec!["no mark".to_string()], |(state, tally)| {
            let mut lines = fields(&state);
            lines.push(format!("tally {:?}", tally.0));
            lines
        })
    };
    let (mine, theirs) = (lines(one), lines(other));
    let only = |name: &str, these: &[String], those: &[String]| -> Vec<String> {
        let missing = these.iter().filter(|line| !those.contains(line));
        missing.map(|line| format!("{name} {line}")).collect()
    };
    let mut all = only("model  ", &mine, &theirs);
    all.extend(only("library", &theirs, &mine));
    all.join("\n")
}
