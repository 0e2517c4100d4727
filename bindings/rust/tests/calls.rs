//! Tests of the crate, against the installed library. MOONHALYARD_TEXT names the text of examples/host.txt.

use moonhalyard::*;
use std::{env, fs, io, process, thread};

fn plan() -> Vec<u8> {
    text(&fs::read(env::var("MOONHALYARD_TEXT").unwrap()).unwrap()).unwrap()
}

fn number<T>(answer: Result<T, Refused>) -> u32 {
    answer.err().map_or(0, |refused| refused.number)
}

#[test]
fn plans() {
    let plan = plan();
    assert_eq!(version(), 10_000);
    assert_eq!(accept(&plan), Ok(5));
    assert_eq!(write(&rows(&plan).unwrap()).unwrap(), plan);
    assert_eq!(text(draw(&plan).unwrap().as_bytes()).unwrap(), plan);
    assert!(draw(&plan).unwrap().starts_with("variable v0"));
    assert_eq!(mend(&plan).unwrap(), (plan.clone(), 0));
    assert_eq!(show(&plan, 1).unwrap()[0], 2);
    assert_eq!(number(show(&plan, 99)), 16);
    let mut more = plan.clone();
    more.push(0);
    assert_eq!(accept(&more), Err(Refused { number: 9, place: plan.len() as u32 }));
    assert_eq!(number(State::load(&more)), 9);
    assert_eq!(draw(&more), Err(Refused { number: 9, place: plan.len() as u32 }));
    assert_eq!(text(b"variable n\n\tempty"), Err(Refused { number: 53, place: 2 }));
    assert_eq!(says(14), "64 messages wait already");
    assert_eq!(accept(&[]), Err(Refused { number: 2, place: 0 }));
}

#[test]
fn an_order() {
    let mut state = State::load(&plan()).unwrap();
    assert_eq!(state.offers(), Ok(Offers { many: 0, held: false }));
    assert_eq!(number(state.step(0)), 10);
    state.post(0, 0, &[7, 9]).unwrap();
    assert_eq!(number(state.post(0, 64, &[1])), 13);
    assert_eq!(number(state.post(0, 0, &[1, 2, 3, 4, 5])), 13);
    assert_eq!(state.waiting(), [Message { partner: 0, operation: 0, values: vec![7, 9], reply: 0 }]);
    let first = Step { slot: 0, activity: 1, place: 0, end: End::None, fault: 0 };
    assert_eq!(state.offer(0), Ok(first));
    assert_eq!(state.step(0), Ok(first));
    assert_eq!(state.orders()[0].variables[..3], [Some(7), Some(9), None]);
    assert_eq!(number(state.collect()), 15);
    assert_eq!(state.run(&[0, 0], 5), Ran { taken: 1, refusal: 10 });
    assert_eq!(state.collect(), Ok(Message { partner: 3, operation: 1, values: vec![7, 9], reply: 0 }));
    state.post_with_reply(5, 1, &[7], 63).unwrap();
    assert_eq!(number(state.post_with_reply(5, 1, &[7], 64)), 13);
    assert_eq!(state.collect(), Ok(Message { partner: 5, operation: 1, values: vec![7], reply: 63 }));
    state.post(1, 2, &[7]).unwrap();
    assert_eq!(state.step(0).unwrap().end, End::Well);
    assert_eq!(state.tally(), Tally { started: 1, well: 1, ..Tally::default() });
    assert_eq!(state.orders(), []);
    assert!(State::from_bytes(state.bytes()).unwrap() == state);
    assert_eq!(number(State::from_bytes(&state.bytes()[1..])), 17);
}

#[test]
fn a_list() {
    let mut state = State::load(&plan()).unwrap();
    assert_eq!(state.list(0, 9), Ok(vec![]));
    for i in 0..9 {
        state.post(0, 0, &[i, 9]).unwrap();
        if i % 2 == 0 {
            state.step(0).unwrap();
        }
    }
    let many = state.offers().unwrap().many;
    assert!(many > 4);
    let all: Vec<Step> = (0..many).map(|choice| state.offer(choice.into()).unwrap()).collect();
    assert_eq!(state.list(0, 100), Ok(all.clone()));
    assert_eq!(state.list(2, 2), Ok(all[2..4].to_vec()));
    assert_eq!(state.list(many, 2), Ok(vec![]));
    assert_eq!(state.list(u32::MAX, 2), Ok(vec![]));
    assert_eq!(state.list(0, 0), Ok(vec![]));
}

#[test]
fn a_run_told() {
    let mut state = State::load(&plan()).unwrap();
    state.post(0, 0, &[7, 9]).unwrap();
    state.post(1, 2, &[7]).unwrap();
    let mut other = state.clone();
    assert_eq!(state.tell(&[0, 0], 1), (Ran { taken: 1, refusal: 0 }, vec![other.step(0).unwrap()]));
    let steps: Vec<Step> = (0..2).map(|_| other.step(0).unwrap()).collect();
    assert_eq!(steps[1].end, End::Well);
    assert_eq!(state.tell(&[0; 9], 9), (Ran { taken: 2, refusal: 10 }, steps));
    assert!(state == other);
    assert_eq!(state.tell(&[], 9), (Ran { taken: 0, refusal: 0 }, vec![]));
}

#[test]
fn kept_by_several() {
    let name = env::temp_dir().join(format!("moonhalyard-{}", process::id()));
    let plan = plan();
    assert_eq!(kept(&name, None, |_| Ok::<(), ()>(())).unwrap_err().kind(), io::ErrorKind::NotFound);
    let work = || {
        for _ in 0..8 {
            kept(&name, Some(&plan), |state| state.post(0, 0, &[7, 9])).unwrap().unwrap();
        }
    };
    thread::scope(|s| {
        s.spawn(work);
        s.spawn(work);
    });
    let undone = kept(&name, None, |state| state.post(0, 0, &[7, 9]).and(Err::<(), _>(Refused { number: 1, place: 0 })));
    assert!(undone.unwrap().is_err());
    assert_eq!(kept(&name, None, |state| Ok::<_, ()>(state.waiting().len())).unwrap(), Ok(16));
    replace(&name, &State::load(&plan).unwrap()).unwrap();
    assert_eq!(kept(&name, None, |state| Ok::<_, ()>(state.waiting().len())).unwrap(), Ok(0));
    fs::write(&name, b"MOONHAL1").unwrap();
    assert_eq!(kept(&name, None, |_| Ok::<(), ()>(())).unwrap_err().kind(), io::ErrorKind::InvalidData);
    fs::remove_file(&name).unwrap();
    fs::remove_file(format!("{}.lock", name.display())).unwrap();
}
