//! Checks of the engine's model by itself: the scenarios, document 01's examples, the packed state.

use model::packed;
use model::scenarios::{HAND, HELD, TEXT, play};

/// The examples of document 01 that are runs.
const EXAMPLES: &str = "# scenario: plan A
plan 0102010002030502000100 = 0 2
step 0 = 10
post 3 5 7 9 = 0
step 1 = 12
step 0 = 0 0 0 0 1 -
step 0 = 10
tally = 1 1 0 0 0
post 3 5 7 9 1 = 0
step 0 = 10
post 3 64 7 9 = 13
# scenario: plan B
plan 01020100080202000502000102000602000100 = 0 4
post 0 5 7 1 = 0
step 0 = 0 0 1 0 0 -
post 0 6 8 2 = 0
step 0 = 10
post 0 6 7 2 = 0
step 0 = 0 0 2 1 1 -
waiting = 0 6 2 8 2 0
# scenario: plan C
plan 010100080402000001000b000001000101000b000001000201000400 = 0 12
post 0 0 5 = 0
step 0 = 0 0 1 0 0 -
step 0 = 0 0 2 0 0 -
step 0 = 0 0 6 0 0 -
step 0 = 0 0 10 0 0 -
step 0 = 0 0 9 0 0 -
step 0 = 0 0 5 0 2 0
waiting = 0 2 1 5 0 | 0 1 1 5 0
# scenario: a scope that closes three times in a repeat is undone three times
plan 01020008040200000100030100030705000001010802030103010100010b000001090101010400 = 0 12
post 0 0 5 = 0
run 99 0 0 0 0 0 0 0 0 0 0 0 0 0 0 0 0 0 0 0 0 0 0 = 16 10
waiting = 9 1 1 0 0 | 9 1 1 0 0 | 9 1 1 0 0
tally = 1 0 1 0 0
";

fn plays(text: &str, scenarios: usize) {
    let played = play(text);
    for wrong in &played.wrong {
        println!("{wrong}");
    }
    assert_eq!(played.wrong.len(), 0);
    assert_eq!(played.scenarios, scenarios);
    assert!(played.lines > scenarios);
}

#[test]
fn every_scenario() {
    plays(TEXT, 120);
}

#[test]
fn every_scenario_of_held_steps() {
    plays(HELD, 18);
}

#[test]
fn every_scenario_by_hand() {
    plays(HAND, 57);
}

#[test]
fn a_fresh_state_packs_and_unpacks() {
    let a = [1, 2, 1, 0, 2, 3, 5, 2, 0, 1, 0];
    let mut state = vec![7; packed::SIZE];
    assert_eq!(packed::load(&a, &mut state), 0);
    let (unpacked, tally) = packed::unpack(&state).unwrap();
    assert!(unpacked.passes().is_some());
    let mut again = vec![9; packed::SIZE];
    packed::pack(&unpacked, &tally, &mut again);
    assert_eq!(state, again);
}

#[test]
fn examples_of_document_01() {
    plays(EXAMPLES, 4);
}

/// Document 02, request 4: a receive, and behind it what faults. The word behind the end is the number.
const NUMBERS: &str = "# scenario: two raises side by side, of which the second is stopped
plan 0101000802020000010009020d140d1500 = 0 6
post 0 0 5 = 0
step 0 = 0 0 1 0 0 -
offer = 2 free 0:3:0 0:4:0
step 1 = 0 0 4 0 2 21
# scenario: a raise in a fault part that the root waits for is absorbed, and leaves the number that was there
plan 0101000802020000010009020b040d14000d1500 = 0 9
post 0 0 5 = 0
step 0 = 0 0 1 0 0 -
offer = 2 free 0:4:0 0:7:0
step 0 = 0 0 4 0 0 -
offer = 2 free 0:5:0 0:7:0
step 1 = 0 0 7 0 0 -
offer = 1 free 0:5:0
step 0 = 0 0 5 0 2 21
# scenario: a raise in a fault part goes on with its own number, through two scopes
plan 010100080202000001000b0b0d140d15000d160000 = 0 10
post 0 0 5 = 0
step 0 = 0 0 1 0 0 -
step 0 = 0 0 4 0 0 -
step 0 = 0 0 5 0 0 -
step 0 = 0 0 7 0 2 22
# scenario: a raise in an undo part of a list that has one more goes on with its own number
plan 010100080202000001000b08030b000001090101000b00000d170d18000000 = 0 16
post 0 0 5 = 0
step 0 = 0 0 1 0 0 -
step 0 = 0 0 4 0 0 -
step 0 = 0 0 8 0 0 -
step 0 = 0 0 12 0 0 -
step 0 = 0 0 11 0 2 23
# scenario: a send of an unbound variable
plan 01020008020200000100010101010100 = 0 4
post 0 0 5 = 0
step 0 = 0 0 1 0 0 -
step 0 = 0 0 2 0 2 1
# scenario: two receives open for one thing, in the body and in the fault part
plan 01010008020200000100090202010101000201010100090202010101000201010100 = 0 8
post 0 0 5 = 0
step 0 = 0 0 1 0 3 4
tally = 1 0 0 1 0
# scenario: what the root handles is what it faulted with, and not a fault in an inner scope since
plan 010100080202000001000d200109010100 = 0 4
post 0 0 5 = 0
step 0 = 0 0 1 0 0 -
step 0 = 0 0 2 0 0 -
step 0 = 0 0 3 0 2 32
# scenario: a choose and a repeat whose expressions fault, the left operand first
plan 01020008020200000100060201010300000001000000 = 0 6
post 0 0 5 = 0
step 0 = 0 0 1 0 0 -
step 0 = 0 0 2 0 2 1
plan 010200080202000001000703030000000101010000 = 0 5
post 0 0 5 = 0
step 0 = 0 0 1 0 0 -
step 0 = 0 0 2 0 2 3
";

#[test]
fn which_fault_it_was() {
    plays(NUMBERS, 8);
}

/// Document 02, request 5: an order that answers whoever asked.
const REPLIES: &str =
    "# scenario: the variable that stores the reply partner is overwritten by each
plan 01030008031200000100011200000100011101010200010900 = 0 5
post 0 0 5 reply 63 = 0
post 0 0 6 reply 0 = 0
run 9 0 0 = 2 0
step 0 = 0 0 3 0 1 -
waiting = 0 1 2 6 0 9
# scenario: the partner is a variable for correlation, and in the tuple too
plan 010101000802020000010011000101003f00 = 0 4
post 0 0 62 reply 1 = 0
run 9 0 0 = 2 0
waiting = 62 1 1 62 63
collect = 0 62 1 1 62 63
post 0 0 64 = 0
step 0 = 0 0 1 0 0 -
step 0 = 0 0 2 0 2 5
# scenario: an answer that the plan itself takes, with the reply partner that it carries
plan 010300080402000002000111010101000c12030101000211020001000000 = 0 6
post 0 0 7 3 = 0
run 9 0 0 = 2 0
waiting = 3 1 1 7 12
collect = 15
run 9 0 0 = 2 0
waiting = 12 0 1 7 0
collect = 0 12 0 1 7 0
tally = 1 1 0 0 0
";

#[test]
fn whom_to_reply_to() {
    plays(REPLIES, 3);
}

#[test]
fn a_reply_partner_is_limited() {
    // 17 limits it, in a message that waits and in no other.
    let mut state = vec![0; packed::SIZE];
    let plan = [1, 2, 0, 18, 0, 0, 1, 0, 1, 0];
    assert_eq!(packed::load(&plan, &mut state), 0);
    let mut message = model::state::Message {
        count: 1,
        reply: 64,
        ..Default::default()
    };
    assert_eq!(packed::post(&mut state, message), 13);
    message.reply = 63;
    assert_eq!(packed::post(&mut state, message), 0);
    let reply = |place| model::layout::MESSAGES + place * packed::MESSAGE + 28;
    assert_eq!(state[reply(0)], 63);
    for (place, answer) in [(0, 17 << 40), (1, 1)] {
        let mut other = state.clone();
        other[reply(place)] = 64;
        assert_eq!(packed::offers(&other), answer);
    }
}

/// A scope whose repeat closes an inner one so often, then a receive.
fn closes(times: u8) -> String {
    let bytes = [
        1, 2, 0, 8, 4, 2, 0, 0, 1, 0, 3, 1, 0, times, 11, 7, 5, 0, 0, 1, 1, 8, 2, 3, 1, 3, 1, 1, 0,
        1, 11, 0, 0, 0, 0, 0, 2, 0, 0, 1, 0, 0,
    ];
    model::vectors::hex(&bytes)
}

#[test]
fn thirty_two_closings_and_the_one_around_them() {
    let (plan, zeros) = (closes(32), " 0".repeat(200));
    let text =
        format!("plan {plan} = 0 15\npost 0 0 5 = 0\nrun 99{zeros} = 99 0\noffer = 1 free 0:3:0");
    let played = play(&text);
    assert!(played.wrong.is_empty(), "{:?}", played.wrong);
    assert_eq!(played.state.orders[0].kept, 32);
    let played = play(&format!("{text}\nstep 0 = 0 0 3 0 0 -\noffer = 0 free"));
    assert!(played.wrong.is_empty(), "{:?}", played.wrong);
    assert_eq!(played.state.orders[0].kept, 1);
}

#[test]
fn a_thirty_third_closing_is_held() {
    let (plan, zeros) = (closes(33), " 0".repeat(200));
    let played = play(&format!(
        "plan {plan} = 0 15\npost 0 0 5 = 0\nrun 200{zeros} = 100 11\noffer = 0 held"
    ));
    assert!(played.wrong.is_empty(), "{:?}", played.wrong);
}

/// What `library/test.c` says of a state that was kept: it is brought up to date, and goes on to its end.
fn kept(name: &str, old: &[u8]) -> String {
    let mut state = vec![7; packed::SIZE];
    assert_eq!(packed::upgrade(old, &mut state), 0, "{name}");
    let many = packed::offers(&state) as u32;
    let mut steps = 0;
    loop {
        while packed::collect(&mut state, &mut [0; packed::MESSAGE]) == 0 {}
        if packed::offers(&state) as u32 == 0 {
            break;
        }
        assert_eq!(packed::step(&mut state, 0) >> 32 & 0xFF, 0);
        steps += 1;
    }
    let (_, tally) = packed::unpack(&state).expect("a state");
    let tally = tally.0.map(|count| count.to_string()).join(" ");
    format!("{name}: {many} offered, {steps} steps, {tally}\n")
}

#[test]
fn states_of_every_version() {
    let folder = concat!(env!("CARGO_MANIFEST_DIR"), "/../data/states/");
    let expected = std::fs::read_to_string(format!("{folder}expected")).unwrap();
    let mut said = String::new();
    for line in expected.lines() {
        let name = line.split(':').next().unwrap();
        let old = std::fs::read(format!("{folder}{name}")).unwrap();
        said += &kept(name, &old);
        let mut state = vec![7; packed::SIZE];
        assert_eq!(packed::upgrade(&old[1..], &mut state), 17);
        assert_eq!(packed::upgrade(&old, &mut state[1..]), 18);
    }
    assert_eq!(said, expected);
    // Beside them a file of the desk's, which tools/check-manners opens.
    let states = std::fs::read_dir(folder).unwrap().filter(|entry| {
        let name = entry.as_ref().unwrap().file_name();
        name.to_str().unwrap().contains(".MOONHAL")
    });
    assert_eq!(states.count(), expected.lines().count());
}

#[test]
fn the_number_that_the_root_faulted_with() {
    // A receive, raise 200, and a fault part that sends.
    let plan = [1, 1, 0, 8, 2, 2, 0, 0, 1, 0, 13, 0xC8, 1, 1, 9, 1, 1, 0];
    let mut state = vec![0; packed::SIZE];
    assert_eq!(packed::load(&plan, &mut state), 0);
    let message = model::state::Message {
        count: 1,
        ..Default::default()
    };
    assert_eq!(packed::post(&mut state, message), 0);
    for _ in 0..2 {
        assert_eq!(packed::step(&mut state, 0) >> 32, 0);
    }
    let at = model::layout::ORDERS + model::layout::ORDER_CAUSE;
    assert_eq!(state[at], 200);
    // It is answered as it stands there, and 17 limits it, in a free slot too.
    for cause in 0..=255u8 {
        let legal = cause < 6 || cause > 15;
        for slot in [0, 7] {
            let mut other = state.clone();
            other[at + model::layout::ORDER * slot] = cause;
            let (answer, number) = match (legal, slot) {
                (false, _) => (17 << 32, 0),
                (true, 0) => (3 << 16 | 2, u64::from(cause)),
                (true, _) => (3 << 16 | 2, 200),
            };
            assert_eq!(packed::step(&mut other, 0), number << 40 | answer);
        }
    }
}

/// A receive, and a scope whose body raises 17, with a part for 16, one for 17 and a general one, which each send another operation.
const BY_NUMBER: [u8; 33] = [
    1, 1, 0, 8, 2, 2, 0, 0, 1, 0, 14, 13, 17, 2, 16, 1, 9, 1, 1, 0, 17, 1, 9, 2, 1, 0, 1, 9, 3, 1,
    0, 0, 0,
];

#[test]
fn the_part_that_a_scope_chose() {
    let mut state = vec![0; packed::SIZE];
    assert_eq!(packed::load(&BY_NUMBER, &mut state), 0);
    let message = model::state::Message {
        count: 1,
        ..Default::default()
    };
    assert_eq!(packed::post(&mut state, message), 0);
    for _ in 0..2 {
        assert_eq!(packed::step(&mut state, 0) >> 32, 0);
    }
    // The scope, number 2, handles by its second part, number 5.
    let at = model::layout::ORDERS + model::layout::ORDER_MARKS;
    assert_eq!(state[at + 2], 2 << 4 | 6);
    assert_eq!(packed::offer(&state, 0), 5 << 16);
    // A choice stands beside 4, 5 and 6 alone.
    for mark in 0..=255u8 {
        let legal = mark <= 8 || (4..=6).contains(&(mark & 15));
        let mut other = state.clone();
        other[at + 200] = mark;
        assert_eq!(packed::offers(&other) >> 40 == 17, !legal, "{mark}");
    }
    // A scope that undoes, and then has no more to undo, takes the part that its mark tells; the general one where there is none such.
    for (choice, part) in [(0, 6), (1, 4), (2, 5), (3, 6), (8, 6), (9, 6), (15, 6)] {
        let mut other = state.clone();
        other[at + 5] = 0;
        other[at + 2] = choice << 4 | 4;
        other[at + 3] = 1;
        assert_eq!(packed::step(&mut other, 0), 3 << 16);
        assert_eq!(other[at + 2], choice << 4 | 6);
        assert_eq!(packed::offer(&other, 0), part << 16);
    }
}

#[test]
fn sixty_four_wait() {
    let post = "post 3 5 7 9 = 0\n".repeat(64);
    let plan = "plan 0102010002030502000100 = 0 2\n";
    let played = play(&format!("{plan}{post}post 3 5 7 9 = 14"));
    assert!(played.wrong.is_empty(), "{:?}", played.wrong);
}

#[test]
fn the_states_of_the_benchmark() {
    let full = model::fullest::fullest(64);
    assert_eq!(packed::offers(&full), 64 * 244);
    assert_eq!(model::fullest::sample().len(), 13);
    assert_eq!(packed::offers(&model::fullest::repeating()), 1);
}

/// The closings that the first order remembers after this many steps: a receive; scope 2, with no undo part, around scopes 4 and 8; a raise.
fn remembered(steps: usize) -> Vec<(u8, u8)> {
    let plan = "010100080302000001000c08020b000001090101000b00000109020100000400";
    let choices = " 0".repeat(steps);
    let played = play(&format!(
        "plan {plan} = 0 15\npost 0 0 5 = 0\nrun 9{choices} = {steps} 0"
    ));
    assert!(played.wrong.is_empty(), "{:?}", played.wrong);
    let order = &played.state.orders[0];
    let kept = &order.remembered[..order.kept as usize];
    kept.iter().map(|each| (each.scope, each.part)).collect()
}

#[test]
fn a_scope_with_no_undo_part_hands_on_its_list() {
    assert_eq!(remembered(3), [(4, 3), (8, 3)]);
    assert_eq!(remembered(4), [(4, 0), (8, 0)]);
    // The root undoes them, the latest first.
    assert_eq!(remembered(5), [(4, 0)]);
    assert_eq!(remembered(6), []);
}
