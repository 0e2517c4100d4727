//! Systematic edge cases: each limit of document 01 on both sides, with the answer it must get.

use crate::generate::{Kind, MISSPELT, Random, Sheet, TELLING, legal_of_length, spell};

#[derive(Clone, Copy, Debug, PartialEq, Eq)]
pub enum Answer {
    /// Accepted, with so many activities and arms.
    Accepted(usize),
    /// Refused with a number at a place.
    Refused(u32, usize),
    /// Not worked out here: model and library are compared only.
    Open,
}
use Answer::{Accepted, Open, Refused};

pub struct Case {
    pub name: String,
    pub bytes: Vec<u8>,
    pub answer: Answer,
}

struct Cases(Vec<Case>);

impl Cases {
    fn add(&mut self, name: impl Into<String>, bytes: impl Into<Vec<u8>>, answer: Answer) {
        self.0.push(Case {
            name: name.into(),
            bytes: bytes.into(),
            answer,
        });
    }

    /// An accepted plan, its every cut, and one more byte.
    fn good(&mut self, name: &str, bytes: &[u8], count: usize) {
        self.add(name, bytes, Accepted(count));
        let long = bytes.len() > 600;
        for cut in 0..bytes.len() {
            if !long || cut % 97 == 0 || cut + 20 > bytes.len() {
                self.add(
                    format!("{name}, cut to {cut}"),
                    &bytes[..cut],
                    Refused(2, cut),
                );
            }
        }
        for more in [0x00, 0x01, 0x0C, 0x80, 0xFF] {
            let answer = if bytes.len() < 4096 {
                Refused(9, bytes.len())
            } else {
                Refused(1, 0)
            };
            self.add(
                format!("{name}, and {more:02x}"),
                join(&[bytes, &[more]]),
                answer,
            );
        }
    }
}

fn join(parts: &[&[u8]]) -> Vec<u8> {
    parts.concat()
}

/// Two variables, variable 0 for correlation.
const HEAD: &[u8] = &[1, 2, 1, 0];
/// A receive, 5 bytes.
const RECEIVE: &[u8] = &[2, 3, 5, 1, 0];
/// A sequence of that receive and one more activity: put at place 4, the other is at place 11.
const THEN: &[u8] = &[8, 2, 2, 3, 5, 1, 0];
const EMPTY: &[u8] = &[0];
/// The first code that is none.
const UNKNOWN: u8 = 15;

/// A plan whose body is a receive and then `activity`, at depth 2 and place 11.
fn after_receive(activity: &[u8]) -> Vec<u8> {
    join(&[HEAD, THEN, activity, EMPTY])
}

/// A plan whose root fault part is `activity`, at depth 1 and place 9.
fn as_fault(activity: &[u8]) -> Vec<u8> {
    join(&[HEAD, RECEIVE, activity])
}

/// A way to hold one activity: bytes before and after it, and how many activities that adds.
struct Holder {
    name: &'static str,
    before: &'static [u8],
    after: &'static [u8],
    adds: usize,
    scope: bool,
    /// What it holds stands in a fault or undo part.
    handler: bool,
}

const HOLDERS: [Holder; 18] = [
    Holder {
        name: "choose, first",
        before: &[6, 0, 0],
        after: &[0],
        adds: 2,
        scope: false,
        handler: false,
    },
    Holder {
        name: "choose, second",
        before: &[6, 1, 1, 0],
        after: &[],
        adds: 2,
        scope: false,
        handler: false,
    },
    Holder {
        name: "repeat",
        before: &[7, 1, 0],
        after: &[],
        adds: 1,
        scope: false,
        handler: false,
    },
    Holder {
        name: "sequence",
        before: &[8, 1],
        after: &[],
        adds: 1,
        scope: false,
        handler: false,
    },
    Holder {
        name: "sequence, last",
        before: &[8, 2, 0],
        after: &[],
        adds: 2,
        scope: false,
        handler: false,
    },
    Holder {
        name: "flow",
        before: &[9, 1],
        after: &[],
        adds: 1,
        scope: false,
        handler: false,
    },
    Holder {
        name: "flow, first",
        before: &[9, 2],
        after: &[4],
        adds: 2,
        scope: false,
        handler: false,
    },
    Holder {
        name: "pick",
        before: &[10, 1, 9, 8, 1, 1],
        after: &[],
        adds: 2,
        scope: false,
        handler: false,
    },
    Holder {
        name: "scope, body",
        before: &[11],
        after: &[0, 0],
        adds: 3,
        scope: true,
        handler: false,
    },
    Holder {
        name: "scope, fault",
        before: &[11, 0],
        after: &[0],
        adds: 3,
        scope: true,
        handler: true,
    },
    Holder {
        name: "scope, undo",
        before: &[11, 0, 0],
        after: &[],
        adds: 3,
        scope: true,
        handler: true,
    },
    Holder {
        name: "scope with no undo part, body",
        before: &[12],
        after: &[0],
        adds: 2,
        scope: true,
        handler: false,
    },
    Holder {
        name: "scope with no undo part, fault",
        before: &[12, 0],
        after: &[],
        adds: 2,
        scope: true,
        handler: true,
    },
    Holder {
        name: "scope with parts by number, body",
        before: &[14],
        after: &[1, 16, 0, 0, 0],
        adds: 4,
        scope: true,
        handler: false,
    },
    Holder {
        name: "scope with parts by number, first",
        before: &[14, 0, 2, 4],
        after: &[0, 0, 0, 0],
        adds: 5,
        scope: true,
        handler: true,
    },
    Holder {
        name: "scope with parts by number, second",
        before: &[14, 0, 2, 4, 0, 0],
        after: &[0, 0],
        adds: 5,
        scope: true,
        handler: true,
    },
    Holder {
        name: "scope with parts by number, general",
        before: &[14, 0, 1, 0, 0],
        after: &[0],
        adds: 4,
        scope: true,
        handler: true,
    },
    Holder {
        name: "scope with parts by number, undo",
        before: &[14, 0, 1, 0, 0, 0],
        after: &[],
        adds: 4,
        scope: true,
        handler: true,
    },
];

/// `inner` held `times` deep: the bytes, and the place of `inner` in them.
fn nest(holder: &Holder, times: usize, inner: &[u8]) -> (Vec<u8>, usize) {
    let before = holder.before.repeat(times);
    let after = holder.after.repeat(times);
    (join(&[&before, inner, &after]), before.len())
}

/// Writes exactly `count` activities as sequences of at most 32.
fn filler(sheet: &mut Sheet, count: usize) {
    let k = sheet.begin();
    if count == 1 {
        sheet.put(Kind::Code, 0);
    } else {
        let inside = count - 1;
        let into = inside.min(32);
        sheet.put(Kind::Code, 8);
        sheet.put(Kind::ListCount, into as u32);
        for at in 0..into {
            filler(sheet, inside / into + usize::from(at < inside % into));
        }
    }
    sheet.end(k);
}

/// Header, a sequence of `of`, its receive and its second with `count` activities in all.
fn crowd(of: u32, count: usize) -> Sheet {
    let mut sheet = Sheet::default();
    sheet.header(2, &[0]);
    sheet.begin();
    sheet.put(Kind::Code, 8);
    sheet.put(Kind::ListCount, of);
    let receive = sheet.begin();
    sheet.message(Some(2), 3, 5, &[0]);
    sheet.end(receive);
    filler(&mut sheet, count);
    sheet
}

/// A plan with every code and every expression form.
pub fn every_code() -> Sheet {
    let mut sheet = Sheet::default();
    sheet.header(5, &[0, 3]);
    let body = sheet.begin();
    sheet.put(Kind::Code, 8);
    sheet.put(Kind::ListCount, 15);

    let receive = sheet.begin();
    sheet.message(Some(2), 63, 0, &[4, 0, 3, 1]);
    sheet.end(receive);

    let send = sheet.begin();
    sheet.message(Some(1), 0, 63, &[2, 2, 0]);
    sheet.end(send);

    let asking = sheet.begin();
    sheet.asking_receive(0, 63, &[3, 4], 1);
    sheet.end(asking);

    let answer = sheet.begin();
    sheet.held_send(1, 0, &[3, 3, 1, 0], 63);
    sheet.end(answer);

    let set = sheet.begin();
    sheet.put(Kind::Code, 3);
    sheet.put(Kind::Variable, 4);
    for (kind, value) in [
        (Kind::Form, 2),
        (Kind::Form, 3),
        (Kind::Form, 0),
        (Kind::Constant, 300),
        (Kind::Form, 1),
        (Kind::Variable, 4),
        (Kind::Form, 4),
        (Kind::Form, 5),
        (Kind::Form, 0),
        (Kind::Constant, 4294967295),
        (Kind::Form, 0),
        (Kind::Constant, 0),
        (Kind::Form, 1),
        (Kind::Variable, 0),
    ] {
        sheet.put(kind, value);
    }
    sheet.end(set);

    let choose = sheet.begin();
    sheet.put(Kind::Code, 6);
    sheet.put(Kind::Form, 1);
    sheet.put(Kind::Variable, 1);
    one(&mut sheet, 4);
    one(&mut sheet, 5);
    sheet.end(choose);

    let repeat = sheet.begin();
    sheet.put(Kind::Code, 7);
    sheet.put(Kind::Form, 0);
    sheet.put(Kind::Constant, 127);
    one(&mut sheet, 0);
    sheet.end(repeat);

    let flow = sheet.begin();
    sheet.put(Kind::Code, 9);
    sheet.put(Kind::ListCount, 2);
    one(&mut sheet, 0);
    one(&mut sheet, 0);
    sheet.end(flow);

    let pick = sheet.begin();
    sheet.put(Kind::Code, 10);
    sheet.put(Kind::ListCount, 2);
    for (operation, variables) in [(8, &[1, 0][..]), (9, &[2])] {
        let arm = sheet.begin();
        sheet.message(None, 7, operation, variables);
        one(&mut sheet, 0);
        sheet.end(arm);
    }
    sheet.end(pick);

    let scope = sheet.begin();
    sheet.put(Kind::Code, 11);
    one(&mut sheet, 0);
    one(&mut sheet, 4);
    let undo = sheet.begin();
    sheet.message(Some(1), 1, 1, &[0]);
    sheet.end(undo);
    sheet.end(scope);

    let scope = sheet.begin();
    sheet.put(Kind::Code, 12);
    one(&mut sheet, 0);
    one(&mut sheet, 4);
    sheet.end(scope);

    let scope = sheet.begin();
    sheet.put(Kind::Code, 14);
    one(&mut sheet, 0);
    sheet.put(Kind::ListCount, 2);
    sheet.put(Kind::FaultNumber, 255);
    one(&mut sheet, 4);
    sheet.put(Kind::FaultNumber, 2);
    one(&mut sheet, 5);
    one(&mut sheet, 0);
    one(&mut sheet, 0);
    sheet.end(scope);

    one(&mut sheet, 4);
    one(&mut sheet, 5);
    let raise = sheet.begin();
    sheet.put(Kind::Code, 13);
    sheet.put(Kind::FaultNumber, 200);
    sheet.end(raise);
    sheet.end(body);
    one(&mut sheet, 0);
    sheet
}

/// An activity that is a code alone.
fn one(sheet: &mut Sheet, code: u32) {
    let k = sheet.begin();
    sheet.put(Kind::Code, code);
    sheet.end(k);
}

/// All edge cases.
pub fn all() -> Vec<Case> {
    let mut cases = Cases(Vec::new());
    lengths(&mut cases);
    headers(&mut cases);
    numbers(&mut cases);
    messages(&mut cases);
    sets_and_expressions(&mut cases);
    lists(&mut cases);
    depths(&mut cases);
    wide_and_deep(&mut cases);
    crowds(&mut cases);
    scopes(&mut cases);
    start_forms(&mut cases);
    raises(&mut cases);
    parts_by_number(&mut cases);
    replies(&mut cases);
    orders(&mut cases);
    agreement(&mut cases);
    swaps(&mut cases);
    cases.0
}

fn lengths(cases: &mut Cases) {
    cases.add("no bytes", [], Refused(2, 0));
    cases.good("plan A", &[1, 2, 1, 0, 2, 3, 5, 2, 0, 1, 0], 2);
    for seed in 0..4 {
        for length in [4094, 4095, 4096, 4097, 4098] {
            let sheet = legal_of_length(&mut Random::new(seed), length);
            if length <= 4096 {
                cases.good(&format!("{length} bytes"), &sheet.bytes, sheet.parts.len());
            } else {
                cases.add(format!("{length} bytes"), sheet.bytes, Refused(1, 0));
            }
        }
    }
    cases.add("4096 zeros", vec![0; 4096], Refused(4, 0));
    cases.add("4097 zeros", vec![0; 4097], Refused(1, 0));
    cases.add("4096 of ff", vec![0xFF; 4096], Refused(3, 0));
    cases.add("4097 of ff", vec![0xFF; 4097], Refused(1, 0));
    cases.add("100000 zeros", vec![0; 100_000], Refused(1, 0));
    let mut long = after_receive(EMPTY);
    let end = long.len();
    long.resize(4096, 0);
    cases.add("zeros after a plan up to 4096", &long[..], Refused(9, end));
    long.push(0);
    cases.add("zeros after a plan up to 4097", long, Refused(1, 0));
}

fn headers(cases: &mut Cases) {
    for version in TELLING {
        let answer = if version == 1 {
            Refused(2, 1)
        } else {
            Refused(4, 0)
        };
        cases.add(format!("version {version} alone"), spell(version), answer);
        let bytes = join(&[&spell(version), &HEAD[1..], RECEIVE, EMPTY]);
        let answer = if version == 1 {
            Accepted(2)
        } else {
            Refused(4, 0)
        };
        cases.add(format!("version {version}"), bytes, answer);
    }
    for variables in TELLING {
        let bytes = join(&[&[1], &spell(variables), &[0], RECEIVE, EMPTY]);
        let fits = (1..=16).contains(&variables);
        cases.add(
            format!("V {variables}"),
            bytes,
            if fits { Accepted(2) } else { Refused(5, 1) },
        );
    }
    for variables in [1, 2, 15, 16] {
        for count in [0, 1, 2, 3, 14, 15, 16, 17, 128] {
            let list: Vec<u8> = (0..count.min(17) as u8).collect();
            let bytes = join(&[&[1, variables], &spell(count), &list, RECEIVE, EMPTY]);
            let fits = count <= u32::from(variables);
            let answer = if fits { Accepted(2) } else { Refused(5, 2) };
            cases.add(
                format!("V {variables}, {count} correlation variables"),
                bytes,
                answer,
            );
        }
        for one in 0..20u8 {
            let bytes = join(&[&[1, variables, 1, one], RECEIVE, EMPTY]);
            let answer = if one < variables {
                Accepted(2)
            } else {
                Refused(5, 3)
            };
            cases.add(
                format!("V {variables}, correlation variable {one}"),
                bytes,
                answer,
            );
        }
        let bytes = join(&[&[1, variables, 1, 0x80, 0x02], RECEIVE, EMPTY]);
        cases.add(
            format!("V {variables}, correlation variable 256"),
            bytes,
            Refused(5, 3),
        );
    }
    for (list, wrong) in [
        (&[0, 1][..], None),
        (&[0, 7], None),
        (&[3, 5, 7], None),
        (&[0, 1, 2, 3, 4, 5, 6, 7], None),
        (&[0, 0], Some(1)),
        (&[1, 0], Some(1)),
        (&[7, 7], Some(1)),
        (&[7, 8], Some(1)),
        (&[0, 2, 2], Some(2)),
        (&[0, 2, 1], Some(2)),
        (&[1, 2, 3, 4, 5, 6, 7, 0], Some(7)),
    ] {
        let bytes = join(&[&[1, 8, list.len() as u8], list, RECEIVE, EMPTY]);
        let answer = wrong.map_or(Accepted(2), |at| Refused(5, 3 + at));
        cases.add(format!("correlation list {list:?}"), bytes, answer);
    }
}

/// Each number of a plan misspelt, left unfinished, or made as large as can be.
fn numbers(cases: &mut Cases) {
    let sheet = every_code();
    let count = sheet.parts.len();
    cases.good("every code", &sheet.bytes, count);
    for &(place, kind, value) in &sheet.numbers {
        let before = &sheet.bytes[..place];
        let own = spell(value);
        let after = &sheet.bytes[place + own.len()..];
        let name = format!("{kind:?} at {place}");
        for wrong in MISSPELT {
            cases.add(
                format!("{name} misspelt {wrong:02x?}"),
                join(&[before, wrong, after]),
                Refused(3, place),
            );
            cases.add(
                format!("{name} ends misspelt {wrong:02x?}"),
                join(&[before, wrong]),
                Refused(3, place),
            );
        }
        // The very number, padded with zero groups.
        for groups in 1..=5 {
            let mut padded = own.clone();
            *padded.last_mut().unwrap() |= 0x80;
            padded.extend(vec![0x80; groups - 1]);
            padded.push(0);
            cases.add(
                format!("{name} padded by {groups}"),
                join(&[before, &padded, after]),
                Refused(3, place),
            );
        }
        for unfinished in [
            &[0x80][..],
            &[0xFF],
            &[0x80, 0x80],
            &[0x80, 0x80, 0x80],
            &[0xFF, 0xFF, 0xFF, 0xFF],
        ] {
            let bytes = join(&[before, unfinished]);
            let length = bytes.len();
            cases.add(
                format!("{name} unfinished {unfinished:02x?}"),
                bytes,
                Refused(2, length),
            );
        }
        for large in [0x8000_0000, 0xFFFF_FFFF] {
            let answer = match kind {
                Kind::Version | Kind::Code | Kind::Form => Refused(4, place),
                Kind::Constant => Accepted(count),
                _ => Refused(5, place),
            };
            cases.add(
                format!("{name} made {large}"),
                join(&[before, &spell(large), after]),
                answer,
            );
        }
    }
}

fn messages(cases: &mut Cases) {
    for (name, code) in [("send", 1u8), ("receive", 2), ("arm", 10)] {
        // The first bytes, and the place of the partner.
        let lead: &[u8] = if code == 10 { &[10, 1] } else { &[code] };
        let tail: &[u8] = if code == 10 { EMPTY } else { &[] };
        let count = if code == 10 { 6 } else { 4 };
        let partner = 11 + lead.len();
        for value in TELLING {
            let bytes = after_receive(&join(&[lead, &spell(value), &[0, 1, 0], tail]));
            let answer = if value < 64 {
                Accepted(count)
            } else {
                Refused(5, partner)
            };
            cases.add(format!("{name}, partner {value}"), bytes, answer);
            let bytes = after_receive(&join(&[lead, &[0], &spell(value), &[1, 0], tail]));
            let answer = if value < 64 {
                Accepted(count)
            } else {
                Refused(5, partner + 1)
            };
            cases.add(format!("{name}, operation {value}"), bytes, answer);
            let bytes = after_receive(&join(&[lead, &[0, 0, 1], &spell(value), tail]));
            let answer = if value < 2 {
                Accepted(count)
            } else {
                Refused(5, partner + 3)
            };
            cases.add(format!("{name}, variable {value}"), bytes, answer);
        }
        // Tuples over six variables, alone as the body's second.
        for tuple in 0..7u8 {
            let variables: Vec<u8> = (0..tuple.min(6)).collect();
            let bytes = join(&[
                &[1, 6, 0],
                THEN,
                lead,
                &[0, 0, tuple],
                &variables,
                tail,
                EMPTY,
            ]);
            let answer = if (1..=4).contains(&tuple) {
                Accepted(count)
            } else {
                Refused(5, partner + 1)
            };
            cases.add(format!("{name}, {tuple} variables"), bytes, answer);
        }
        // Each tuple of up to four out of three variables, and one too high.
        for length in 1..=4u32 {
            for index in 0..4u32.pow(length) {
                let tuple: Vec<u8> = (0..length)
                    .map(|at| (index / 4u32.pow(at) % 4) as u8)
                    .collect();
                let bad = (0..tuple.len())
                    .find(|&at| tuple[at] > 2 || (code != 1 && tuple[..at].contains(&tuple[at])));
                let bytes = join(&[
                    &[1, 3, 1, 1],
                    THEN,
                    lead,
                    &[9, 9, length as u8],
                    &tuple,
                    tail,
                    EMPTY,
                ]);
                let answer = bad.map_or(Accepted(count), |at| Refused(5, partner + 3 + at));
                cases.add(format!("{name} of {tuple:?}"), bytes, answer);
            }
        }
        // High variables twice.
        let bytes = join(&[
            &[1, 16, 0],
            THEN,
            lead,
            &[9, 9, 4, 15, 14, 13, 15],
            tail,
            EMPTY,
        ]);
        let answer = if code == 1 {
            Accepted(count)
        } else {
            Refused(5, partner + 5)
        };
        cases.add(format!("{name} of 15 twice"), bytes, answer);
    }
    // What one arm names, another may.
    let arms = [10, 2, 1, 1, 1, 0, 0, 1, 1, 1, 0, 0];
    cases.good("two arms alike", &after_receive(&arms), 8);
}

/// An expression `depth` deep: a chain to the left, to the right, or to both sides in turn.
fn chain(depth: usize, way: usize, leaf: &[u8]) -> (Vec<u8>, usize) {
    let mut before = Vec::new();
    let mut after = Vec::new();
    for level in 1..depth {
        before.push(2 + (level % 4) as u8);
        if (way == 2 && level % 2 == 0) || way == 1 {
            before.extend([0, 1]);
        } else {
            after.splice(0..0, [1, 0]);
        }
    }
    let place = before.len();
    (join(&[&before, leaf, &after]), place)
}

fn full(depth: usize) -> Vec<u8> {
    if depth == 1 {
        return vec![1, 1];
    }
    let half = full(depth - 1);
    join(&[&[5], &half, &half])
}

fn sets_and_expressions(cases: &mut Cases) {
    // Set: variable 0 is for correlation, 1 is not, 2 is none.
    for value in TELLING {
        let bytes = after_receive(&join(&[&[3], &spell(value), &[0, 0]]));
        cases.add(
            format!("set {value}"),
            bytes,
            if value == 1 {
                Accepted(4)
            } else {
                Refused(5, 12)
            },
        );
        let bytes = after_receive(&join(&[&[3, 1, 1], &spell(value)]));
        cases.add(
            format!("variable {value} read"),
            bytes,
            if value < 2 {
                Accepted(4)
            } else {
                Refused(5, 14)
            },
        );
        let bytes = after_receive(&join(&[&[3, 1, 0], &spell(value)]));
        cases.add(format!("constant {value}"), bytes, Accepted(4));
        let bytes = after_receive(&join(&[&[3, 1], &spell(value), &[1, 0, 1, 0]]));
        let answer = match value {
            0 | 1 => Refused(9, 16),
            2..=5 => Accepted(4),
            _ => Refused(4, 13),
        };
        cases.add(format!("form {value}"), bytes, answer);
    }
    for variable in 0..16u8 {
        let bytes = join(&[&[1, 16, 3, 0, 7, 15], THEN, &[3, variable, 0, 0], EMPTY]);
        let bound = [0, 7, 15].contains(&variable);
        cases.add(
            format!("set {variable} of 16"),
            bytes,
            if bound { Refused(5, 14) } else { Accepted(4) },
        );
    }
    for (name, lead, tail, count) in [
        ("set", &[3, 1][..], &[][..], 4),
        ("choose", &[6], &[0, 0], 6),
        ("repeat", &[7], &[0], 5),
    ] {
        for way in 0..3 {
            for depth in 1..=10 {
                for leaf in [&[0, 0xAC, 0x02][..], &[1, 1]] {
                    let (expression, place) = chain(depth, way, leaf);
                    let bytes = after_receive(&join(&[lead, &expression, tail]));
                    // The first at level 9 is the left operand at level 8: the leaf or its neighbour.
                    let left = if way == 0 { 0 } else { 2 };
                    let ninth = 11 + lead.len() + chain(9, way, leaf).1 - left;
                    let label = format!("{name}, expression {depth} deep, way {way}");
                    if depth <= 8 {
                        cases.good(&label, &bytes, count);
                    } else {
                        cases.add(label, bytes, Refused(6, ninth));
                    }
                    if depth == 9 && way == 0 {
                        // At one number 2, 3, 4 come before 6.
                        let at = 11 + lead.len() + place;
                        let bytes = after_receive(&join(&[lead, &expression, tail]));
                        cases.add(
                            format!("{name}, cut before level 9"),
                            &bytes[..at],
                            Refused(2, at),
                        );
                        let (wrong, _) = chain(9, way, &[6]);
                        let bytes = after_receive(&join(&[lead, &wrong, tail]));
                        cases.add(format!("{name}, form 6 at level 9"), bytes, Refused(4, at));
                        let (wrong, _) = chain(9, way, &[0x80, 0x00]);
                        let bytes = after_receive(&join(&[lead, &wrong, tail]));
                        cases.add(
                            format!("{name}, misspelt at level 9"),
                            bytes,
                            Refused(3, at),
                        );
                    }
                }
            }
        }
        for depth in [7, 8] {
            let bytes = after_receive(&join(&[lead, &full(depth), tail]));
            cases.good(
                &format!("{name}, full expression {depth} deep"),
                &bytes,
                count,
            );
        }
        let bytes = after_receive(&join(&[lead, &full(9), tail]));
        cases.add(
            format!("{name}, full expression 9 deep"),
            bytes,
            Refused(6, 11 + lead.len() + 8),
        );
        // Only the last leaf is too deep.
        let mut almost = full(8);
        let end = almost.len() - 2;
        almost.splice(end.., [2, 0, 0, 0, 0]);
        let bytes = after_receive(&join(&[lead, &almost, tail]));
        cases.add(
            format!("{name}, last leaf 9 deep"),
            bytes,
            Refused(6, 11 + lead.len() + end + 1),
        );
    }
}

fn lists(cases: &mut Cases) {
    for (name, code) in [("sequence", 8u8), ("flow", 9)] {
        for count in [0, 1, 2, 31, 32, 33, 34, 127, 128, 4294967295] {
            let items = vec![0; count.min(40) as usize];
            let bytes = after_receive(&join(&[&[code], &spell(count), &items]));
            let fits = (1..=32).contains(&count);
            let answer = if fits {
                Accepted(4 + count as usize)
            } else {
                Refused(5, 12)
            };
            cases.add(format!("{name} of {count}"), bytes, answer);
            let bytes = as_fault(&join(&[&[code], &spell(count), &items]));
            let answer = if fits {
                Accepted(2 + count as usize)
            } else {
                Refused(5, 10)
            };
            cases.add(format!("{name} of {count} as fault part"), bytes, answer);
            let bytes = join(&[HEAD, &[code], &spell(count)]);
            let answer = if fits {
                Refused(2, bytes.len())
            } else {
                Refused(5, 5)
            };
            cases.add(format!("{name} of {count}, then no bytes"), bytes, answer);
        }
    }
    for count in [0, 1, 2, 7, 8, 9, 10, 32, 127, 128, 4294967295] {
        let arms = [1, 2, 2, 1, 0, 4].repeat(count.min(12) as usize);
        let bytes = after_receive(&join(&[&[10], &spell(count), &arms]));
        let fits = (1..=8).contains(&count);
        let answer = if fits {
            Accepted(4 + 2 * count as usize)
        } else {
            Refused(5, 12)
        };
        cases.add(format!("pick of {count}"), bytes, answer);
        let bytes = join(&[HEAD, &[10], &spell(count)]);
        let answer = if fits {
            Refused(2, bytes.len())
        } else {
            Refused(5, 5)
        };
        cases.add(format!("pick of {count}, then no bytes"), bytes, answer);
    }
    for code in TELLING {
        if code >= u32::from(UNKNOWN) && !matches!(code, 17 | 18) {
            let name = format!("code {code}");
            cases.add(
                format!("{name} as body"),
                join(&[HEAD, &spell(code), EMPTY]),
                Refused(4, 4),
            );
            cases.add(
                format!("{name} as fault part"),
                as_fault(&spell(code)),
                Refused(4, 9),
            );
            cases.add(
                format!("{name} in a list"),
                after_receive(&spell(code)),
                Refused(4, 11),
            );
        }
    }
}

fn depths(cases: &mut Cases) {
    for holder in &HOLDERS {
        // As the body's second: the outermost holder has depth 2, the leaf 2 + times.
        for times in [1, 13, 14, 15, 16] {
            if holder.handler && times > 1 {
                continue;
            }
            let (nested, inner) = nest(holder, times, EMPTY);
            let bytes = after_receive(&nested);
            let name = format!("{} held {times} deep after a receive", holder.name);
            if times <= 14 {
                cases.good(&name, &bytes, 4 + holder.adds * times);
            } else {
                // Depth 17 is what 15 holders hold: theirs that comes first in the file.
                let place = 11 + first_at(holder, 15, times, inner);
                cases.add(name, bytes, Refused(6, place));
            }
        }
        if holder.scope {
            continue;
        }
        for times in [1, 14, 15, 16, 17] {
            let (nested, inner) = nest(holder, times, EMPTY);
            let bytes = as_fault(&nested);
            let name = format!("{} held {times} deep as fault part", holder.name);
            if times <= 15 {
                cases.good(&name, &bytes, 2 + holder.adds * times);
            } else {
                let place = 9 + first_at(holder, 16, times, inner);
                cases.add(name, bytes, Refused(6, place));
            }
        }
        // At one number 2, 3, 4, 8 come before 6, in the fault part at depth 17.
        if holder.before.len() == first_of(holder) {
            for (inner, number) in [
                (&[0x80, 0x00][..], 3),
                (&[UNKNOWN], 4),
                (&[11, 0, 0, 0], 8),
                (&[12, 0, 0], 8),
                (&[14, 0, 0], 8),
                (&[9, 1, 0], 6),
                (&[13, 5], 6),
            ] {
                let (nested, place) = nest(holder, 16, inner);
                let name = format!("{inner:02x?} at depth 17, {}", holder.name);
                cases.add(name, as_fault(&nested), Refused(number, 9 + place));
            }
            let (nested, place) = nest(holder, 16, EMPTY);
            let bytes = &as_fault(&nested)[..9 + place];
            cases.add(
                format!("cut at depth 17, {}", holder.name),
                bytes,
                Refused(2, 9 + place),
            );
        }
        // In the fault part of a scope at depth 2, the leaf has depth 3 + times.
        for times in [13, 14] {
            let (nested, inner) = nest(holder, times, &[5]);
            let bytes = after_receive(&join(&[&[11, 0], &nested, &[0]]));
            let name = format!("{} held {times} deep in a scope's fault part", holder.name);
            let answer = if times == 13 {
                Accepted(4 + 3 + holder.adds * times)
            } else {
                Refused(6, 13 + first_at(holder, 14, times, inner))
            };
            cases.add(name, bytes, answer);
        }
    }
    // The body itself deep: start forms around a receive.
    for (name, before, after, adds) in [
        ("sequence", &[8, 1][..], &[][..], 1),
        ("flow", &[9, 1], &[], 1),
        ("scope", &[11], &[0, 0], 3),
        ("scope with no undo part", &[12], &[0], 2),
        (
            "scope with parts by number",
            &[14],
            &[2, 16, 0, 17, 0, 0, 0],
            5,
        ),
    ] {
        for times in [15, 16] {
            let bytes = join(&[
                HEAD,
                &before.repeat(times),
                RECEIVE,
                &after.repeat(times),
                EMPTY,
            ]);
            let place = 4 + times * before.len();
            let answer = if times == 15 {
                Accepted(2 + adds * times)
            } else {
                Refused(6, place)
            };
            cases.add(format!("receive under {times} of {name}"), bytes, answer);
        }
    }
    // The deepest of all: sixteen levels, and eight of expression in the last.
    for depth in [8, 9] {
        let (expression, place) = chain(depth, 0, &[0, 0xFF, 0xFF, 0xFF, 0xFF, 0x0F]);
        let set = join(&[&[3, 1], &expression]);
        let (nested, inner) = nest(&HOLDERS[7], 15, &set);
        let bytes = join(&[HEAD, &nested, EMPTY]);
        let answer = if depth == 8 {
            Accepted(32)
        } else {
            Refused(6, 4 + inner + 2 + place)
        };
        cases.add(
            format!("picks to depth 16 and an expression {depth} deep"),
            bytes,
            answer,
        );
    }
}

/// Lists in lists, each in the last place of the one around it, and a long expression at the end:
/// as much as can be open at once, whatever way a reader takes.
fn wide_and_deep(cases: &mut Cases) {
    for way in 0..3 {
        let set = join(&[
            &[3, 1],
            &chain(8, way, &[0, 0xFF, 0xFF, 0xFF, 0xFF, 0x0F]).0,
        ]);
        for (code, width, levels) in [
            (8, 16, 15),
            (9, 16, 15),
            (8, 32, 7),
            (9, 32, 7),
            (8, 3, 15),
            (9, 7, 14),
        ] {
            let mut before = vec![code, width];
            before.extend(vec![0; width as usize - 1]);
            let bytes = as_fault(&join(&[&before.repeat(levels), &set]));
            let name = format!("code {code} of {width} in {levels} levels, way {way}");
            cases.good(&name, &bytes, 2 + levels * width as usize);
        }
        for (width, levels) in [(8, 15), (5, 15), (2, 15)] {
            let mut before = vec![10, width];
            before.extend([1, 2, 1, 0, 0].repeat(width as usize - 1));
            before.extend([63, 63, 2, 0, 1]);
            let bytes = as_fault(&join(&[&before.repeat(levels), &set]));
            let name = format!("pick of {width} in {levels} levels, way {way}");
            cases.good(&name, &bytes, 2 + 2 * levels * width as usize);
        }
    }
}

/// Where the first activity stands that `holder` itself holds: right before, or earlier.
fn first_of(holder: &Holder) -> usize {
    match holder.name {
        "choose, second" => 3,
        "sequence, last" => 2,
        "scope, fault" | "scope, undo" | "scope with no undo part, fault" => 1,
        name if name.starts_with("scope with parts by number") && !name.ends_with("body") => 1,
        _ => holder.before.len(),
    }
}

/// The place of the first activity held by holder number `nth` of `times`.
fn first_at(holder: &Holder, nth: usize, times: usize, inner: usize) -> usize {
    let place = (nth - 1) * holder.before.len() + first_of(holder);
    assert!(nth <= times && place <= inner);
    place
}

fn crowds(cases: &mut Cases) {
    // The root fault part is the last activity; 253 in the second of the sequence make 256.
    for count in 250..=260 {
        let mut sheet = crowd(2, count);
        one(&mut sheet, 0);
        let total = sheet.parts.len();
        if total <= 256 {
            cases.good(&format!("{total} activities"), &sheet.bytes, total);
        } else {
            let place = sheet.parts[256].0;
            cases.add(
                format!("{total} activities"),
                sheet.bytes,
                Refused(6, place),
            );
        }
    }
    // The 257th is the fault part: 2, 3, 4, 8 come before 6.
    let sheet = crowd(2, 254);
    let place = sheet.bytes.len();
    assert_eq!(sheet.parts.len(), 256);
    cases.add("257th cut", &sheet.bytes[..], Refused(2, place));
    for (more, number) in [
        (&[0x80][..], 2),
        (&[0x80, 0x00], 3),
        (&[UNKNOWN], 4),
        (&[11, 0, 0, 0], 8),
        (&[12, 0, 0], 8),
        (&[14, 0, 0], 8),
        (&[0], 6),
        (&[13], 6),
        (&[13, 5], 6),
        (&[1, 64], 6),
        (&[0, 0], 6),
    ] {
        let answer = Refused(number, if number == 2 { place + 1 } else { place });
        cases.add(
            format!("257th is {more:02x?}"),
            join(&[&sheet.bytes, more]),
            answer,
        );
    }
    // Arms: with 253 before the pick its first arm is the 257th, with 252 the arm's activity is.
    for (before, name) in [
        (253, "arm"),
        (252, "arm's activity"),
        (251, "second arm"),
        (250, "second arm's activity"),
    ] {
        let mut sheet = crowd(3, before);
        let lead = sheet.bytes.len() + 2;
        let arms = [7, 7, 1, 0, 0].repeat(4);
        sheet.bytes.extend(join(&[&[10, 4], &arms, EMPTY]));
        let place = lead + [0, 4, 5, 9][253 - before];
        cases.add(
            format!("257th is an {name}"),
            &sheet.bytes[..],
            Refused(6, place),
        );
        cases.add(
            format!("257th is an {name}, cut"),
            &sheet.bytes[..place],
            Refused(2, place),
        );
        for (value, arm, other) in [
            (&[64][..], 5, 6),
            (&[0x80, 0x00], 3, 3),
            (&[UNKNOWN], 6, 4),
            (&[13], 6, 6),
            (&[14], 6, 6),
            (&[12], 6, 6),
            (&[63], 6, 4),
            (&[11], 6, 6),
        ] {
            let mut bytes = sheet.bytes.clone();
            bytes.splice(place..place + 1, value.iter().copied());
            let number = if (253 - before) % 2 == 0 {
                arm
            } else if value == [64] {
                4
            } else {
                other
            };
            cases.add(
                format!("257th is an {name} of {value:02x?}"),
                bytes,
                Refused(number, place),
            );
        }
    }
    // A pick whose last arm and activity are the 255th and 256th has no room for the fault part.
    for (before, arms) in [(251, 1), (250, 1), (236, 8)] {
        let mut sheet = crowd(3, before);
        let total = 2 + before + 1 + 2 * arms + 1;
        sheet.bytes.extend([10, arms as u8]);
        sheet.bytes.extend([7, 7, 1, 0, 0].repeat(arms));
        let end = sheet.bytes.len();
        sheet.bytes.push(0);
        let answer = if total <= 256 {
            Accepted(total)
        } else {
            Refused(6, end)
        };
        cases.add(
            format!("{arms} arms in a plan of {total}"),
            sheet.bytes,
            answer,
        );
    }
}

fn scopes(cases: &mut Cases) {
    let scope = &[11, 0, 0, 0][..];
    cases.good("scope in a body", &after_receive(scope), 7);
    cases.good(
        "scope in a scope's body",
        &after_receive(&[11, 11, 0, 0, 0, 0, 0]),
        10,
    );
    cases.good(
        "scope after a scope",
        &after_receive(&[8, 2, 11, 0, 0, 0, 11, 0, 0, 0]),
        12,
    );
    let bare = &[12, 0, 0][..];
    cases.good("scope with no undo part", &after_receive(bare), 6);
    cases.good(
        "scopes with no undo part, in each other and beside one another",
        &after_receive(&[12, 8, 3, 12, 0, 0, 11, 12, 0, 0, 0, 0, 12, 0, 0, 0]),
        18,
    );
    cases.add(
        "scope with no undo part, and an undo part after it",
        after_receive(&[12, 0, 0, 0]),
        Refused(9, 15),
    );
    cases.add(
        "scope with no undo part as root fault part",
        as_fault(bare),
        Refused(8, 9),
    );
    for (at, bytes) in [
        (12, &[11, 0, 12, 0, 0, 0][..]),
        (13, &[11, 0, 0, 12, 0, 0]),
        (12, &[12, 0, 12, 0, 0]),
        (12, &[12, 0, 11, 0, 0, 0]),
    ] {
        let name = format!("{bytes:02x?} has a scope in a part");
        cases.add(name, after_receive(bytes), Refused(8, at + 1));
    }
    cases.add("scope as root fault part", as_fault(scope), Refused(8, 9));
    cases.add(
        "scope as root fault part, its code the last byte",
        as_fault(&[11]),
        Refused(8, 9),
    );
    cases.add(
        "scope as fault part",
        after_receive(&[11, 0, 11, 0, 0, 0, 0]),
        Refused(8, 13),
    );
    cases.add(
        "scope as undo part",
        after_receive(&[11, 0, 0, 11, 0, 0, 0]),
        Refused(8, 14),
    );
    cases.add(
        "scope in an inner scope's undo part",
        after_receive(&[11, 11, 0, 0, 11, 0, 0, 0, 0, 0]),
        Refused(8, 15),
    );
    // Handlers inside a scope's body bar only what is in them.
    cases.add(
        "scope after an inner scope's handlers",
        after_receive(&[11, 8, 2, 11, 0, 0, 0, 11, 0, 0, 0, 0, 0]),
        Accepted(15),
    );
    for holder in &HOLDERS {
        if holder.scope {
            // A scope that holds a scope: allowed in the body, refused in a handler.
            let (nested, inner) = nest(holder, 1, scope);
            let answer = if holder.handler {
                Refused(8, 11 + inner)
            } else {
                Accepted(7 + holder.adds)
            };
            cases.add(
                format!("scope in {}", holder.name),
                after_receive(&nested),
                answer,
            );
            continue;
        }
        for times in [1, 2, 3, 12] {
            let (nested, inner) = nest(holder, times, scope);
            let name = format!("scope held {times} deep by {}", holder.name);
            let adds = holder.adds * times;
            cases.add(
                format!("{name}, in the body"),
                after_receive(&nested),
                Accepted(7 + adds),
            );
            cases.add(
                format!("{name}, root fault part"),
                as_fault(&nested),
                Refused(8, 9 + inner),
            );
            let bytes = after_receive(&join(&[&[11], &nested, &[0, 0]]));
            cases.add(format!("{name}, scope body"), bytes, Accepted(10 + adds));
            let bytes = after_receive(&join(&[&[11, 0], &nested, &[0]]));
            cases.add(format!("{name}, fault part"), bytes, Refused(8, 13 + inner));
            let bytes = after_receive(&join(&[&[11, 0, 0], &nested]));
            cases.add(format!("{name}, undo part"), bytes, Refused(8, 14 + inner));
        }
    }
    // The second arm and the last of a list.
    let bytes = as_fault(&[10, 2, 1, 1, 1, 0, 0, 1, 1, 1, 0, 11, 0, 0, 0]);
    cases.add("scope in a second arm", bytes, Refused(8, 20));
    let bytes = as_fault(&[9, 3, 0, 0, 11, 0, 0, 0]);
    cases.add("scope last in a flow", bytes, Refused(8, 13));
}

fn start_forms(cases: &mut Cases) {
    let pick = &[10, 1, 0, 0, 1, 0, 0][..];
    let send = &[1, 0, 0, 1, 0][..];
    let set = &[3, 1, 0, 0][..];
    // Start forms and how many activities they hold, then what is none.
    let mut forms: Vec<(Vec<u8>, usize, bool)> = vec![
        (RECEIVE.to_vec(), 1, true),
        (vec![18, 3, 5, 1, 0, 1], 1, true),
        (vec![17, 1, 0, 1, 0, 9], 1, false),
        (pick.to_vec(), 3, true),
        (EMPTY.to_vec(), 1, false),
        (send.to_vec(), 1, false),
        (set.to_vec(), 1, false),
        (vec![4], 1, false),
        (vec![5], 1, false),
        (vec![13, 16], 1, false),
        (join(&[&[6, 0, 1], RECEIVE, RECEIVE]), 3, false),
        (join(&[&[7, 0, 1], RECEIVE]), 2, false),
    ];
    // Two rounds of what is built from them.
    for round in 0..2 {
        let known = forms.clone();
        for (at, (bytes, count, starts)) in known.iter().enumerate() {
            // The second round builds on what the first one built, and not on all of it.
            if round == 1 && (at < 12 || at % 5 != 0) {
                continue;
            }
            let (count, starts) = (*count, *starts);
            forms.push((join(&[&[8, 1], bytes]), 1 + count, starts));
            forms.push((join(&[&[8, 2], bytes, EMPTY]), 2 + count, starts));
            forms.push((join(&[&[8, 2], EMPTY, bytes]), 2 + count, false));
            forms.push((join(&[&[8, 2], RECEIVE, bytes]), 2 + count, true));
            forms.push((join(&[&[9, 1], bytes]), 1 + count, starts));
            forms.push((join(&[&[9, 2], bytes, EMPTY]), 2 + count, false));
            forms.push((join(&[&[9, 2], bytes, RECEIVE]), 2 + count, starts));
            forms.push((join(&[&[9, 2], RECEIVE, bytes]), 2 + count, starts));
            forms.push((join(&[&[9, 3], pick, bytes, RECEIVE]), 5 + count, starts));
            forms.push((join(&[&[11], bytes, EMPTY, EMPTY]), 3 + count, starts));
            forms.push((join(&[&[12], bytes, EMPTY]), 2 + count, starts));
            forms.push((join(&[&[14], bytes, &[1, 3, 0, 0, 0]]), 4 + count, starts));
            forms.push((join(&[&[10, 1, 0, 0, 1, 0], bytes]), 2 + count, true));
            forms.push((join(&[&[7, 0, 0], bytes]), 1 + count, false));
            forms.push((join(&[&[6, 0, 0], bytes, bytes]), 1 + 2 * count, false));
            if !bytes.contains(&11) && !bytes.contains(&12) && !bytes.contains(&14) {
                let part = join(&[&[14, 0, 1, 3], bytes, RECEIVE, RECEIVE]);
                forms.push((part, 4 + count, false));
                forms.push((join(&[&[12], EMPTY, bytes]), 2 + count, false));
                forms.push((join(&[&[11], EMPTY, bytes, RECEIVE]), 3 + count, false));
            }
        }
    }
    for (bytes, count, starts) in forms {
        let plan = join(&[HEAD, &bytes, EMPTY]);
        let answer = if starts {
            Accepted(count + 1)
        } else {
            Refused(7, 4)
        };
        let length = plan.len();
        cases.add(format!("body {bytes:02x?}"), &plan[..], answer);
        // Trouble further on comes before 7.
        cases.add(
            format!("body {bytes:02x?}, more bytes"),
            join(&[&plan, EMPTY]),
            Refused(9, length),
        );
        cases.add(
            format!("body {bytes:02x?}, cut"),
            &plan[..length - 1],
            Refused(2, length - 1),
        );
        cases.add(
            format!("body {bytes:02x?}, bad fault part"),
            join(&[&plan[..length - 1], &[UNKNOWN]]),
            Refused(4, length - 1),
        );
    }
    // The body's code stands after the header, whatever its length.
    for count in 0..=16u8 {
        let list: Vec<u8> = (0..count).collect();
        let bytes = join(&[&[1, 16, count], &list, &[0, 0]]);
        cases.add(
            format!("empty body after {count} correlation variables"),
            bytes,
            Refused(7, 3 + count as usize),
        );
    }
}

/// Document 02, request 4: a raise has a number of 16 to 255.
fn raises(cases: &mut Cases) {
    for value in TELLING {
        let number = spell(value);
        let fits = (16..=255).contains(&value);
        let raise = join(&[&[13], &number]);
        let name = format!("raise with number {value}");
        if fits {
            cases.good(&name, &after_receive(&raise), 4);
            cases.good(&format!("{name}, as fault part"), &as_fault(&raise), 2);
        } else {
            cases.add(&name, after_receive(&raise), Refused(5, 12));
            let bytes = join(&[HEAD, THEN, &raise]);
            cases.add(format!("{name}, then no bytes"), bytes, Refused(5, 12));
            cases.add(
                format!("{name}, as fault part"),
                as_fault(&raise),
                Refused(5, 10),
            );
        }
        let (nested, inner) = nest(&HOLDERS[2], 14, &raise);
        let answer = if fits {
            Accepted(4 + 14)
        } else {
            Refused(5, 12 + inner)
        };
        cases.add(
            format!("{name}, at depth 16"),
            after_receive(&nested),
            answer,
        );
    }
    for wrong in MISSPELT {
        let bytes = after_receive(&join(&[&[13], wrong]));
        cases.add(
            format!("raise with number {wrong:02x?}"),
            bytes,
            Refused(3, 12),
        );
    }
    // In each part of a scope, and more than one.
    cases.good(
        "raises with numbers in a scope",
        &after_receive(&[8, 2, 11, 13, 16, 13, 17, 13, 0xFF, 1, 13, 16]),
        9,
    );
    cases.add(
        "raise with a wrong number, then a scope in a fault part",
        join(&[HEAD, THEN, &[13, 15], &[11, 0, 0, 0]]),
        Refused(5, 12),
    );
    cases.add(
        "raise with a number as body",
        join(&[HEAD, &[13, 16, 0]]),
        Refused(7, 4),
    );
    cases.add(
        "raise with a wrong number as body",
        join(&[HEAD, &[13, 4, 0]]),
        Refused(5, 5),
    );
}

/// Document 02, request 4: a scope with one to eight fault parts by number, each of 0 to 5 (5 by request 5) or 16 to 255 and no two alike.
fn parts_by_number(cases: &mut Cases) {
    let legal = |value: u32| value <= 5 || (16..=255).contains(&value);
    for value in TELLING {
        let number = spell(value);
        let name = format!("fault part for {value}");
        // The number stands at 14, and with another before it at 16.
        let alone = join(&[&[14, 0, 1], &number, &[0, 0, 0]]);
        if legal(value) {
            cases.good(&name, &after_receive(&alone), 8);
        } else {
            cases.add(&name, after_receive(&alone), Refused(5, 14));
            let cut = join(&[HEAD, THEN, &[14, 0, 1], &number]);
            cases.add(format!("{name}, then no bytes"), cut, Refused(5, 14));
        }
        for before in [3u8, 16] {
            let second = join(&[&[14, 0, 2, before, 0], &number, &[0, 0, 0]]);
            let answer = if legal(value) && value != u32::from(before) {
                Accepted(9)
            } else {
                Refused(5, 16)
            };
            cases.add(
                format!("{name} behind one for {before}"),
                after_receive(&second),
                answer,
            );
        }
        // The count stands at 13.
        let parts: Vec<u8> = (16..16 + value.min(12) as u8)
            .flat_map(|n| [n, 0])
            .collect();
        let scope = join(&[&[14, 0], &number, &parts, &[0, 0]]);
        let answer = if (1..=8).contains(&value) {
            Accepted(7 + value as usize)
        } else {
            Refused(5, 13)
        };
        cases.add(
            format!("{value} fault parts by number"),
            after_receive(&scope),
            answer,
        );
    }
    for wrong in MISSPELT {
        let count = join(&[&[14, 0], wrong]);
        cases.add(
            format!("{wrong:02x?} fault parts by number"),
            after_receive(&count),
            Refused(3, 13),
        );
        let number = join(&[&[14, 0, 1], wrong]);
        cases.add(
            format!("fault part for {wrong:02x?}"),
            after_receive(&number),
            Refused(3, 14),
        );
    }
    // Eight, of which the last is for the number of one before it.
    for (at, twice) in (0..8u8).zip([0, 1, 2, 3, 4, 16, 17, 18]) {
        let numbers = [0, 1, 2, 3, 4, 16, 17];
        let mut parts: Vec<u8> = numbers.iter().flat_map(|&n| [n, 0]).collect();
        parts.extend([twice, 0]);
        let scope = join(&[&[14, 0, 8], &parts, &[0, 0]]);
        let answer = if at == 7 {
            Accepted(15)
        } else {
            Refused(5, 28)
        };
        cases.add(
            format!("eight fault parts, the last for {twice}"),
            after_receive(&scope),
            answer,
        );
    }
    // The body comes before the count, and a part before the next number.
    for (name, bytes, number, place) in [
        ("bad body and bad count", &[14, UNKNOWN, 0][..], 4, 12),
        ("bad count and bad number", &[14, 0, 9, 6], 5, 13),
        ("bad number and bad part", &[14, 0, 1, 6, UNKNOWN], 5, 14),
        (
            "bad part and bad number",
            &[14, 0, 2, 16, UNKNOWN, 6],
            4,
            15,
        ),
        (
            "scope in a part by number",
            &[14, 0, 1, 16, 12, 0, 0],
            8,
            15,
        ),
        (
            "scope in the second part",
            &[14, 0, 2, 16, 0, 17, 14],
            8,
            17,
        ),
        ("scope in the general part", &[14, 0, 1, 16, 0, 11], 8, 16),
        ("scope in the undo part", &[14, 0, 1, 16, 0, 0, 14], 8, 17),
    ] {
        cases.add(name, after_receive(bytes), Refused(number, place));
    }
    cases.good(
        "scopes with parts by number, in each other and beside one another",
        &after_receive(&[
            14, 8, 2, 14, 0, 1, 16, 0, 0, 0, 12, 14, 4, 1, 0, 5, 0, 0, 0, 2, 16, 0, 17, 0, 0, 0,
        ]),
        21,
    );
    cases.add(
        "scope with parts by number as root fault part",
        as_fault(&[14, 0, 1, 16, 0, 0, 0]),
        Refused(8, 9),
    );
    cases.add(
        "scope with parts by number and no undo part",
        after_receive(&[14, 0, 1, 16, 0, 0]),
        Refused(2, 18),
    );
}

/// Document 02, request 5: a send to the partner that a variable holds, and a receive that stores whom to reply to.
fn replies(cases: &mut Cases) {
    // Four variables, variable 0 for correlation; a receive, and what stands behind it at place 11.
    let after = |activity: &[u8]| join(&[&[1, 4, 1, 0], THEN, activity, EMPTY]);
    cases.good("answer", &after(&[17, 0, 63, 2, 0, 0, 63]), 4);
    cases.good("asking", &after(&[18, 63, 63, 2, 1, 0, 3]), 4);
    let fits = |fit: bool, place| match fit {
        true => Accepted(4),
        false => Refused(5, place),
    };
    for value in TELLING {
        let number = spell(value);
        let longer = number.len() - 1;
        // The variable that holds the partner, for correlation or in the tuple too; the operation; the reply partner.
        for tuple in [&[1, 0][..], &[2, 3, 3], &[4, 0, 1, 2, 3]] {
            let bytes = after(&join(&[&[17], &number, &[9], tuple, &[5]]));
            let name = format!("answer to variable {value}, tuple {tuple:?}");
            cases.add(name, bytes, fits(value < 4, 12));
            let bytes = after(&join(&[&[17, 1, 9], tuple, &number]));
            let name = format!("answer with reply partner {value}, tuple {tuple:?}");
            cases.add(name, bytes, fits(value < 64, 14 + tuple.len()));
        }
        let bytes = after(&join(&[&[17, 1], &number, &[1, 0, 0]]));
        cases.add(
            format!("answer, operation {value}"),
            bytes,
            fits(value < 64, 13),
        );
        let bytes = after(&join(&[&[17, 1, 0, 1], &number, &[0]]));
        cases.add(
            format!("answer, variable {value}"),
            bytes,
            fits(value < 4, 15),
        );
        // Partner and operation of a receive; the variable that stores the reply partner.
        let bytes = after(&join(&[&[18], &number, &[9, 1, 0, 1]]));
        cases.add(
            format!("asking, partner {value}"),
            bytes,
            fits(value < 64, 12),
        );
        let bytes = after(&join(&[&[18, 9], &number, &[1, 0, 1]]));
        cases.add(
            format!("asking, operation {value}"),
            bytes,
            fits(value < 64, 13),
        );
        for tuple in [
            &[1, 0][..],
            &[1, 1],
            &[2, 0, 2],
            &[3, 3, 0, 2],
            &[4, 1, 2, 0, 3],
        ] {
            let bytes = after(&join(&[&[18, 9, 9], tuple, &number]));
            let own = tuple[1..].iter().any(|&v| u32::from(v) == value);
            let legal = (1..4).contains(&value) && !own;
            let name = format!("asking of {tuple:?}, storing in {value}");
            cases.add(name, bytes, fits(legal, 14 + tuple.len()));
            let cut = join(&[&[1, 4, 1, 0], THEN, &[18, 9, 9], tuple, &number]);
            let answer = match legal {
                true => Refused(2, 15 + tuple.len() + longer),
                false => Refused(5, 14 + tuple.len()),
            };
            cases.add(
                format!("asking of {tuple:?}, storing in {value}, then no bytes"),
                cut,
                answer,
            );
        }
    }
    for wrong in MISSPELT {
        for (activity, place) in [
            (&[17, 0, 0, 1, 0][..], 16),
            (&[18, 0, 0, 1, 0], 16),
            (&[17], 12),
        ] {
            cases.add(
                format!("{activity:?} and {wrong:02x?}"),
                after(&join(&[activity, wrong])),
                Refused(3, place),
            );
        }
    }
    for count in [0, 5, 6] {
        for code in [17, 18] {
            cases.add(
                format!("code {code} with {count} variables"),
                after(&[code, 0, 0, count, 0, 1, 2, 3, 0, 0]),
                Refused(5, 14),
            );
        }
    }
    // A receive names no variable twice, an answer may.
    cases.add(
        "asking, twice",
        after(&[18, 9, 9, 2, 1, 1, 1]),
        Refused(5, 16),
    );
    cases.good("answer, twice", &after(&[17, 1, 9, 3, 1, 1, 1, 0]), 4);
    // It is a receive: a start form, and one that agrees with the others.
    cases.good("asking as body", &[1, 2, 1, 0, 18, 3, 5, 1, 0, 1, 0], 2);
    cases.good(
        "asking first in flow and scope",
        &[
            1, 2, 1, 0, 9, 2, 18, 3, 5, 1, 0, 1, 11, 18, 3, 5, 1, 0, 1, 0, 0, 0,
        ],
        7,
    );
    cases.add(
        "answer as body",
        [1, 2, 1, 0, 17, 0, 5, 1, 0, 1, 0],
        Refused(7, 4),
    );
    cases.good(
        "asking with the same count",
        &after(&[18, 3, 5, 1, 1, 2]),
        4,
    );
    cases.add(
        "asking with another count",
        after(&[18, 3, 5, 2, 0, 1, 2]),
        Refused(21, 14),
    );
    cases.add(
        "a receive with another count than one that asks",
        join(&[
            &[1, 4, 1, 0, 8, 2, 18, 3, 5, 1, 0, 1],
            &[2, 3, 5, 2, 0, 1],
            EMPTY,
        ]),
        Refused(21, 15),
    );
    cases.good(
        "answer with another count",
        &after(&[17, 3, 5, 2, 0, 1, 2]),
        4,
    );
    // Nothing in a part bars them, and no arm has them.
    cases.good(
        "asking and answer in fault and undo part",
        &after(&[11, 0, 18, 9, 9, 1, 1, 2, 17, 2, 9, 1, 1, 63]),
        7,
    );
    cases.add(
        "one variable, which a receive has",
        [1, 1, 0, 18, 0, 0, 1, 0, 0, 0],
        Refused(5, 8),
    );
    cases.add(
        "all other variables for correlation",
        [1, 2, 1, 1, 18, 0, 0, 1, 0, 1, 0],
        Refused(5, 9),
    );
    for depth in [13, 14, 15] {
        for activity in [&[17, 0, 0, 1, 0, 0][..], &[18, 0, 0, 1, 0, 1]] {
            let (nested, inner) = nest(&HOLDERS[3], depth, activity);
            let answer = match depth {
                15 => Refused(6, 11 + inner),
                _ => Accepted(4 + depth),
            };
            cases.add(
                format!("{activity:?} held {depth} deep"),
                after(&nested),
                answer,
            );
        }
    }
}

/// Two troubles in one plan: the first from the left decides.
fn orders(cases: &mut Cases) {
    cases.add("V 0 and a bad code", [1, 0, 0, UNKNOWN], Refused(5, 1));
    cases.add("bad version and V 0", [2, 0], Refused(4, 0));
    cases.add("V 17 and then no bytes", [1, 17], Refused(5, 1));
    cases.add("V 1, count 2 and then no bytes", [1, 1, 2], Refused(5, 2));
    cases.add(
        "bad partner and bad operation",
        after_receive(&[1, 64, 64, 5, 2]),
        Refused(5, 12),
    );
    cases.add(
        "bad operation and bad count",
        after_receive(&[1, 0, 64, 5, 2]),
        Refused(5, 13),
    );
    cases.add(
        "bad count and bad variable",
        after_receive(&[1, 0, 0, 5, 2]),
        Refused(5, 14),
    );
    cases.add(
        "twice and then too high",
        join(&[&[1, 3, 0], &[2, 0, 0, 3, 1, 1, 3], EMPTY]),
        Refused(5, 8),
    );
    cases.add(
        "set of correlation, bad form",
        after_receive(&[3, 0, 6]),
        Refused(5, 12),
    );
    cases.add(
        "bad form, cut",
        join(&[HEAD, THEN, &[3, 1, 6]]),
        Refused(4, 13),
    );
    cases.add(
        "empty body, scope in fault part",
        join(&[HEAD, EMPTY, &[11, 0, 0, 0]]),
        Refused(8, 5),
    );
    cases.add("empty body, cut", join(&[HEAD, EMPTY]), Refused(2, 5));
    cases.add(
        "empty body, more bytes",
        join(&[HEAD, &[0, 0, 0]]),
        Refused(9, 6),
    );
    cases.add(
        "empty body, more bytes misspelt",
        join(&[HEAD, &[0, 0, 0x80, 0x00]]),
        Refused(9, 6),
    );
    cases.add("empty body", join(&[HEAD, &[0, 0]]), Refused(7, 4));
}

/// Document 02, request 8: two receives or arms of one pair have one count. `THEN` has partner 3, operation 5 and count 1.
fn agreement(cases: &mut Cases) {
    let refused = |cases: &mut Cases, name: &str, activity: &[u8], place| {
        cases.add(name, after_receive(activity), Refused(21, place));
    };
    cases.good("the same count", &after_receive(&[2, 3, 5, 1, 1]), 4);
    cases.good("another operation", &after_receive(&[2, 3, 4, 2, 0, 1]), 4);
    cases.good("another partner", &after_receive(&[2, 2, 5, 2, 0, 1]), 4);
    cases.good(
        "the pair turned round",
        &after_receive(&[2, 5, 3, 2, 0, 1]),
        4,
    );
    cases.good("a send", &after_receive(&[1, 3, 5, 2, 0, 1]), 4);
    refused(cases, "another count", &[2, 3, 5, 2, 0, 1], 14);
    refused(
        cases,
        "another count in an arm",
        &[10, 1, 3, 5, 2, 0, 1, 0],
        15,
    );
    refused(
        cases,
        "another count in the second arm",
        &[10, 2, 3, 5, 1, 0, 0, 3, 5, 2, 0, 1, 0],
        20,
    );
    refused(
        cases,
        "the later pair disagrees first",
        &[8, 3, 2, 0, 0, 2, 0, 1, 2, 0, 0, 1, 0, 2, 3, 5, 2, 0, 1],
        22,
    );
    refused(
        cases,
        "a third that agrees with the second",
        &[8, 2, 2, 3, 5, 2, 0, 1, 2, 3, 5, 2, 0, 1],
        16,
    );
    cases.add(
        "another count in the fault part",
        as_fault(&[2, 3, 5, 2, 0, 1]),
        Refused(21, 12),
    );
    cases.add(
        "another count, and a byte more",
        join(&[&after_receive(&[2, 3, 5, 2, 0, 1]), EMPTY]),
        Refused(9, 18),
    );
    cases.add(
        "another count, and no start form",
        join(&[HEAD, &[8, 3, 0], RECEIVE, &[2, 3, 5, 2, 0, 1], EMPTY]),
        Refused(7, 4),
    );
    cases.add(
        "another count, and a bad code after it",
        join(&[HEAD, THEN, &[2, 3, 5, 2, 0, 1], &[UNKNOWN]]),
        Refused(4, 17),
    );
}

/// Each number of a plan made each telling value, and each byte each byte: compared only.
fn swaps(cases: &mut Cases) {
    let sheet = every_code();
    for &(place, kind, value) in &sheet.numbers {
        let after = &sheet.bytes[place + spell(value).len()..];
        for new in TELLING {
            let bytes = join(&[&sheet.bytes[..place], &spell(new), after]);
            cases.add(format!("{kind:?} at {place} made {new}"), bytes, Open);
        }
    }
    for at in 0..sheet.bytes.len() {
        for new in 0..=255 {
            let mut bytes = sheet.bytes.clone();
            bytes[at] = new;
            cases.add(format!("byte {at} made {new:02x}"), bytes, Open);
        }
    }
}
