//! Checks of the model by itself: document 01's examples, the vectors, the edge cases, the generator.

use model::edges::{self, Answer};
use model::generate::{self, Random};
use model::reader::{self, Part, Refusal, read, read_number};
use model::rows;
use model::text::{self, Wrong};
use model::vectors;

fn refused(number: u32, place: u32) -> Result<usize, Refusal> {
    Err(Refusal { number, place })
}

fn count(bytes: &[u8]) -> Result<usize, Refusal> {
    read(bytes).map(|plan| plan.count())
}

const A: [u8; 11] = [
    0x01, 0x02, 0x01, 0x00, 0x02, 0x03, 0x05, 0x02, 0x00, 0x01, 0x00,
];

#[test]
fn examples_of_document_01() {
    assert_eq!(count(&A), Ok(2));
    assert_eq!(
        read(&A).unwrap().parts,
        [Part { start: 4, end: 10 }, Part { start: 10, end: 11 }]
    );
    assert_eq!(count(&A[..10]), refused(2, 10));
    let mut longer = A.to_vec();
    longer.push(0);
    assert_eq!(count(&longer), refused(9, 11));
    assert_eq!(count(&[]), refused(2, 0));
    assert_eq!(count(&[0x02]), refused(4, 0));
    assert_eq!(count(&[0x81, 0x00]), refused(3, 0));
    assert_eq!(count(&[0x01, 0x02, 0x01, 0x00, 0x00, 0x00]), refused(7, 4));
    let mut twice = A;
    twice[9] = 0;
    assert_eq!(count(&twice), refused(5, 9));
    assert_eq!(read_number(&[0xAC, 0x02], 0), Ok((300, 2)));
    assert_eq!(
        read_number(&[0xFF, 0xFF, 0xFF, 0xFF, 0x0F], 0),
        Ok((4294967295, 5))
    );
    assert_eq!(
        read_number(&[0xFF, 0xFF, 0xFF, 0xFF, 0x10], 0),
        Err(Refusal {
            number: 3,
            place: 0
        })
    );
}

#[test]
fn plans_b_and_c_of_document_01() {
    // B: receives 5 then 6 of (0, 1).
    assert_eq!(
        count(&[1, 2, 1, 0, 8, 2, 2, 0, 5, 2, 0, 1, 2, 0, 6, 2, 0, 1, 0]),
        Ok(4)
    );
    // C: a receive, two scopes with an undo part that sends, raise; empty fault part.
    let c = [
        1, 1, 0, 8, 4, 2, 0, 0, 1, 0, 11, 0, 0, 1, 0, 1, 1, 0, 11, 0, 0, 1, 0, 2, 1, 0, 4, 0,
    ];
    assert_eq!(count(&c), Ok(12));
    assert_eq!(read(&c).unwrap().parts[2], Part { start: 10, end: 18 });
}

#[test]
fn an_arm_is_shown_from_its_partner_number() {
    // A pick of two arms; the second one's activity is a raise.
    let plan = read(&[1, 1, 0, 10, 2, 7, 8, 1, 0, 0, 6, 5, 1, 0, 4, 5]).unwrap();
    let parts: Vec<(u32, u32)> = plan
        .parts
        .iter()
        .map(|part| (part.start, part.end))
        .collect();
    assert_eq!(
        parts,
        [(3, 15), (5, 10), (9, 10), (10, 15), (14, 15), (15, 16)]
    );
}

#[test]
fn numbers() {
    for value in generate::TELLING {
        let bytes = generate::spell(value);
        assert_eq!(read_number(&bytes, 0), Ok((value, bytes.len())));
        for cut in 0..bytes.len() {
            assert_eq!(
                read_number(&bytes[..cut], 0),
                Err(Refusal {
                    number: 2,
                    place: cut as u32
                })
            );
        }
    }
    for bytes in generate::MISSPELT {
        assert_eq!(
            read_number(bytes, 0),
            Err(Refusal {
                number: 3,
                place: 0
            }),
            "{bytes:02x?}"
        );
    }
}

#[test]
fn every_line_of_the_vectors() {
    let vectors = vectors::all();
    let lines = vectors::TEXT
        .lines()
        .filter(|line| !line.starts_with('#'))
        .count();
    assert_eq!(vectors.len(), lines);
    assert!(lines > 0);
    for vector in vectors {
        let answer = match read(&vector.bytes) {
            Ok(plan) => (0, 0, plan.count()),
            Err(refusal) => (refusal.number, refusal.place, 0),
        };
        assert_eq!(
            answer,
            (vector.refusal, vector.place, vector.count),
            "line {}",
            vector.line
        );
    }
}

#[test]
fn every_edge_case() {
    let mut wrong = 0;
    let mut worked = 0;
    for case in edges::all() {
        let answer = match read(&case.bytes) {
            Ok(plan) => Answer::Accepted(plan.count()),
            Err(refusal) => Answer::Refused(refusal.number, refusal.place as usize),
        };
        if case.answer == Answer::Open {
            continue;
        }
        worked += 1;
        if answer != case.answer {
            wrong += 1;
            println!(
                "{}: {} should be {:?}, is {answer:?}",
                case.name,
                vectors::hex(&case.bytes),
                case.answer
            );
        }
    }
    println!("{worked} edge cases with their answer");
    assert_eq!(wrong, 0);
}

#[test]
fn legal_plans_are_accepted_with_the_parts_they_were_written_with() {
    let mut random = Random::new(1);
    let mut deepest = 0;
    let mut deepest_expression = 0;
    let mut most = 0;
    let mut longest = 0;
    for _ in 0..20_000 {
        let sheet = generate::legal(&mut random);
        let plan = match read(&sheet.bytes) {
            Ok(plan) => plan,
            Err(refusal) => panic!("{} gets {refusal:?}", vectors::hex(&sheet.bytes)),
        };
        let parts: Vec<(usize, usize)> = plan
            .parts
            .iter()
            .map(|part| (part.start as usize, part.end as usize))
            .collect();
        assert_eq!(parts, sheet.parts, "{}", vectors::hex(&sheet.bytes));
        deepest = deepest.max(sheet.deepest);
        deepest_expression = deepest_expression.max(sheet.deepest_expression);
        most = most.max(parts.len());
        longest = longest.max(sheet.bytes.len());
    }
    assert_eq!(
        (deepest, deepest_expression, most, longest),
        (16, 8, 256, 4096)
    );
}

#[test]
fn plans_come_back_from_their_rows() {
    let mut random = Random::new(4);
    let generated = (0..5_000).map(|_| generate::legal(&mut random).bytes);
    let given = vectors::all().into_iter().map(|vector| vector.bytes);
    let edges = edges::all().into_iter().map(|case| case.bytes);
    let mut codes = [0; 19];
    for bytes in generated.chain(given).chain(edges) {
        let Ok(plan) = read(&bytes) else { continue };
        let table = rows::table_of(&bytes).unwrap();
        let mut out = vec![0; bytes.len()];
        assert_eq!(rows::write(&table, &mut out), Ok(bytes.len()));
        assert_eq!(out, bytes);
        for part in &plan.parts {
            codes[usize::from(bytes[part.start as usize]).min(18)] += 1;
        }
    }
    // 15 and 16 are no codes: there an arm begins with its partner.
    let known = (0..19).filter(|code| !matches!(code, 15 | 16));
    assert!(known.into_iter().all(|code| codes[code] > 100), "{codes:?}");
}

#[test]
fn the_mix_earns_every_refusal() {
    let mut random = Random::new(2);
    let mut tally = [0; 22];
    let mut bytes = 0;
    for _ in 0..20_000 {
        let plan = generate::mixed(&mut random);
        bytes += plan.len();
        tally[read(&plan).map_or_else(|refusal| refusal.number, |_| 0) as usize] += 1;
    }
    println!("{tally:?}, {} bytes on average", bytes / 20_000);
    let earned = [0, 1, 2, 3, 4, 5, 6, 7, 8, 9, 21];
    assert!(earned.iter().all(|&number| tally[number] > 0), "{tally:?}");
}

#[test]
fn the_same_seed_gives_the_same_plans() {
    let (mut one, mut other) = (Random::new(3), Random::new(3));
    for _ in 0..200 {
        assert_eq!(generate::mixed(&mut one), generate::mixed(&mut other));
    }
}

#[test]
fn a_plan_used_again_holds_nothing_old() {
    let mut plan = reader::Plan::default();
    reader::read_into(&A, &mut plan).unwrap();
    assert_eq!(plan.count(), 2);
    assert!(reader::read_into(&A[..10], &mut plan).is_err());
    assert_eq!(plan.count(), 0);
}

#[test]
fn plans_as_text() {
    let text = "variable v0 (correlation)\nvariable v1\n  0  root body: receive from partner 3, operation 5: v0 (correlation), v1\n  1  root fault part: empty\n";
    assert_eq!(text::read(text.as_bytes()), Ok(A.to_vec()));
    let cut = text.lines().take(3).collect::<Vec<_>>().join("\n");
    assert_eq!(text::read(cut.as_bytes()), Err(Wrong::Line(3)));
    let empty = "variable a\nempty\nempty";
    assert_eq!(text::read(empty.as_bytes()), Err(Wrong::Refused(7, 2)));
    // the sample plan, as the desk writes it in the story
    let sample = "010602000108071205000300010205010b0102000102010203000103060401030000040009020b0802010c0303000102020204010004010c05030001020b0802010d06020002020307010004010d080100010e090200020a02040a010011050b010000040c0200040411050d010000";
    assert_eq!(
        text::read(model::fullest::SAMPLE.as_bytes()).ok(),
        vectors::bytes(sample)
    );
}

/// What a text writes, and the bytes that it says.
fn write(lines: &[&str]) -> Result<Vec<u8>, Wrong> {
    text::read(lines.join("\n").as_bytes())
}

#[test]
fn raises_with_a_number_as_text() {
    let with = |raise: &str| {
        write(&[
            "variable a",
            "root body: sequence",
            "  receive from partner 0, operation 0: a",
            raise,
            "root fault part: empty",
        ])
    };
    let bytes = |raise: &[u8]| Ok([&[1, 1, 0, 8, 2, 2, 0, 0, 1, 0], raise, &[0]].concat());
    assert_eq!(with("  raise"), bytes(&[4]));
    assert_eq!(with("  raise 16"), bytes(&[13, 16]));
    assert_eq!(with("  raise 255 # why"), bytes(&[13, 255, 1]));
    for number in ["0", "4", "15", "256", "4294967295"] {
        assert_eq!(
            with(&format!("  raise {number}")),
            Err(Wrong::Refused(5, 4))
        );
    }
    for wrong in [
        "raise 4294967296",
        "raise a",
        "raise 16 17",
        "raise 16:",
        "raise (16)",
    ] {
        assert_eq!(with(&format!("  {wrong}")), Err(Wrong::Line(4)));
    }
    assert_eq!(
        write(&[
            "variable a",
            "root body: receive from partner 0, operation 0: a",
            "root fault part: raise 17",
        ]),
        Ok(vec![1, 1, 0, 2, 0, 0, 1, 0, 13, 17])
    );
}

#[test]
fn scopes_with_fault_parts_by_number_as_text() {
    let front = [
        "variable a",
        "root body: sequence",
        "  receive from partner 0, operation 0: a",
        "  scope",
        "    body: empty",
    ];
    let with = |lines: &[&str]| write(&[&front, lines, &["root fault part: empty"]].concat());
    let bytes = |more: &[u8]| Ok([&[1, 1, 0, 8, 2, 2, 0, 0, 1, 0], more, &[0]].concat());
    let behind = ["    fault part: leave", "    undo part: empty"];
    let parts = |lines: &[&str]| with(&[lines, &behind].concat());
    assert_eq!(
        parts(&["    fault part 16: raise"]),
        bytes(&[14, 0, 1, 16, 4, 5, 0])
    );
    assert_eq!(
        parts(&[
            "    fault part 255: sequence",
            "      empty",
            "      raise",
            "    fault part 0: raise 17",
        ]),
        bytes(&[14, 0, 2, 255, 1, 8, 2, 0, 4, 0, 13, 17, 5, 0])
    );
    // The names of the others may be left out.
    assert_eq!(
        with(&["    fault part 16: raise", "    leave", "    empty"]),
        bytes(&[14, 0, 1, 16, 4, 5, 0])
    );
    // A number against its rule, or twice: refused at its line. Too many of them: at the first.
    for (more, line) in [
        (&["    fault part 6: raise"][..], 6),
        (&["    fault part 256: raise"], 6),
        (&["    fault part 16: raise", "    fault part 16: raise"], 7),
        (&["    fault part 16: raise"; 9], 6),
        (&["    fault part 16: raise"; 30], 6),
    ] {
        assert_eq!(parts(more), Err(Wrong::Refused(5, line)));
    }
    // The general fault part and the undo part are there, in this order, and the last.
    assert_eq!(
        with(&["    fault part 16: raise", "    fault part: leave"]),
        Err(Wrong::Line(4))
    );
    assert_eq!(
        with(&[
            "    fault part: leave",
            "    fault part 16: raise",
            "    empty"
        ]),
        Err(Wrong::Line(7))
    );
    assert_eq!(
        with(&[
            "    fault part 16: raise",
            "    leave",
            "    empty",
            "    empty"
        ]),
        Err(Wrong::Line(9))
    );
    assert_eq!(
        parts(&["    fault part 4294967296: raise"]),
        Err(Wrong::Line(6))
    );
    assert_eq!(parts(&["    fault part a: raise"]), Err(Wrong::Line(6)));
    assert_eq!(
        write(&["variable a", "fault part 16: empty"]),
        Err(Wrong::Line(2))
    );
}

#[test]
fn scopes_without_an_undo_part_as_text() {
    let front = [
        "variable a",
        "root body: sequence",
        "  receive from partner 0, operation 0: a",
    ];
    let with = |lines: &[&str]| write(&[&front, lines, &["root fault part: empty"]].concat());
    let bytes = |more: &[u8]| Ok([&[1, 1, 0, 8, 2, 2, 0, 0, 1, 0], more, &[0]].concat());
    assert_eq!(
        with(&["  scope", "    body: empty", "    fault part: raise"]),
        bytes(&[12, 0, 4])
    );
    assert_eq!(
        with(&[
            "  scope",
            "    body: empty",
            "    fault part: raise",
            "    undo part: leave"
        ]),
        bytes(&[11, 0, 4, 5])
    );
    // The names of the parts may be left out: the third is the undo part.
    assert_eq!(
        with(&["  scope", "    empty", "    raise", "    leave"]),
        bytes(&[11, 0, 4, 5])
    );
    assert_eq!(
        with(&[
            "  scope",
            "    scope",
            "      empty",
            "      empty",
            "    raise"
        ]),
        bytes(&[12, 12, 0, 0, 4])
    );
    // The undo part is no other part, and there are no more.
    assert_eq!(
        with(&["  scope", "    body: empty", "    undo part: raise"]),
        Err(Wrong::Line(6))
    );
    assert_eq!(with(&["  scope", "    body: empty"]), Err(Wrong::Line(4)));
    assert_eq!(
        with(&[
            "  scope",
            "    empty",
            "    empty",
            "    empty",
            "    empty"
        ]),
        Err(Wrong::Line(8))
    );
}
