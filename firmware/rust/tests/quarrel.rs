//! The minimal conflict of a body: answer, place, text, what is told, and the tables beside those of `check`.
mod common;
use common::conflict::{self, chain, other_literal, Runner, Sought, FORMS, ROOM};
use common::{bodies, conflicts, copies, examples, Conflict, Part, Random};
use nunthila::{answer, Lines};

const MINIMAL: Sought = Sought::Minimal;

#[test]
fn bodies_by_hand() {
    let cases = conflicts();
    assert!(cases.len() >= 70, "{} bodies", cases.len());
    let mut runner = Runner::new();
    for Conflict { name, body, parts } in &cases {
        let tried: Vec<Lines> = parts.iter().filter(|p| p.room.is_none()).flat_map(|p| p.forms.clone()).collect();
        assert_eq!(tried, FORMS, "{name}: both forms are tried");
        for Part { forms, room, answer, place, text, .. } in parts {
            for &lines in forms {
                let called = match room {
                    Some(room) => runner.call(name, body, MINIMAL, lines, *room),
                    None => runner.in_rooms(name, body, MINIMAL, lines),
                };
                assert_eq!((called.answer, called.place), (*answer, *place), "{name}, {lines:?}, {room:?}");
                assert_eq!(&called.out[..called.length.unwrap_or(0)], text.as_bytes(), "{name}, {lines:?}, {room:?}");
            }
        }
    }
}

/// What is not a minimal conflict of the bodies with reports is a refusal of the check, or 14.
#[test]
fn examples_and_bodies_of_reports() {
    let mut runner = Runner::new();
    let mut found = Vec::new();
    for case in examples() {
        let called = runner.in_rooms(&case.name, &case.body, MINIMAL, Lines::Places);
        found.push((case.name, called.answer, called.text()));
    }
    let refused = [("bank", 14), ("chord", 14), ("detune", 14), ("envelope", 14)];
    let answers = refused.into_iter().chain([("quarrel", 0), ("refused", 3), ("shortest", 0)]);
    assert!(found.iter().map(|(name, answer, _)| (name.as_str(), *answer)).eq(answers));
    assert_eq!(format!("answer=0,-\n{}", found[4].2), include_str!("../../../examples/quarrel.where"));

    let mut answers = [0; 15];
    for case in bodies() {
        for lines in FORMS {
            answers[runner.call(&case.name, &case.body, MINIMAL, lines, ROOM).answer] += 1;
        }
    }
    for a in [0, 3, 4, 5, 6, 10, 11, 13, 14] {
        assert!(answers[a] >= 10, "{} are answered {a}", answers[a]);
    }
}

#[test]
fn a_chain_of_1024_nodes() {
    let (body, texts) = chain();
    let mut runner = Runner::new();
    for (lines, text) in FORMS.into_iter().zip(&texts) {
        let called = runner.in_rooms("chain", &body, MINIMAL, lines);
        assert_eq!((called.answer, called.told[7], called.told[12]), (0, 1_024, 255));
        assert_eq!(called.text(), *text);
    }
}

#[test]
fn a_short_table_is_answered_2() {
    conflict::short_tables(MINIMAL);
}

#[test]
fn a_longer_table_changes_nothing() {
    conflict::longer_tables(MINIMAL);
}

#[test]
fn empty_full_and_over_long() {
    conflict::sizes(MINIMAL);
}

#[test]
fn a_checker_is_used_again() {
    conflict::used_again(MINIMAL);
}

/// Also that the copies are of many kinds.
#[test]
fn damaged_copies_agree() {
    let cases = conflicts();
    let mut runner = Runner::new();
    let mut random = Random(0x2545_f491_4f6c_dd1d);
    let (mut answers, mut inside_itself) = ([0usize; 15], 0);
    let total = copies(3_000);
    for i in 0..total {
        let case = &cases[random.below(cases.len())];
        let mut body = case.body.clone();
        for _ in 0..random.below(3) {
            other_literal(&mut random, &mut body);
        }
        if random.below(3) == 0 {
            body = random.damaged(&body);
        }
        let name = format!("copy {i} of {}", case.name);
        let numbers = runner.in_rooms(&name, &body, MINIMAL, Lines::Numbers);
        let places = runner.in_rooms(&name, &body, MINIMAL, Lines::Places);
        assert_eq!(numbers.answer, places.answer, "{name}");
        assert_eq!(numbers.numbers(), places.numbers(), "{name}: both forms");
        answers[places.answer] += 1;
        inside_itself += usize::from(places.answer == 0 && places.checked == answer::INSIDE_ITSELF);
    }
    println!("answers {answers:?}, {inside_itself} of the check's 12");
    if total >= 3_000 {
        for a in [0, 3, 5, 10, 11, 13, 14] {
            assert!(answers[a] >= 10, "{} copies are answered {a}", answers[a]);
        }
        assert!(inside_itself >= 10, "{inside_itself} copies are answered 12 by the check");
    }
}
