//! The conflict that a search finds: its text with each number of subsets that may be tested, beside that of `quarrel`.
mod common;
use common::conflict::{self, chain, other_literal, Called, Runner, Sought, FORMS, ROOM};
use common::{bodies, conflicts, copies, examples, searches, Conflict, Part, Random};
use nunthila::{answer, Lines};

#[test]
fn bodies_by_hand() {
    let cases = searches();
    assert!(cases.len() >= 41, "{} bodies", cases.len());
    let (mut runner, mut tried) = (Runner::new(), 0);
    for Conflict { name, body, parts } in &cases {
        assert!(parts.iter().any(|p| p.room.is_none() && p.forms.contains(&Lines::Numbers)), "{name}: numbers");
        assert!(parts.iter().any(|p| p.room.is_none() && p.forms.contains(&Lines::Places)), "{name}: places");
        for Part { numbers, forms, room, answer, place, text } in parts {
            assert!(!numbers.is_empty(), "{name}: no number");
            for (&number, &lines) in numbers.iter().flat_map(|n| forms.iter().map(move |l| (n, l))) {
                let called = match room {
                    Some(room) => runner.call(name, body, Sought::Shortest(number), lines, *room),
                    None => runner.in_rooms(name, body, Sought::Shortest(number), lines),
                };
                let name = format!("{name}, {number}, {lines:?}, {room:?}");
                assert_eq!((called.answer, called.place), (*answer, *place), "{name}");
                assert_eq!(&called.out[..called.length.unwrap_or(0)], text.as_bytes(), "{name}");
                tried += 1;
            }
        }
    }
    assert!(tried >= 227, "{tried} outputs");
}

/// b = true, a = true, a = b, b = 1: the seventh subset has no common solution. No bit of the number is disregarded.
#[test]
fn a_number_is_not_cut() {
    let cases = searches();
    let body = &cases.iter().find(|c| c.name == "longer-of-two").unwrap().body;
    let mut runner = Runner::new();
    let mut text = |number: u64| runner.call("cut", body, Sought::Shortest(number), Lines::Numbers, 41).text();
    for number in [0, 1, 2, 3] {
        assert_eq!(text(number), "equation=1\nequation=2\nequation=3\nbelow=1\n", "{number}");
    }
    for number in [4, 5, 6] {
        assert_eq!(text(number), "equation=1\nequation=2\nequation=3\nbelow=2\n", "{number}");
    }
    assert_eq!(text(7), "equation=0\nequation=3\nbelow=2\n");
    for bit in 3..64 {
        assert_eq!(text(1 << bit), "equation=0\nequation=3\nbelow=2\n", "bit {bit}");
    }
    assert_eq!(text(u64::MAX), "equation=0\nequation=3\nbelow=2\n");
}

/// How many subsets of so many out of n there are; the greatest number where it is not below 2^128.
fn subsets(n: usize, size: usize) -> u128 {
    (0..size).try_fold(1u128, |c, i| c.checked_mul((n - i) as u128).map(|c| c / (i + 1) as u128)).unwrap_or(u128::MAX)
}

/// How many subsets of n are smaller than `size`, the empty one apart.
fn smaller(n: usize, size: usize) -> u128 {
    (1..size).fold(0u128, |sum, k| sum.saturating_add(subsets(n, k)))
}

/// `below=` where no subset is found, of n equations that have a minimal conflict of so many.
fn below(n: usize, minimal: usize, number: u64) -> usize {
    (1..=minimal).rev().find(|&size| smaller(n, size) <= u128::from(number)).unwrap()
}

/// As which one, from 1, a subset of n is tested.
fn position(n: usize, subset: &[u16]) -> u128 {
    let mut before = smaller(n, subset.len());
    let mut first = 0;
    for (i, &number) in subset.iter().enumerate() {
        let rest = subset.len() - 1 - i;
        before += (first..usize::from(number)).map(|x| subsets(n - 1 - x, rest)).sum::<u128>();
        first = usize::from(number) + 1;
    }
    before + 1
}

#[test]
fn subsets_are_counted() {
    assert_eq!((subsets(5, 0), subsets(5, 2), subsets(5, 5), subsets(254, 2)), (1, 10, 1, 32_131));
    assert_eq!((smaller(5, 1), smaller(5, 3), smaller(10, 10)), (0, 15, 1_022));
    assert_eq!((below(5, 3, 4), below(5, 3, 5), below(5, 3, 14), below(5, 3, 15), below(5, 3, 99)), (1, 2, 2, 3, 3));
    assert_eq!(
        (position(4, &[0]), position(4, &[0, 3]), position(5, &[1, 4]), position(5, &[0, 3, 4])),
        (1, 7, 12, 21)
    );
}

/// The search with a number beside `quarrel`: the same refusals; where it finds nothing, the same set, and `below=` by the count of subsets
/// alone; where it finds a set, it does so with just as many tests as there are up to it.
fn search(runner: &mut Runner, name: &str, body: &[u8], lines: Lines, number: u64) -> Called {
    let name = &format!("{name}, {number}, {lines:?}");
    let minimal = runner.call(name, body, Sought::Minimal, lines, ROOM);
    let searched = runner.call(name, body, Sought::Shortest(number), lines, ROOM);
    assert_eq!((searched.answer, searched.place), (minimal.answer, minimal.place), "{name}: as quarrel");
    let Some(last) = minimal.equations.last() else {
        return searched;
    };
    let (n, most) = (usize::from(last.number) + 1, minimal.equations.len());
    if searched.equations == minimal.equations {
        assert_eq!(searched.below, Some(below(n, most, number)), "{name}: below of {most} of {n}");
    } else {
        let size = searched.equations.len();
        assert!(size < most, "{name}: {size} for {most}");
        assert_eq!(searched.below, Some(size), "{name}: below of the set found");
        let tests = position(n, &searched.numbers());
        assert!(tests <= u128::from(number), "{name}: found as subset {tests}");
        let tests = tests as u64;
        let before = runner.call(name, body, Sought::Shortest(tests - 1), lines, ROOM);
        assert_eq!((&before.equations, before.below), (&minimal.equations, Some(size)), "{name}: one test less");
        let just = runner.call(name, body, Sought::Shortest(tests), lines, ROOM);
        assert_eq!(just.out, searched.out, "{name}: {tests} tests");
    }
    searched
}

/// With no test, and with one more or less than end the first size and the second.
#[test]
fn beside_quarrel() {
    let mut runner = Runner::new();
    let (mut answers, mut found) = ([0; 15], 0);
    for Conflict { name, body, .. } in conflicts().iter().chain(&searches()) {
        let minimal = runner.call(name, body, Sought::Minimal, Lines::Numbers, ROOM);
        let none = search(&mut runner, name, body, Lines::Places, 0);
        assert_eq!(none.numbers(), minimal.numbers(), "{name}: nothing is tested");
        answers[none.answer] += 1;
        let n = minimal.equations.last().map_or(1, |e| usize::from(e.number) + 1);
        for number in [n, n + n * (n - 1) / 2].into_iter().flat_map(|end| [end - 1, end, end + 1]) {
            let searched = search(&mut runner, name, body, Lines::Numbers, number as u64);
            found += usize::from(searched.equations.len() < minimal.equations.len());
        }
    }
    assert!(answers[0] >= 60 && answers[14] >= 10, "{answers:?}");
    assert!(found >= 20, "{found} shorter ones");
}

#[test]
fn examples_and_bodies_of_reports() {
    let mut runner = Runner::new();
    let mut found = Vec::new();
    for case in examples() {
        let called = search(&mut runner, &case.name, &case.body, Lines::Places, 100_000);
        found.push((case.name.clone(), called.answer, called.text()));
    }
    let refused = [("bank", 14), ("chord", 14), ("detune", 14), ("envelope", 14)];
    let answers = refused.into_iter().chain([("quarrel", 0), ("refused", 3), ("shortest", 0)]);
    assert!(found.iter().map(|(name, answer, _)| (name.as_str(), *answer)).eq(answers));
    let minimal = format!("{}below=2\n", include_str!("../../../examples/quarrel.where"));
    assert_eq!(format!("answer=0,-\n{}", found[4].2), minimal);
    assert_eq!(format!("answer=0,-\n{}", found[6].2), include_str!("../../../examples/shortest.where"));

    let mut answers = [0; 15];
    for case in bodies() {
        answers[search(&mut runner, &case.name, &case.body, Lines::Numbers, 100).answer] += 1;
    }
    for a in [0, 3, 4, 5, 6, 10, 11, 13, 14] {
        assert!(answers[a] >= 5, "{} are answered {a}", answers[a]);
    }
}

/// 254 subsets of one equation, 32,131 of two; the set stays.
#[test]
fn a_chain_of_1024_nodes() {
    let (body, texts) = chain();
    let mut runner = Runner::new();
    for (lines, text) in FORMS.into_iter().zip(&texts) {
        for (number, below) in [(0, 1), (253, 1), (254, 2)] {
            let called = runner.in_rooms("chain", &body, Sought::Shortest(number), lines);
            assert_eq!((called.answer, called.told[7], called.told[12]), (0, 1_024, 255));
            assert_eq!(called.text(), format!("{text}below={below}\n"), "{number}");
        }
    }
    for (number, below) in [(32_384, 2), (32_385, 3)] {
        let called = runner.call("chain", &body, Sought::Shortest(number), Lines::Numbers, ROOM);
        assert_eq!(called.text(), format!("{}below={below}\n", texts[0]), "{number}");
    }
}

#[test]
fn a_short_table_is_answered_2() {
    for number in [0, u64::MAX] {
        conflict::short_tables(Sought::Shortest(number));
    }
}

#[test]
fn a_longer_table_changes_nothing() {
    conflict::longer_tables(Sought::Shortest(100));
}

#[test]
fn empty_full_and_over_long() {
    conflict::sizes(Sought::Shortest(100));
}

#[test]
fn a_checker_is_used_again() {
    conflict::used_again(Sought::Shortest(100));
}

/// Also that the copies are of many kinds, and that some have a shorter conflict.
#[test]
fn damaged_copies_agree() {
    let mut cases = searches();
    cases.extend(conflicts());
    cases.retain(|c| c.body.len() < 20_000);
    let mut runner = Runner::new();
    let mut random = Random(0x2545_f491_4f6c_dd1d);
    let (mut answers, mut inside_itself, mut found) = ([0usize; 15], 0, 0);
    let total = copies(3_000);
    for i in 0..total {
        let case = &cases[random.below(cases.len())];
        let mut body = case.body.clone();
        for _ in 0..random.below(3) {
            other_literal(&mut random, &mut body);
        }
        if random.below(3) == 0 {
            body = random.damaged(&body);
        }
        let name = format!("copy {i} of {}", case.name);
        let number = [0, random.below(10), random.below(100), random.below(2_000)][random.below(4)] as u64;
        let numbers = search(&mut runner, &name, &body, Lines::Numbers, number);
        let places = runner.in_rooms(&name, &body, Sought::Shortest(number), Lines::Places);
        assert_eq!((numbers.answer, numbers.below), (places.answer, places.below), "{name}");
        assert_eq!(numbers.numbers(), places.numbers(), "{name}: both forms");
        answers[places.answer] += 1;
        inside_itself += usize::from(places.answer == 0 && places.checked == answer::INSIDE_ITSELF);
        let minimal = runner.call(&name, &body, Sought::Minimal, Lines::Numbers, ROOM);
        found += usize::from(numbers.equations.len() < minimal.equations.len());
    }
    println!("answers {answers:?}, {inside_itself} of the check's 12, {found} shorter ones");
    if total >= 3_000 {
        for a in [0, 3, 5, 10, 11, 13, 14] {
            assert!(answers[a] >= 10, "{} copies are answered {a}", answers[a]);
        }
        assert!(inside_itself >= 10, "{inside_itself} copies are answered 12 by the check");
        assert!(found >= 10, "{found} copies have a shorter conflict");
    }
}
