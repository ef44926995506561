//! The search of request n) on bodies by hand, and on generated ones.
use crate::by_hand::{self, Case, Part};
use crate::run_files::Files;
use crate::text;
use quarrel::Found;
use quarrel::shortest::tally::Tally;
use quarrel::shortest::{Searched, give, numbers};
use std::collections::BTreeSet;

/// Tests the cases of shortest.txt; whether all pass.
pub fn test(file: &str) -> Result<bool, String> {
    let cases = by_hand::parse(file, true)?;
    Ok(by_hand::test('n', &cases, |bytes, number, form, room| give(bytes, number.unwrap_or(0), form, room).lines()))
}

/// Generated bodies, until so many have a minimal conflict of two equations or more; whether each search is right.
pub fn run(seed: u64, count: u64) -> bool {
    let (mut tally, mut index) = (Tally::default(), 0);
    while tally.bodies() < count {
        let (_, bytes) = generate::shortcut_or_conflict(seed, index);
        if let Some(found) = quarrel::find(&bytes).ok().filter(|found| found.conflict.len() > 1) {
            tally.count(index, &found);
        }
        index += 1;
    }
    print!("seed {seed}, bodies {index}, {}", tally.text());
    tally.all_right()
}

const HEAD: &str = "\
# Bodies for `shortest`, a line each: a name, a blank, the number of subsets that may be tested, a decimal number below 2^64, a blank, and the
# body's text up to the end of the line. How a text is written, and which tables and bytes of output the marks ! and @ of a name lend, is said
# at the top of crates/replay/stdin. For each the name, a blank and the number are printed, and twice a blank, the answer line and the text,
# / for a line feed: first with lines `equation=N`, then with `equation=N,NODE,EXPECTED,GOT`. Before each run every cell of every table and
# every byte of the output is 7; `(behind the text)` says that the bytes behind the text are not as they were, or on a refusal that the output
# is not zero throughout.
#
# This file is made by reference/samples, with stdout: the bodies of reference/shortest.txt with their numbers and rooms, one of them on
# tables that are one cell too short or longer, and generated ones, named by their family and index.
";

/// A body by hand with each of its numbers, in an output that is long enough and in the rooms that stand with the number.
fn add_case(files: &mut Files, case: &Case) {
    let with_room = |part: &Part| part.numbers.iter().flatten().map(|number| (*number, part.room)).collect::<Vec<_>>();
    let runs: BTreeSet<(u64, Option<usize>)> = case.parts.iter().flat_map(with_room).collect();
    let text = one_line(case);
    for (number, room) in runs {
        let room_mark = room.map_or(String::new(), |room| format!("@{room}"));
        let head = format!("{}{room_mark} {number}", case.name);
        files.add(&head, &text, |form| give(&case.bytes, number, form, room).lines());
    }
}

/// The body's text on one line, as short as it goes: a repetition that it has already stays.
fn one_line(case: &Case) -> String {
    if case.text.contains('{') { case.text.clone() } else { text::packed(&case.bytes) }
}

/// Bounds of a generated body: its bytes, and the tests of a search.
const MOST_BYTES: usize = 540;
const MOST_TESTS: u64 = 3_000;

/// Of the first 4,000 generated bodies of seed 1 those of few bytes whose size of f)'s set, size of what the search comes to, and count of
/// equations, up to a factor of 2, have not occurred together before; each with two numbers.
fn add_generated(files: &mut Files) {
    let mut seen = BTreeSet::new();
    for index in 0..4_000 {
        let (family, bytes) = generate::shortcut_or_conflict(1, index);
        let Some(found) = quarrel::find(&bytes).ok().filter(|_| bytes.len() <= MOST_BYTES) else { continue };
        let whole = found.search(MOST_TESTS);
        let what = (found.conflict.len(), whole.set.len(), whole.ended(), found.equations.len().ilog2());
        if found.conflict.len() == 1 || !seen.insert(what) {
            continue;
        }
        for number in two_numbers(&found, &whole, seen.len()) {
            let head = format!("{family}-{index} {number}");
            files.add(&head, &text::packed(&bytes), |form| give(&bytes, number, form, None).lines());
        }
    }
}

/// Where a smaller set is found, what that takes and one less; else two of the body's numbers in a row, others in each turn.
fn two_numbers(found: &Found, whole: &Searched, turn: usize) -> [u64; 2] {
    if whole.set != found.conflict {
        return [whole.tests - 1, whole.tests];
    }
    let numbers = numbers(found, MOST_TESTS);
    let first = turn % (numbers.len() - 1);
    [numbers[first], numbers[first + 1]]
}

/// The files of crates/shortest_run, from the cases of shortest.txt.
pub fn files(file: &str) -> Result<Files, String> {
    let cases = by_hand::parse(file, true)?;
    let mut files = Files::new(HEAD);
    cases.iter().for_each(|case| add_case(&mut files, case));
    let lent = cases.iter().find(|case| case.name == LENT).ok_or(format!("no case {LENT}"))?;
    let given = |form| give(&lent.bytes, LENT_NUMBER, form, None).lines();
    files.add_lent(LENT, |name| format!("{name} {LENT_NUMBER}"), &one_line(lent), given);
    add_generated(&mut files);
    files.whole()
}

/// The case that is run on tables of other lengths, and its number.
const LENT: &str = "n3-same-size";
const LENT_NUMBER: u64 = 50;
