//! The tool of request f) on bodies by hand, and on generated ones.
use crate::by_hand::{self, Case};
use crate::run_files::Files;
use crate::text;
use quarrel::give;
use quarrel::tally::Tally;

/// Tests the cases of quarrels.txt; whether all pass.
pub fn test(file: &str) -> Result<bool, String> {
    let cases = by_hand::parse(file, false)?;
    Ok(by_hand::test('f', &cases, |bytes, _, form, room| give(bytes, form, room).lines()))
}

/// Generated bodies with a failed equation, until so many are answered 0; whether each conflict is minimal.
pub fn run(seed: u64, count: u64) -> bool {
    let (mut tally, mut index) = (Tally::default(), 0);
    while tally.answered(0) < count {
        let (family, bytes) = generate::conflict_or_other(seed, index);
        if quarrel::has_failed_equation(&bytes) {
            tally.count(index, family, &bytes);
        }
        index += 1;
    }
    print!("seed {seed}, bodies {index}, {}", tally.text());
    tally.all_minimal()
}

const HEAD: &str = "\
# Bodies for `quarrel`, a line each: a name, a blank, and the body's text up to the end of the line. How a text is written, and which tables
# and bytes of output the marks ! and @ of a name lend, is said at the top of crates/replay/stdin. For each the name is printed, and twice a
# blank, the answer line and the text, / for a line feed: first with lines `equation=N`, then with `equation=N,NODE,EXPECTED,GOT`. Before each
# run every cell of every table and every byte of the output is 7; `(behind the text)` says that the bytes behind the text are not as they
# were, or on a refusal that the output is not zero throughout.
#
# This file is made by reference/samples, with stdout: the bodies of reference/quarrels.txt with their rooms, one of them on tables that
# are one cell too short or longer, and generated ones, named by their family and index.
";

/// A body by hand in an output that is long enough, and in each of its rooms.
fn add_case(files: &mut Files, case: &Case) {
    files.add(&case.name, &case.text, |form| give(&case.bytes, form, None).lines());
    let mut rooms: Vec<usize> = case.parts.iter().filter_map(|part| part.room).collect();
    rooms.sort_unstable();
    rooms.dedup();
    for room in rooms {
        files.add(&format!("{}@{room}", case.name), &case.text, |form| give(&case.bytes, form, Some(room)).lines());
    }
}

/// Of the first 4,000 generated bodies of seed 1 those of at most 1,000 bytes whose answer, size of the conflict and count of equations, up
/// to a factor of 2, have not occurred before.
fn add_generated(files: &mut Files) {
    let mut seen = std::collections::BTreeSet::new();
    for index in 0..4_000 {
        let (family, bytes) = generate::conflict_or_other(1, index);
        if bytes.len() > 1_000 {
            continue;
        }
        let what = match quarrel::find(&bytes) {
            Ok(found) => (0, found.equations.len().ilog2(), found.conflict.len()),
            Err(refusal) => (refusal.answer, 0, 0),
        };
        if seen.insert(what) {
            files.add(&format!("{family}-{index}"), &text::flat(&bytes), |form| give(&bytes, form, None).lines());
        }
    }
}

/// The files of crates/quarrel_run, from the cases of quarrels.txt.
pub fn files(file: &str) -> Result<Files, String> {
    let cases = by_hand::parse(file, false)?;
    let mut files = Files::new(HEAD);
    cases.iter().for_each(|case| add_case(&mut files, case));
    let lent = cases.iter().find(|case| case.name == LENT).ok_or(format!("no case {LENT}"))?;
    files.add_lent(LENT, |name| name, &lent.text, |form| give(&lent.bytes, form, None).lines());
    add_generated(&mut files);
    files.whole()
}

/// The case that is run on tables of other lengths.
const LENT: &str = "z2-room";
