//! The library's search of request n) against `crates/quarrel`, body by body.
use crate::crash;
use crate::quarrels::Lent;
use crate::quarrels::tables::{Different, PLACES, Tables, rooms, short_tables, shown};
use quarrel::shortest::{give, numbers};
use quarrel::{Form, Found, Given, Refusal};
use std::collections::BTreeMap;

/// Up to how many subsets a search is run.
const MOST_TESTS: u64 = 2_000;
/// The numbers of subsets for a body that is refused.
const REFUSED: [u64; 3] = [0, 1, u64::MAX];

/// The first bodies of a seed up to so many with a failed equation, and tables that are too short; whether nothing differs.
pub fn generated(seed: u64, count: u64) -> bool {
    let short = short_tables(|lent, body| lent.shortest(body, u64::MAX, 0, 40));
    short.iter().for_each(|fault| println!("{fault}"));
    let mut library = Library::new();
    let (mut tally, mut beside, mut different) = (Tally::default(), 0, Vec::new());
    let mut index = 0;
    while tally.bodies < count {
        let (family, bytes) = generate::shortcut_or_conflict(seed, index);
        crash::at(index);
        match quarrel::has_failed_equation(&bytes) {
            true => tally.count(&bytes),
            false => beside += 1,
        }
        let faults = library.faults(&bytes);
        if !faults.is_empty() {
            different.push(Different { index, family, bytes, faults });
        }
        index += 1;
    }
    let runs = library.runs;
    let expected = |bytes: &[u8]| give(bytes, MOST_TESTS, Form::Where, None).lines();
    print!("{}", shown(seed, &mut different, |bytes| library.faults(bytes), expected));
    println!("seed {seed}, bodies {index}, without a failed equation {beside}, {runs} runs");
    print!("{}", tally.text());
    let differences = different.len() + short.len();
    println!("{count} bodies, {differences} differences");
    differences == 0
}

/// One body; whether nothing differs.
pub fn file(bytes: &[u8]) -> bool {
    let faults = Library::new().faults(bytes);
    faults.iter().for_each(|fault| println!("{fault}"));
    println!("1 bodies, {} differences", usize::from(!faults.is_empty()));
    faults.is_empty()
}

/// The library, with what it is lent, and how often it was called.
struct Library {
    tables: [Tables; 3],
    runs: u64,
}

impl Library {
    fn new() -> Library {
        Library { tables: Tables::each(), runs: 0 }
    }

    /// What is wrong about a body: with each of its numbers both forms, by turns in a long output, in one of the text's length and in one
    /// byte less, and by turns with another log.
    fn faults(&mut self, bytes: &[u8]) -> Vec<String> {
        let found = quarrel::find(bytes);
        let numbers = found.as_ref().map_or(REFUSED.to_vec(), |found| numbers(found, MOST_TESTS));
        let told = self.tables.each_mut().map(|tables| tables.check(bytes));
        let mut all = Vec::new();
        for (turn, number) in numbers.into_iter().enumerate() {
            let texts = texts(&found, number);
            for (step, (form, text)) in texts.into_iter().enumerate() {
                let room = rooms(text.as_ref().map_or(0, String::len))[(turn + step) % 3];
                let log = (turn / 3 + turn + 2 * step) % 3;
                let places = if form == Form::Where { PLACES[turn % 3] } else { 0 };
                let what = format!("number {number}, {form:?}");
                let call = |lent: &mut Lent| lent.shortest(bytes, number, places, room);
                all.extend(self.tables[log].faults(&what, &Given::of(text, Some(room)), &told[log], call));
                self.runs += 1;
            }
        }
        all
    }
}

/// What one search gives, in both forms.
fn texts(found: &Result<Found, Refusal>, number: u64) -> [(Form, Result<String, Refusal>); 2] {
    let searched = found.as_ref().map(|found| (found, found.search(number)));
    [Form::Number, Form::Where].map(|form| {
        let text = searched.as_ref().map(|(found, searched)| searched.text(found, form));
        (form, text.map_err(|refusal| **refusal))
    })
}

/// What came of the bodies with a failed equation.
#[derive(Default)]
struct Tally {
    bodies: u64,
    answers: BTreeMap<u8, u64>,
    /// Of those answered 0: where a smaller set is found, and where the search does not end within the limit.
    smaller: u64,
    not_ended: u64,
}

impl Tally {
    fn count(&mut self, bytes: &[u8]) {
        self.bodies += 1;
        let found = quarrel::find(bytes);
        let answer = found.as_ref().map_or_else(|refusal| refusal.answer, |_| 0);
        *self.answers.entry(answer).or_default() += 1;
        if let Ok(found) = found {
            let searched = found.search(MOST_TESTS);
            self.smaller += u64::from(searched.set != found.conflict);
            self.not_ended += u64::from(!searched.ended());
        }
    }

    fn text(&self) -> String {
        let answers: Vec<String> = self.answers.iter().map(|(answer, count)| format!("{answer}: {count}")).collect();
        let Tally { smaller, not_ended, .. } = self;
        format!("answers: {}\na smaller set found: {smaller}\n", answers.join(", "))
            + &format!("left out with 2^32 and 2^64-1, as {MOST_TESTS} tests do not end the search: {not_ended}\n")
    }
}
