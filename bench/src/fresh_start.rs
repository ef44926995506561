//! The search with the state of a common beginning kept beside one with a fresh start for each subset: in turns, on the same bodies.
use crate::bodies::shortcuts::{self, EQUATIONS, FAMILIES, Family, Place, SIZES, Shortcut, subsets};
use crate::lent::{Build, Lent};
use crate::measure::{Figure, Series, measure, timed};
use crate::shortest::agree;
use crate::speed::Pair;
use std::cell::RefCell;

const BUILDS: [Build; 3] = [Build::Library, Build::Unproved, Build::FreshStart];
const TURNS: usize = 7;
/// So many subsets of four equations are tested.
const OF_FOUR: u64 = 1_000_000;

/// Compares the three on all bodies, then prints the table.
pub fn run() -> Result<(), String> {
    let mut lent = Lent::new();
    for body in shortcuts::all() {
        agree(&body, &BUILDS, &mut lent)?;
        same(&body, &mut lent)?;
    }
    eprintln!("the same texts on {} bodies", shortcuts::all().len());
    println!(
        "| harmless equations | variables | size | library, ns | unproved, ns | fresh start, ns | fresh start over unproved |\n\
         |---|---|---|---|---|---|---|"
    );
    FAMILIES.into_iter().for_each(|family| of_family(family, &mut lent));
    Ok(())
}

/// Compares texts beyond what the program of reference is asked for: around the end of the search, or where that is too far, around the
/// last number that is measured.
fn same(body: &Shortcut, lent: &mut Lent) -> Result<(), String> {
    let end = body.tests().min(spans()[1].1);
    for number in [end - 1, end] {
        let texts = BUILDS.map(|build| lent.text(build, &body.bytes, number));
        if texts[0] != texts[1] || texts[0] != texts[2] {
            return Err(format!("{}, {number} subsets: {texts:?}", body.name()));
        }
    }
    Ok(())
}

/// From which number of subsets to which: those of at most three equations, then the first of those of four.
fn spans() -> [(u64, u64); 2] {
    let three = (1..=3).map(|size| subsets(EQUATIONS, size)).sum();
    [(0, three), (three, three + OF_FOUR)]
}

/// Two rows of the table.
fn of_family(family: Family, lent: &mut Lent) {
    let body = Shortcut::new(family, SIZES[SIZES.len() - 1], Place::Late);
    let [(none, three), (_, four)] = spans();
    lent.shortest(Build::Library, &body.bytes, 0);
    let variables = lent.variables();
    let lent = RefCell::new(lent);
    let one = |build: Build, number: u64| -> Series {
        let (lent, bytes) = (&lent, &body.bytes);
        Box::new(move |_, clock| {
            let mut lent = lent.borrow_mut();
            timed(clock, || lent.shortest(build, bytes, number))
        })
    };
    let numbers = [none, three, four];
    let mut series: Vec<Series> =
        BUILDS.into_iter().flat_map(|build| numbers.map(|number| one(build, number))).collect();
    let figures = measure(&mut series, 1, TURNS);
    for (at, size) in ["at most 3", "4"].into_iter().enumerate() {
        let of =
            |build: usize| each(figures[3 * build + at], figures[3 * build + at + 1], numbers[at + 1] - numbers[at]);
        let (library, unproved, fresh) = (of(0), of(1), of(2));
        println!(
            "| `{}` | {variables} | {size} | {} | {} | {} | {} |",
            family.name,
            tenths(library),
            tenths(unproved),
            tenths(fresh),
            Pair { median: fresh.median / unproved.median, least: fresh.least / unproved.least }.text()
        );
    }
}

/// Nanoseconds for a subset, of those between two calls.
fn each(less: Figure, more: Figure, subsets: u64) -> Pair {
    let each = |less: f64, more: f64| (more - less) / subsets as f64;
    Pair { median: each(less.median, more.median), least: each(less.least, more.least) }
}

fn tenths(pair: Pair) -> String {
    format!("{:.1} ({:.1})", pair.median, pair.least)
}
