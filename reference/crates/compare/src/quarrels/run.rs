//! Generated bodies and one of a file through the library and through `crates/quarrel`.
use super::Lent;
use super::tables::{Different, PLACES, Tables, rooms, short_tables, shown};
use crate::crash;
use quarrel::Form;
use quarrel::tally::Tally;

/// The first bodies of a seed up to so many with a failed equation, and tables that are too short; whether nothing differs.
pub fn generated(seed: u64, count: u64) -> bool {
    let short = short_tables(|lent, body| lent.quarrel(body, 0, 40));
    short.iter().for_each(|fault| println!("{fault}"));
    let mut tables = Tables::each();
    let (mut tally, mut beside, mut different) = (Tally::default(), 0, Vec::new());
    let mut index = 0;
    while tally.bodies() < count {
        let (family, bytes) = generate::conflict_or_other(seed, index);
        crash::at(index);
        match quarrel::has_failed_equation(&bytes) {
            true => tally.count(index, family, &bytes),
            false => beside += 1,
        }
        let faults = faults(&mut tables, &bytes);
        if !faults.is_empty() {
            different.push(Different { index, family, bytes, faults });
        }
        index += 1;
    }
    let expected = |bytes: &[u8]| quarrel::give(bytes, Form::Where, None).lines();
    print!("{}", shown(seed, &mut different, |bytes| faults(&mut tables, bytes), expected));
    print!("seed {seed}, bodies {index}, without a failed equation {beside}, {}", tally.text());
    let differences = different.len() + short.len();
    println!("{count} bodies, {differences} differences");
    differences == 0 && tally.all_minimal()
}

/// One body; whether nothing differs.
pub fn file(bytes: &[u8]) -> bool {
    let faults = faults(&mut Tables::each(), bytes);
    faults.iter().for_each(|fault| println!("{fault}"));
    println!("1 bodies, {} differences", usize::from(!faults.is_empty()));
    faults.is_empty()
}

/// What is wrong about a body: both forms, in a long output, in one of the text's length and in one byte less, each with another log.
fn faults(tables: &mut [Tables; 3], bytes: &[u8]) -> Vec<String> {
    let lengths = [Form::Number, Form::Where].map(|form| (form, quarrel::give(bytes, form, None).text.len()));
    let mut all = Vec::new();
    for (turn, tables) in tables.iter_mut().enumerate() {
        let told = tables.check(bytes);
        for (form, length) in lengths {
            let room = rooms(length)[turn];
            let wanted = quarrel::give(bytes, form, Some(room));
            let places = if form == Form::Where { PLACES[turn] } else { 0 };
            let call = |lent: &mut Lent| lent.quarrel(bytes, places, room);
            all.extend(tables.faults(&format!("{form:?}"), &wanted, &told, call));
        }
    }
    all
}
