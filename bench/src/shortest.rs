//! `nunthila_shortest` on the bodies with a shortcut: subsets per second, and the time until the shortest conflict is found.
use crate::bodies::NODES;
use crate::bodies::shortcuts::{self, EQUATIONS, FAMILIES, Family, LEFT, Place, Shortcut};
use crate::lent::{Build, Lent};
use crate::measure::{Clock, Figure, Series, measure, timed};
use crate::speed::both;
use crate::{LONG, TURNS_ADVERSARIAL};
use std::cell::RefCell;
use std::time::Duration;

/// The number of subsets that the rate is measured with.
pub const SUBSETS: u64 = 4_000_000;
/// Batches for the rate.
const TURNS_RATE: usize = 7;
/// A search that would take longer is run once, and one that would take longer still is not run.
const ONCE: Duration = Duration::from_secs(10);
pub const PATIENCE: Duration = Duration::from_secs(60);
/// Up to so many subsets, all of one and two equations, the program of reference is asked too.
const COMPARED: u64 = 20_101;

/// A family and its rate.
pub struct Rate {
    pub family: Family,
    pub variables: usize,
    /// A call that may test no subset.
    pub none: Figure,
    /// A call that tests `SUBSETS`.
    pub many: Figure,
    /// The bodies of the family.
    pub found: Vec<Found>,
}

/// A body and how long it takes until its shortest conflict is found; none where that is not run.
pub struct Found {
    pub body: Shortcut,
    pub time: Option<Figure>,
}

impl Rate {
    /// Nanoseconds for a subset, of medians and of minima.
    pub fn subset(&self) -> (f64, f64) {
        let each = |many: f64, none: f64| (many - none) / SUBSETS as f64;
        (each(self.many.median, self.none.median), each(self.many.least, self.none.least))
    }

    /// How long this many subsets take at this rate.
    pub fn estimate(&self, subsets: u64) -> Duration {
        Duration::from_secs_f64((self.none.median + self.subset().0 * subsets as f64) / 1e9)
    }
}

/// All families, each body after its answers were compared.
pub fn measured() -> Result<Vec<Rate>, String> {
    let mut lent = Lent::new();
    FAMILIES.into_iter().map(|family| of_family(family, &mut lent)).collect()
}

fn of_family(family: Family, lent: &mut Lent) -> Result<Rate, String> {
    let longest = Shortcut::new(family, 5, Place::Late);
    agree(&longest, &[Build::Library], lent)?;
    let variables = lent.variables();
    let [none, many] = rate(&longest.bytes, lent);
    let mut rate = Rate { family, variables, none, many, found: Vec::new() };
    let (median, least) = rate.subset();
    eprintln!("{}: {variables} variables, {median:.1} ({least:.1}) ns for a subset", family.name);
    for body in shortcuts::all().into_iter().filter(|body| body.family.name == family.name) {
        agree(&body, &[Build::Library], lent)?;
        let estimate = rate.estimate(body.tests());
        let time = if estimate > PATIENCE { None } else { Some(until_found(&body, estimate, lent)?) };
        eprintln!("{}: {} subsets, {}", body.name(), body.tests(), time.map_or("not run".to_string(), both));
        rate.found.push(Found { body, time });
    }
    Ok(rate)
}

/// A call without subsets and one with many, in turns.
fn rate(bytes: &[u8], lent: &mut Lent) -> [Figure; 2] {
    let lent = RefCell::new(lent);
    let one = |number: u64| -> Series {
        let lent = &lent;
        Box::new(move |_, clock| {
            let mut lent = lent.borrow_mut();
            timed(clock, || lent.shortest(Build::Library, bytes, number))
        })
    };
    let figures = measure(&mut [one(0), one(SUBSETS)], 1, TURNS_RATE);
    [figures[0], figures[1]]
}

/// Compares the texts with those of the program of reference, for numbers of subsets as far as that program is quick.
pub fn agree(body: &Shortcut, builds: &[Build], lent: &mut Lent) -> Result<(), String> {
    let name = body.name();
    assert_eq!(body::read(&body.bytes).map(|b| b.nodes.len()), Ok(NODES));
    let found = quarrel::find(&body.bytes).map_err(|r| format!("{name}: the rules' program answers {}", r.answer))?;
    assert_eq!((found.equations.len(), found.conflict.len()), (EQUATIONS, LEFT), "{name}");
    for number in quarrel::shortest::numbers(&found, COMPARED) {
        let text = found.search(number).text(&found, quarrel::Form::Number);
        if builds.iter().any(|build| lent.text(*build, &body.bytes, number) != (0, text.clone())) {
            return Err(format!("{name}, {number} subsets: not the text of the program of reference"));
        }
    }
    Ok(())
}

/// The lines of the shortest conflict, with `below=` its size.
fn best_text(body: &Shortcut) -> String {
    let lines: String = body.best.iter().map(|number| format!("equation={number}\n")).collect();
    format!("{lines}below={}\n", body.best.len())
}

/// The time of a call that may test all subsets. It has to find the shortest conflict, and unless it takes long it is seen that the number
/// of subsets is exact.
fn until_found(body: &Shortcut, estimate: Duration, lent: &mut Lent) -> Result<Figure, String> {
    let mut text = (0, String::new());
    let first = timed(Clock::Thread, || text = lent.text(Build::Library, &body.bytes, u64::MAX));
    if text != (0, best_text(body)) {
        return Err(format!("{}: not the shortest conflict, but {text:?}", body.name()));
    }
    if estimate > ONCE {
        return Ok(Figure::once(first));
    }
    let mut found_with = |number: u64| lent.text(Build::Library, &body.bytes, number) == text;
    if found_with(body.tests() - 1) || !found_with(body.tests()) {
        return Err(format!("{}: not the subset of number {}", body.name(), body.tests()));
    }
    let lent = RefCell::new(lent);
    let mut call: Series = Box::new(|_, clock| {
        let mut lent = lent.borrow_mut();
        timed(clock, || lent.shortest(Build::Library, &body.bytes, u64::MAX))
    });
    if first > LONG {
        return Ok(Figure::of_times(&[first, call(0, Clock::Thread), call(0, Clock::Thread)]));
    }
    Ok(measure(&mut [call], 1, TURNS_ADVERSARIAL)[0])
}
