//! `nunthila_quarrel` beside `nunthila_check`: on the same bodies, over the same tables, in turns.
use crate::bodies::NODES;
use crate::bodies::conflicts::{self, Conflict};
use crate::bodies::shapes::{self, Shape};
use crate::measure::{Clock, Figure, Series, measure, timed};
use crate::ours::Tables;
use crate::{LONG, TURNS_ADVERSARIAL};
use std::cell::RefCell;
use std::time::Duration;

/// Batches of each function where one call takes long.
const TURNS_LONG: usize = 7;

/// A body and its times.
pub struct Measured {
    pub body: Conflict,
    pub nodes: usize,
    /// The equations up to and including the first that failed, and those of them that are left.
    pub equations: usize,
    pub set: usize,
    pub check: Figure,
    pub quarrel: Figure,
}

/// All bodies, each after its answer and set were compared.
pub fn measured() -> Result<Vec<Measured>, String> {
    let mut tables = Tables::new();
    let one = |body: Conflict| {
        let (equations, set) = agree(&body.name, &body.bytes, &mut tables)?;
        let (check, quarrel) = both(&body.bytes, &mut tables);
        eprintln!("{}: {equations} equations, set of {set}, {:.1} times", body.name, quarrel.median / check.median);
        Ok(Measured { body, nodes: NODES, equations, set, check, quarrel })
    };
    conflicts::all().into_iter().map(one).collect()
}

/// Compares answer and lines with those of the rules' program; how many equations there are, and how many are left.
fn agree(name: &str, bytes: &[u8], tables: &mut Tables) -> Result<(usize, usize), String> {
    assert_eq!(body::read(bytes).map(|b| b.nodes.len()), Ok(NODES));
    let found = quarrel::find(bytes).map_err(|r| format!("{name}: the rules' program answers {}", r.answer))?;
    let text: String = found.conflict.iter().map(|number| format!("equation={number}\n")).collect();
    if tables.conflict(bytes) != (0, text) {
        return Err(format!("{name}: not the answer and the set of the rules' program"));
    }
    Ok((found.equations.len(), found.conflict.len()))
}

/// The times of both functions, taken in turns.
fn both(bytes: &[u8], tables: &mut Tables) -> (Figure, Figure) {
    let long = timed(Clock::Thread, || tables.quarrel(bytes)) > LONG;
    let tables = RefCell::new(tables);
    let mut series: [Series; 2] = [
        Box::new(|_, clock| {
            let mut tables = tables.borrow_mut();
            timed(clock, || tables.check(bytes))
        }),
        Box::new(|_, clock| {
            let mut tables = tables.borrow_mut();
            timed(clock, || tables.quarrel(bytes))
        }),
    ];
    let figures = measure(&mut series, 1, if long { TURNS_LONG } else { TURNS_ADVERSARIAL });
    (figures[0], figures[1])
}

/// How often a search goes over all numbers of a shape, so that not all runs of one of them are disturbed.
const ROUNDS: usize = 5;
/// Calls of `nunthila_check` in a round, for one of `nunthila_quarrel`.
const CHECKS: usize = 10;

/// The least time of each function on a body.
struct Least {
    numbers: (usize, usize),
    bytes: Vec<u8>,
    check: Duration,
    quarrel: Duration,
}

impl Least {
    fn new(shape: &Shape, numbers: (usize, usize)) -> Least {
        let bytes = (shape.make)(numbers.0, numbers.1);
        Least { numbers, bytes, check: Duration::MAX, quarrel: Duration::MAX }
    }

    fn round(&mut self, tables: &mut Tables) {
        for _ in 0..CHECKS {
            self.check = self.check.min(timed(Clock::Thread, || tables.check(&self.bytes)));
        }
        self.quarrel = self.quarrel.min(timed(Clock::Thread, || assert_eq!(tables.quarrel(&self.bytes), 0)));
    }

    fn ratio(&self) -> f64 {
        self.quarrel.as_secs_f64() / self.check.as_secs_f64()
    }
}

/// Goes through the shapes, or through the one of this name: the ratio for each pair of numbers, the largest last.
pub fn search(name: Option<&str>) {
    let mut tables = Tables::new();
    for shape in shapes::ALL.iter().filter(|shape| name.is_none_or(|name| name == shape.name)) {
        let (first, second) = shape.tried;
        let numbers = first.iter().flat_map(|first| second.iter().map(move |second| (*first, *second)));
        let mut tried: Vec<Least> = numbers.map(|numbers| Least::new(shape, numbers)).collect();
        for _ in 0..ROUNDS {
            tried.iter_mut().for_each(|one| one.round(&mut tables));
        }
        tried.sort_by(|a, b| a.ratio().total_cmp(&b.ratio()));
        for one in &tried {
            println!(
                "{} {:?}: {:.1?}, {:.1?}, {:.1} times",
                shape.name,
                one.numbers,
                one.check,
                one.quarrel,
                one.ratio()
            );
        }
        println!("{}: kept are {:?}", shape.name, shape.kept);
    }
}
