//! The section of SPEED.md on the shortest conflict.
use crate::bodies::shortcuts::{EQUATIONS, LEFT};
use crate::shortest::{Found, PATIENCE, Rate, SUBSETS};
use crate::speed::{both, processor, thousands, time};
use std::fmt::Write;

/// The whole section.
pub fn text(measured: &[Rate]) -> String {
    let mut out = String::new();
    head(&mut out);
    rates(&mut out, measured);
    times(&mut out, measured);
    out
}

fn head(out: &mut String) {
    let _ = writeln!(
        out,
        "## The shortest conflict\n\n\
         `nunthila_shortest` (document 02 n), from the bytes of a body to the text, over lent tables; `bench/run shortest` measures \
         and writes this section alone. Processor: {}. Each body has 1,024 nodes and {EQUATIONS} equations up to and including the \
         first that fails (bench/src/bodies/shortcuts.rs). That one is `l0 = true`; before it `l0` is an integer along a short way and \
         along a longer one behind it. Request f leaves the longer one, a set of {LEFT}. The shortest conflict has 2 to 5 equations. \
         Before a body is timed, its texts are compared with those of the program of reference, for numbers of subsets up to all \
         those of two equations.\n\n\
         A search first does what `nunthila_quarrel` does. Then it takes each subset on top of what it has in common with the one \
         before: most often all but the last equation, so that a subset costs at most one call of `unify` and the reopening of one \
         variable, and none of both where the sides of that equation are free.\n",
        processor()
    );
}

/// Subsets per second.
fn rates(out: &mut String, measured: &[Rate]) {
    let _ = writeln!(
        out,
        "### Subsets per second\n\n\
         A call that may test {} subsets, less one that may test none, in turns: 7 batches each, medians, with the minimum in \
         brackets. None of these subsets is unsolvable.\n\n\
         | harmless equations | variables | no subset | all these subsets | ns for a subset | million subsets a second |\n\
         |---|---|---|---|---|---|",
        thousands(SUBSETS as usize)
    );
    for rate in measured {
        let (median, least) = rate.subset();
        let _ = writeln!(
            out,
            "| `{}` | {} | {} | {} | {median:.1} ({least:.1}) | {:.1} ({:.1}) |",
            rate.family.name,
            rate.variables,
            both(rate.none),
            both(rate.many),
            1e3 / median,
            1e3 / least
        );
    }
    out.push('\n');
    for rate in measured {
        let _ = writeln!(out, "- `{}`: {}.", rate.family.name, rate.family.what);
    }
    out.push('\n');
}

/// The time until the shortest conflict is found, a column for each family.
fn times(out: &mut String, measured: &[Rate]) {
    let names: String = measured.iter().map(|rate| format!(" `{}` |", rate.family.name)).collect();
    let _ = writeln!(
        out,
        "### Until it is found\n\n\
         A call with 2⁶⁴ - 1 subsets, which ends where the shortest conflict is found. With the short way `early`, that is before the \
         harmless equations, the shortest conflict is among the first subsets of its size; with the short way `late`, that is behind \
         them, it is among the last. It is checked that it is found and `below=` is its size, and, up to searches of 10 s, \
         that so many subsets suffice and one less does not. Medians, with the minimum in brackets: of three calls where one takes \
         more than 40 ms, and of one call where it takes more than 10 s. A search that would take more than {} s at the rate above \
         is not run; the time given is what it comes to at that rate.\n\n\
         | shortest | short way | subsets |{names}\n|---|---|---|{}",
        PATIENCE.as_secs(),
        "---|".repeat(measured.len())
    );
    for (at, Found { body, .. }) in measured[0].found.iter().enumerate() {
        let cells: String = measured.iter().map(|rate| format!(" {} |", cell(rate, &rate.found[at]))).collect();
        let subsets = thousands(body.tests() as usize);
        let _ = writeln!(out, "| {} | {} | {subsets} |{cells}", body.best.len(), body.place.name());
    }
    out.push('\n');
}

fn cell(rate: &Rate, found: &Found) -> String {
    match found.time {
        Some(time) => both(time),
        None => format!("not run, {}", time(rate.estimate(found.body.tests()).as_nanos() as f64)),
    }
}
