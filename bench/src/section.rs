//! The section of SPEED.md on the minimal conflict.
use crate::bodies::conflicts::Group;
use crate::conflicts::Measured;
use crate::measure::Figure;
use crate::speed::{Pair, processor, thousands};
use std::fmt::Write;

const TITLE: &str = "## The minimal conflict";
/// The section before which a new one is put.
const LAST: &str = "## How it is measured";
/// What is demanded of a conflict below or among harmless equations.
const DEMANDED: f64 = 5.0;

/// The whole section.
pub fn text(measured: &[Measured]) -> String {
    let mut out = String::new();
    head(&mut out);
    demanded(&mut out, measured);
    searched(&mut out, measured);
    out
}

/// A document with this section in the place of the one of the same title, or before the last one.
pub fn put(document: &str, section: &str) -> String {
    let at = |title: &str| document.find(&format!("\n{title}\n")).map(|newline| newline + 1);
    let behind = |from: usize| document[from..].find("\n## ").map_or(document.len(), |newline| from + newline + 1);
    let last = at(LAST).unwrap_or(document.len());
    let (from, to) = section.lines().next().and_then(at).map_or((last, last), |from| (from, behind(from)));
    format!("{}{section}{}", &document[..from], &document[to..])
}

fn head(out: &mut String) {
    let _ = writeln!(
        out,
        "{TITLE}\n\n\
         `nunthila_quarrel` beside `nunthila_check` (document 02 f), both from the bytes of a body, over the same lent tables, in \
         turns in one process; `bench/run conflicts` measures and writes this section alone. Processor: {}. The text has a line \
         `equation=N` for each equation of the set. Each body has 1,024 nodes (bench/src/bodies/conflicts.rs, shapes.rs); before \
         it is timed, answer and set are compared with those of the rules' program of reference. Microseconds are medians, with \
         the minimum in brackets, and the ratio is of medians, with that of minima.\n\n\
         `nunthila_quarrel` first checks the body, and asks of each side of an equation whether it is plain. Then it scans once for \
         each equation of the set and once more: all variables are opened again, the equations that were found are solved, then \
         those from the last one back until one fails. So the cost is that of the check and of at most (set + 1) times as many calls \
         of `unify` as there are equations, each of which goes along the bindings it meets.\n",
        processor()
    );
}

/// The bodies with harmless equations.
fn demanded(out: &mut String, measured: &[Measured]) {
    let _ = writeln!(
        out,
        "### 900 harmless equations and more\n\n\
         Demanded is at most {DEMANDED} times the body's own check. The conflict is `v = true; v = w; w = 1`. Of the bodies with all \
         harmless equations above it {}. Of those with half of them behind its first equation and half behind its second {}.\n\n\
         | body | nodes | equations worked on | set | check, µs | quarrel, µs | ratio | at most {DEMANDED} |\n\
         |---|---|---|---|---|---|---|---|",
        reached(measured, Group::Above),
        reached(measured, Group::Between)
    );
    for m in measured.iter().filter(|m| m.body.group != Group::Searched) {
        let answer = if m.within() { "yes" } else { "**no**" };
        let _ = writeln!(out, "{} {answer} |", m.row());
    }
    out.push('\n');
    for m in of_group(measured, Group::Above) {
        let name = m.body.name.trim_start_matches("above-");
        let _ = writeln!(out, "- `{name}`: {}.", m.body.what);
    }
    out.push('\n');
}

fn of_group(measured: &[Measured], group: Group) -> impl Iterator<Item = &Measured> {
    measured.iter().filter(move |m| m.body.group == group)
}

/// How many bodies of a group are within the demand, and which are not.
fn reached(measured: &[Measured], group: Group) -> String {
    let over: Vec<String> =
        of_group(measured, group).filter(|m| !m.within()).map(|m| format!("`{}`", m.body.name)).collect();
    let count = of_group(measured, group).count();
    match over.as_slice() {
        [] => format!("all {count} are within that"),
        _ => format!("{} of {count} are within that, and not {}", count - over.len(), over.join(" and ")),
    }
}

/// The bodies that were searched for the largest ratio.
fn searched(out: &mut String, measured: &[Measured]) {
    let _ = writeln!(
        out,
        "### Searched for the worst\n\n\
         Shapes of bodies with a large set, of each the numbers with the largest ratio that `bench search` found.\n\n\
         | body | nodes | equations worked on | set | check, µs | quarrel, µs | ratio |\n|---|---|---|---|---|---|---|"
    );
    for m in of_group(measured, Group::Searched) {
        let _ = writeln!(out, "{}", m.row());
    }
    out.push('\n');
    for m in of_group(measured, Group::Searched) {
        let _ = writeln!(out, "- `{}`: {}.", m.body.name, m.body.what);
    }
    let _ = writeln!(
        out,
        "\nWhat makes `and-pairs` costly: there is a scan for each equation of its chain. In each scan, from the last equation back, \
         the literals are bound one to the next, each at the end of all before it; then each equation of the two variables goes \
         along all of them on both sides. The check meets none of that. It has i32 before the literals and binds each to it, and \
         one of the two variables to the other; and it ends with a refusal 12, so that it finds no final types. One call of `unify` \
         between plain sides goes along each binding and each array of either side at most twice, so the cost is bounded by the \
         third power of nodes and types: an argument from the code, and no theorem.\n"
    );
}

impl Measured {
    fn ratio(&self) -> Pair {
        Pair::over(self.quarrel, self.check)
    }

    fn within(&self) -> bool {
        let ratio = self.ratio();
        ratio.median.max(ratio.least) <= DEMANDED
    }

    /// The cells that both tables have.
    fn row(&self) -> String {
        format!(
            "| `{}` | {} | {} | {} | {} | {} | {} |",
            self.body.name,
            thousands(self.nodes),
            thousands(self.equations),
            self.set,
            microseconds(self.check),
            microseconds(self.quarrel),
            self.ratio().text()
        )
    }
}

/// Median, and minimum in brackets.
fn microseconds(figure: Figure) -> String {
    let digits = |nanoseconds: f64| match nanoseconds / 1e3 {
        n if n < 9.995 => format!("{n:.2}"),
        n if n < 99.95 => format!("{n:.1}"),
        n => thousands(three_digits(n)),
    };
    format!("{} ({})", digits(figure.median), digits(figure.least))
}

/// A number of at least 100, with zeros behind its first three digits.
fn three_digits(n: f64) -> usize {
    let unit = 10_f64.powi(n.log10().floor() as i32 - 2);
    ((n / unit).round() * unit) as usize
}
