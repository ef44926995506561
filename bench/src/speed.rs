//! SPEED.md: what is measured, the tables of a run, and which demanded figures are reached.
use crate::agree::PATIENCE;
use crate::measure::Figure;
use crate::ours::{OUTPUT, SLICES, Tables};
use crate::{Adversarial, Four, Ordinary};
use std::fmt::Write;

/// Text between these two lines is written by hand and kept.
const KEPT_FROM: &str = "<!-- by hand: kept at the next run -->";
const KEPT_TO: &str = "<!-- end of what is written by hand -->";

/// What stands between the two lines in a document.
pub fn kept(document: &str) -> String {
    let from = document.find(KEPT_FROM).map(|at| at + KEPT_FROM.len());
    let to = document.find(KEPT_TO);
    match (from, to) {
        (Some(from), Some(to)) if from <= to => document[from..to].trim_matches('\n').to_string(),
        _ => String::new(),
    }
}

/// One line on the four series.
pub fn line(name: &str, four: &Four) -> String {
    let original = |figure: Option<Figure>| figure.map_or(does_not_end(), both);
    format!(
        "{name}: to tables {}, to report {}; original: typing {}, to report {}",
        both(four.tables),
        both(four.report),
        original(four.original_types),
        original(four.original_report)
    )
}

fn does_not_end() -> String {
    format!("does not end in {PATIENCE} s")
}

/// Median, and minimum in brackets.
pub fn both(figure: Figure) -> String {
    format!("{} ({})", time(figure.median), time(figure.least))
}

/// Three digits and a unit.
pub fn time(nanoseconds: f64) -> String {
    let (value, unit) = match nanoseconds {
        n if n < 999.5 => return format!("{n:.0} ns"),
        n if n < 999.5e3 => (n / 1e3, "µs"),
        n if n < 999.5e6 => (n / 1e6, "ms"),
        n => (n / 1e9, "s"),
    };
    match value {
        v if v < 9.995 => format!("{v:.2} {unit}"),
        v if v < 99.95 => format!("{v:.1} {unit}"),
        v => format!("{v:.0} {unit}"),
    }
}

/// A ratio with two or three digits.
fn ratio(value: f64) -> String {
    match value {
        v if v < 9.995 => format!("{v:.2}"),
        v if v < 99.95 => format!("{v:.1}"),
        v => thousands(v.round() as usize),
    }
}

/// A number with a comma before each three digits.
pub fn thousands(n: usize) -> String {
    match n {
        0..1_000 => n.to_string(),
        _ => format!("{},{:03}", thousands(n / 1_000), n % 1_000),
    }
}

/// A value by medians and the same by minima.
#[derive(Clone, Copy)]
pub struct Pair {
    pub median: f64,
    pub least: f64,
}

impl Pair {
    pub fn over(a: Figure, b: Figure) -> Pair {
        Pair { median: a.median / b.median, least: a.least / b.least }
    }

    pub fn text(self) -> String {
        format!("{} ({})", ratio(self.median), ratio(self.least))
    }

    fn times(self, factor: f64) -> Pair {
        Pair { median: self.median * factor, least: self.least * factor }
    }
}

/// What is demanded of a value.
enum Bound {
    AtLeast(f64),
    AtMost(f64),
}

impl Bound {
    fn holds(&self, pair: Pair) -> bool {
        match self {
            Bound::AtLeast(bound) => pair.median.min(pair.least) >= *bound,
            Bound::AtMost(bound) => pair.median.max(pair.least) <= *bound,
        }
    }

    fn text(&self) -> String {
        match self {
            Bound::AtLeast(bound) => format!("at least {bound}"),
            Bound::AtMost(bound) => format!("at most {bound}"),
        }
    }
}

struct Demand {
    what: String,
    bound: Bound,
    pair: Pair,
}

fn of_size(ordinary: &[Ordinary], nodes: usize) -> &Ordinary {
    ordinary.iter().find(|o| o.nodes == nodes).expect("a size that is measured")
}

impl Ordinary {
    /// The original's series, which every ordinary body has.
    fn original(&self) -> (Figure, Figure) {
        (self.four.original_types.expect("timed"), self.four.original_report.expect("timed"))
    }

    fn report_over_report(&self) -> Pair {
        Pair::over(self.original().1, self.four.report)
    }

    fn typing_over_tables(&self) -> Pair {
        Pair::over(self.original().0, self.four.tables)
    }

    fn report_over_tables(&self) -> Pair {
        Pair::over(self.original().1, self.four.tables)
    }
}

/// Cost per node of one size over that of another.
fn growth(large: &Ordinary, small: &Ordinary, figure: impl Fn(&Ordinary) -> Figure) -> Pair {
    Pair::over(figure(large), figure(small)).times(small.nodes as f64 / large.nodes as f64)
}

fn demands(ordinary: &[Ordinary], adversarial: &[Adversarial]) -> Vec<Demand> {
    let mut all = Vec::new();
    let mut add = |what: String, bound, pair| all.push(Demand { what, bound, pair });
    for (nodes, bound) in [(128, 5.0), (1_024, 10.0)] {
        let what = format!("bytes to report, {} nodes: original (d) over proved (b)", thousands(nodes));
        add(what, Bound::AtLeast(bound), of_size(ordinary, nodes).report_over_report());
    }
    for nodes in [128, 512, 1_024] {
        let what = format!("bytes to tables, {} nodes: typing of the original (c) over proved (a)", thousands(nodes));
        add(what, Bound::AtLeast(2.0), of_size(ordinary, nodes).typing_over_tables());
    }
    for o in ordinary.iter().filter(|o| o.nodes >= 32) {
        let nodes = thousands(o.nodes);
        add(format!("never slower, {nodes} nodes: c over a"), Bound::AtLeast(1.0), o.typing_over_tables());
        add(format!("never slower, {nodes} nodes: d over b"), Bound::AtLeast(1.0), o.report_over_report());
    }
    let (large, small) = (of_size(ordinary, 1_024), of_size(ordinary, 128));
    let what = |series| format!("cost per node at 1,024 nodes over that at 128, bytes to {series}");
    add(what("tables (a)"), Bound::AtMost(1.3), growth(large, small, |o| o.four.tables));
    add(what("report (b)"), Bound::AtMost(1.3), growth(large, small, |o| o.four.report));
    let counted = || adversarial.iter().filter(|a| !a.body.function_types);
    let most = |figure: fn(&Four) -> Figure| {
        let over = |a: &Adversarial| Pair::over(figure(&a.four), figure(&large.four));
        let of_median = counted().max_by(|a, b| over(a).median.total_cmp(&over(b).median)).expect("some");
        (of_median.body.name, over(of_median))
    };
    for (series, figure) in [("tables (a)", (|f| f.tables) as fn(&Four) -> Figure), ("report (b)", |f| f.report)] {
        let (name, pair) = most(figure);
        let what =
            format!("adversarial over ordinary body of 1,024 nodes, function types apart, bytes to {series}: `{name}`");
        add(what, Bound::AtMost(100.0), pair);
    }
    all
}

pub fn document(ordinary: &[Ordinary], adversarial: &[Adversarial], tables: &Tables, kept: &str) -> String {
    let mut out = String::new();
    head(&mut out, tables);
    let _ = writeln!(out, "{KEPT_FROM}\n{kept}\n{KEPT_TO}\n");
    demanded(&mut out, &demands(ordinary, adversarial));
    sizes(&mut out, ordinary);
    hard(&mut out, ordinary, adversarial);
    parts(&mut out, ordinary);
    method(&mut out, ordinary, tables);
    out
}

pub fn processor() -> String {
    let cpus = std::fs::read_to_string("/proc/cpuinfo").unwrap_or_default();
    let name = cpus.lines().find_map(|l| l.strip_prefix("model name")?.split_once(':').map(|l| l.1.trim().to_string()));
    name.unwrap_or_else(|| "unknown".to_string())
}

fn head(out: &mut String, tables: &Tables) {
    let _ = writeln!(
        out,
        "# Speed\n\n\
         This page is written by `bench/run`, but for the text that is marked as written by hand. Processor: {}. All times are \
         of one run, in one process and on the same bodies; the sections on the minimal and on the shortest conflict each name \
         their own processor, since they are measured alone too.\n\n\
         | series | from | to |\n|---|---|---|\n\
         | a | the bytes of a body | the lent tables: `nunthila_check` |\n\
         | b | the bytes of a body | the report: `nunthila_report` |\n\
         | c | the original's AIR, its session set up | final types: `FunCx` as `typeck` sets it up, its walk, the last \
         equation, then `resolve_type_variable` of each typed node |\n\
         | d | the bytes of a body | the report: reading, AIR, session, typing, final types, text, and all of it freed |\n\n\
         The tables are lent once and used again: {} bytes. Each call of `nunthila_check` and `nunthila_report` clears them \
         itself, over their whole length, and that is in its time. A time stands as its median, and behind it in brackets the \
         minimum of the batches.\n\n\
         ![Time for a body against its nodes](speed.svg)\n",
        processor(),
        thousands(tables.bytes()),
    );
}

fn demanded(out: &mut String, demands: &[Demand]) {
    let reached = demands.iter().filter(|d| d.bound.holds(d.pair)).count();
    let _ = writeln!(
        out,
        "## Demanded figures\n\n{reached} of {} are reached. A figure counts as reached if both its median and its minimum \
         are on the demanded side.\n\n| figure | demanded | measured | reached |\n|---|---|---|---|",
        demands.len()
    );
    for d in demands {
        let answer = if d.bound.holds(d.pair) { "yes" } else { "**no**" };
        let _ = writeln!(out, "| {} | {} | {} | {answer} |", d.what, d.bound.text(), d.pair.text());
    }
    out.push('\n');
}

fn sizes(out: &mut String, ordinary: &[Ordinary]) {
    let _ = writeln!(
        out,
        "## Ordinary bodies\n\n{} scripts of each size, made by bench/src/bodies/ordinary.rs from fixed seeds: lets, literals, \
         arithmetic, calls, method calls, fields, lists, lambdas, ifs, loops and blocks. All are answered 0. Times are means \
         over the bodies of a size.\n\n\
         | nodes | mean bytes | mean errors | a: to tables | b: to report | c: original, typing | d: original, to report |\n\
         |---|---|---|---|---|---|---|",
        ordinary[0].bodies
    );
    for o in ordinary {
        let (types, report) = o.original();
        let _ = writeln!(
            out,
            "| {} | {} | {:.1} | {} | {} | {} | {} |",
            thousands(o.nodes),
            thousands(o.bytes.round() as usize),
            o.errors,
            both(o.four.tables),
            both(o.four.report),
            both(types),
            both(report)
        );
    }
    out.push_str("\nFor each node:\n\n| nodes | a | b | c | d |\n|---|---|---|---|---|\n");
    for o in ordinary {
        let (types, report) = o.original();
        let per = |f: Figure| {
            let n = o.nodes as f64;
            format!("{} ({})", time(f.median / n), time(f.least / n))
        };
        let (a, b, c, d) = (per(o.four.tables), per(o.four.report), per(types), per(report));
        let _ = writeln!(out, "| {} | {a} | {b} | {c} | {d} |", thousands(o.nodes));
    }
    let (large, small) = (of_size(ordinary, 1_024), of_size(ordinary, 128));
    let grown = |figure: fn(&Ordinary) -> Figure| growth(large, small, figure).text();
    let _ = writeln!(
        out,
        "| 1,024 over 128 | {} | {} | {} | {} |",
        grown(|o| o.four.tables),
        grown(|o| o.four.report),
        grown(|o| o.original().0),
        grown(|o| o.original().1)
    );
    out.push_str("\nThe original's time over ours:\n\n| nodes | d over b | c over a | d over a |\n|---|---|---|---|\n");
    for o in ordinary {
        let _ = writeln!(
            out,
            "| {} | {} | {} | {} |",
            thousands(o.nodes),
            o.report_over_report().text(),
            o.typing_over_tables().text(),
            o.report_over_tables().text()
        );
    }
    out.push('\n');
}

fn hard(out: &mut String, ordinary: &[Ordinary], adversarial: &[Adversarial]) {
    let plain = of_size(ordinary, 1_024);
    let (plain_types, plain_report) = plain.original();
    let _ = writeln!(
        out,
        "## Adversarial bodies\n\nEach has 1,024 nodes and is answered 0 (bench/src/bodies/adversarial.rs). The column `times` \
         says how many times as long as an ordinary body of 1,024 nodes it takes in the same series, by medians. Those about \
         function types are not counted in the demand.\n\n\
         | body | a: to tables | times | b: to report | times | c: original, typing | times | d: original, to report | times |\n\
         |---|---|---|---|---|---|---|---|---|"
    );
    for a in adversarial {
        let cell = |figure: Option<Figure>, plain: Figure| match figure {
            Some(f) => format!("{} | {}", both(f), ratio(f.median / plain.median)),
            None => format!("{} | ", does_not_end()),
        };
        let _ = writeln!(
            out,
            "| `{}` | {} | {} | {} | {} |",
            a.body.name,
            cell(Some(a.four.tables), plain.four.tables),
            cell(Some(a.four.report), plain.four.report),
            cell(a.four.original_types, plain_types),
            cell(a.four.original_report, plain_report)
        );
    }
    out.push('\n');
    for a in adversarial {
        let _ = writeln!(out, "- `{}`: {}.", a.body.name, a.body.what);
    }
    out.push('\n');
}

fn parts(out: &mut String, ordinary: &[Ordinary]) {
    out.push_str(
        "## Where the original's time goes\n\n\
         The parts of d, each timed on its own, means over the bodies of a size. Typing is the source's own code; the reader, \
         the AIR builder, the pool and the report are stand-ins of this repository.\n\n",
    );
    let names: Vec<&str> = ordinary[0].stages.iter().map(|s| s.0).collect();
    let _ = writeln!(out, "| nodes | {} |\n|---{}|", names.join(" | "), "|---".repeat(names.len()));
    for o in ordinary {
        let times: Vec<String> = o.stages.iter().map(|s| time(s.1)).collect();
        let _ = writeln!(out, "| {} | {} |", thousands(o.nodes), times.join(" | "));
    }
    out.push('\n');
}

fn method(out: &mut String, ordinary: &[Ordinary], tables: &Tables) {
    let lengths: Vec<String> =
        SLICES.iter().zip(tables.lengths()).map(|(name, length)| format!("{name} {}", thousands(length))).collect();
    let _ = writeln!(
        out,
        "## How it is measured\n\n\
         - Both checkers are linked into one program: the static library as it is delivered, the original with optimisation \
         level 3, link-time optimisation, without debug assertions and overflow checks.\n\
         - The original runs without any observation (reference/README.md): its log lines vanish, no step is counted, nothing \
         is noted, and no panic is caught. Its errors are recorded, with CAUSE 0, and no message is made. The pool, the caches \
         and the AIR's tables of the stand-ins have a quick hash; the source's own tables have std's.\n\
         - Before a body is timed its texts are compared: ours with that of the rules' program of reference, and ours with the \
         original's, CAUSE taken as 0. The original runs for that in a process of its own, which is ended after {PATIENCE} s. A \
         body on which two texts differ, or that is not answered 0, is not timed, and the run fails.\n\
         - Lent are the least lengths that are not answered 2: {}. The log of equations has no cells, the output {} bytes.\n\
         - c: for each call the AIR is built and a fresh session set up, with the declared types lowered in it, just before the \
         clock starts, so that all of it is in the caches; it is freed after the clock has stopped.\n\
         - Each call is timed by itself, by the monotonic clock; calls that take more than a millisecond by the processor time of \
         their thread. A batch goes over all bodies of a size in turn, again and again \
         for at least 4 ms; the four series take turns batch by batch, {} batches each ({} on an adversarial body; fewer where \
         one call takes long, and for the original then one). About every millisecond the program looks whether another process \
         was run in between on its core, and if so repeats that part.\n\
         - Everything is warm: each series runs for 20 ms, or once where that takes longer, before its first batch.\n",
        lengths.join(", "),
        thousands(OUTPUT),
        ordinary[0].four.tables.batches,
        crate::TURNS_ADVERSARIAL,
    );
}
