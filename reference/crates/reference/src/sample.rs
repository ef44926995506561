//! The recorded samples: bodies by hand and chosen generated ones with the reports that the original gives, and bodies whose
//! answers rest on documents 01 and 02 alone.
use crate::cases::Case;
use crate::{features, text};
use generate::Family;
use original::{Branch, Outcome, Want};
use rules::tables::{Left, Lent};
use std::collections::{BTreeMap, BTreeSet};
use std::ops::RangeInclusive;

/// The seed of the generated bodies and how many are looked at.
const SEED: u64 = 1;
const LOOKED_AT: u64 = 40_000;
/// Bytes of a small body, by pass: one is taken if something occurs in it that has not occurred before.
const SMALL: [usize; 3] = [200, 300, 400];
/// How many bodies of each family are taken besides, and their bytes at most.
const EACH: (usize, usize) = (12, 600);
/// Nodes of larger bodies, and how many of them are taken.
const LARGER: [(RangeInclusive<usize>, usize); 3] = [(60..=120, 12), (200..=500, 4), (1_024..=1_024, 1)];
/// Bytes of a report, and the outputs that it is written to: the first body with such a report is taken for each.
const LONG: [(RangeInclusive<usize>, &[usize]); 3] = [
    (65_536..=65_536, &[65_536, 65_535, 0]),
    (65_537..=65_537, &[65_537, 65_536]),
    (66_000..=80_000, &[131_072, 65_536]),
];

/// A recorded body.
struct Line {
    name: String,
    text: String,
    bytes: Vec<u8>,
    report: String,
    /// What occurs in it, where it was chosen for that.
    occurs: BTreeSet<String>,
}

impl Line {
    fn of(case: &Case, report: &str) -> Line {
        let (name, text, bytes) = (case.name.clone(), case.text.clone(), case.bytes.clone());
        Line { name, text, bytes, report: report.to_string(), occurs: BTreeSet::new() }
    }
}

/// How often each thing has occurred in the bodies taken.
type Seen = BTreeMap<String, usize>;

/// Whether a body is wanted, by what occurs in it.
type Wanted<'a> = &'a dyn Fn(&BTreeSet<String>, &Seen) -> bool;

/// The files of the samples by name; or what does not occur in them and should.
pub fn files(lent: &[Case], cases: &[Case]) -> Result<Vec<(&'static str, String)>, String> {
    let mut seen = Seen::new();
    let (mut judged, mut rest) = (Vec::new(), Vec::new());
    for case in cases {
        match judge(&case.bytes, &mut seen, &|_, _| true) {
            Some((report, _)) => judged.push(Line::of(case, &report)),
            None => rest.push(Line::of(case, &case.expected)),
        }
    }
    let by_hand = judged.len();
    choose(&mut seen, &mut judged);
    let long = long()?;
    println!("judged by the original: {by_hand} by hand, {} generated", judged.len() - by_hand);
    println!("by documents 01 and 02 alone: {}", rest.len());
    println!("about lengths: {} by hand, {} with long reports", lent.len(), long.len());
    let missing = missing(&seen);
    if !missing.is_empty() {
        return Err(format!("missing: {}", missing.join(", ")));
    }

    let mut samples = Samples { stdin: HEAD.to_string(), names: BTreeSet::new() };
    for l in &judged {
        samples.add(&l.name, &l.text, recorded(l)?)?;
    }
    samples.stdin.push_str(SECOND);
    for l in &rest {
        samples.add(&l.name, &l.text, recorded(l)?)?;
    }
    samples.stdin.push_str(THIRD);
    for case in lent {
        samples.add(&case.name, &case.text, by_hand_left(case)?)?;
    }
    samples.stdin.push_str(FOURTH);
    for l in &long {
        samples.add(&l.name, &l.text, recorded(l)?)?;
    }
    let stdout = format!("agree={}\n", samples.names.len());
    Ok(vec![("stdin", samples.stdin), ("stdout", stdout)])
}

/// The samples so far.
struct Samples {
    stdin: String,
    names: BTreeSet<String>,
}

impl Samples {
    fn add(&mut self, name: &str, text: &str, left: Left) -> Result<(), String> {
        if !self.names.insert(name.to_string()) {
            return Err(format!("{name} is there twice"));
        }
        self.stdin.push_str(&lines(name, text, &left));
        Ok(())
    }
}

/// A sample: the name and the body, then what `report` has to leave.
pub fn lines(name: &str, text: &str, left: &Left) -> String {
    format!("{name} {text}\n{}\n", left.line())
}

/// What `report` leaves of a body, by the rules; it has to be the report that is recorded, or 9 where the output is too short for it.
fn recorded(line: &Line) -> Result<Left, String> {
    let left = Left::of(&line.bytes, &Lent::of(&line.name));
    let output = line.name.split_once('@').map_or(Ok(65_536), |(_, bytes)| bytes.parse()).map_err(|_| "no number")?;
    let answer = line.report.lines().next().unwrap_or("");
    let nine = format!("answer=9,-\n{answer}\n");
    let expected = if line.report.len() <= output { &line.report } else { &nine };
    if left.text != *expected {
        return Err(format!("{}: the rules have another report", line.name));
    }
    Ok(left)
}

/// What `report` leaves of a case about lengths, by the rules; but for the hash it has to be what is expected by hand.
fn by_hand_left(case: &Case) -> Result<Left, String> {
    let left = Left::of(&case.bytes, &Lent::of(&case.name));
    let shown: String = left.lines().lines().filter(|l| !l.starts_with("hash=")).map(|l| format!("{l}\n")).collect();
    if shown == case.expected { Ok(left) } else { Err(format!("{}: the rules give\n{shown}", case.name)) }
}

/// Generated bodies with long reports, of which the original gives the same, for outputs with and without room.
fn long() -> Result<Vec<Line>, String> {
    let mut lines = Vec::new();
    let mut left: Vec<_> = LONG.iter().collect();
    for index in 0..LOOKED_AT {
        let (family, bytes) = generate::body(SEED, index);
        let Ok(b) = body::read(&bytes) else { continue };
        // A node is good for some 100 bytes of text at most.
        if left.is_empty() || b.nodes.len() < 600 {
            continue;
        }
        let report = rules::check(&b).text;
        let Some(found) = left.iter().position(|(range, _)| range.contains(&report.len())) else { continue };
        let (_, outputs) = left.remove(found);
        if !matches!(original::run(&b, Want::default()).outcome, Outcome::Report(text) if text == report) {
            return Err(format!("body {index}: the original has another report"));
        }
        for output in *outputs {
            let name = format!("{}-{index}@{output}", family.name());
            let (text, report, bytes) = (text::flat(&bytes), report.clone(), bytes.clone());
            lines.push(Line { name, text, bytes, report, occurs: BTreeSet::new() });
        }
    }
    if left.is_empty() { Ok(lines) } else { Err("no body with a report long enough".to_string()) }
}

/// The report of a body that the original judges, if it is wanted; what occurs in it is counted then.
fn judge(bytes: &[u8], seen: &mut Seen, wanted: Wanted) -> Option<(String, BTreeSet<String>)> {
    let b = body::read(bytes).ok()?;
    let run = original::run(&b, Want { entries: true, ..Want::default() });
    let report = match &run.outcome {
        Outcome::Report(text) if text.len() <= 65_536 => text.clone(),
        Outcome::Refused(..) => run.outcome.text(),
        _ => return None,
    };
    let occurs = features::of(&b, &run);
    if !wanted(&occurs, seen) {
        return None;
    }
    for f in &occurs {
        *seen.entry(f.clone()).or_default() += 1;
    }
    Some((report, occurs))
}

/// Generated bodies: those that bring something new, the smaller ones first; some of each family; and a few larger ones.
fn choose(seen: &mut Seen, lines: &mut Vec<Line>) {
    let mut all = Generated { bodies: (0..LOOKED_AT).map(|i| Some(generate::body(SEED, i))).collect() };
    for most in SMALL {
        all.take(seen, lines, usize::MAX, &|_, bytes| bytes.len() <= most, &|occurs, seen| {
            occurs.iter().any(|f| !seen.contains_key(f))
        });
    }
    thin(seen, lines);
    for one in generate::FAMILIES {
        all.take(seen, lines, EACH.0, &|family, bytes| family == one && bytes.len() <= EACH.1, &|_, _| true);
    }
    for (nodes, count) in LARGER {
        let rows = |bytes: &[u8]| bytes.split(|b| *b == b'\n').filter(|l| l.starts_with(b"node=")).count();
        all.take(seen, lines, count, &|_, bytes| nodes.contains(&rows(bytes)), &|occurs, _| {
            occurs.contains("answer 0")
        });
    }
}

/// Drops each chosen body, the largest first, in which nothing occurs that the others lack.
fn thin(seen: &mut Seen, lines: &mut Vec<Line>) {
    let mut order: Vec<usize> = (0..lines.len()).filter(|i| !lines[*i].occurs.is_empty()).collect();
    order.sort_by_key(|i| std::cmp::Reverse(lines[*i].bytes.len()));
    for i in order {
        if lines[i].occurs.iter().all(|f| seen[f] > 1) {
            for f in std::mem::take(&mut lines[i].occurs) {
                *seen.get_mut(&f).unwrap() -= 1;
            }
            lines[i].name.clear();
        }
    }
    lines.retain(|l| !l.name.is_empty());
}

/// The generated bodies by index, but for those that are taken already.
struct Generated {
    bodies: Vec<Option<(Family, Vec<u8>)>>,
}

impl Generated {
    /// At most `count` bodies that fit and are wanted, in the order of their indices.
    fn take(
        &mut self,
        seen: &mut Seen,
        lines: &mut Vec<Line>,
        count: usize,
        fits: &dyn Fn(Family, &[u8]) -> bool,
        wanted: Wanted,
    ) {
        let mut left = count;
        for (index, body) in self.bodies.iter_mut().enumerate() {
            let Some((family, bytes)) = body else { continue };
            if left == 0 || !fits(*family, bytes) {
                continue;
            }
            if let Some((report, occurs)) = judge(bytes, seen, wanted) {
                let name = format!("{}-{index}", family.name());
                lines.push(Line { name, text: text::flat(bytes), bytes: bytes.clone(), report, occurs });
                *body = None;
                left -= 1;
            }
        }
    }
}

/// What has to occur and does not: each branch of `unify`, each form of a node, each error kind with each of its causes, each
/// refusal of the walk with each reason.
fn missing(seen: &Seen) -> Vec<String> {
    let forms = "bool int float bin un field list index assign opassign if loop break call mcall return block let param \
                 lambda path";
    let errors = "0 cause 0,0 cause 1,1 cause 0,2 cause 0,3 cause 1,4 cause 0,5 cause 1,\
                  6 cause 0,7 cause 0,8 cause 0,9 cause 0,10 cause 0";
    let refusals = "10 str,10 path o,10 path l failed,10 path f failed,10 path c failed,10 path o failed,10 RESOLVED,\
                    10 last segment o,11 path l,11 last segment l,13 ";
    let mut wanted: Vec<String> = Branch::all().iter().map(|b| format!("unify {b:?}")).collect();
    wanted.extend(forms.split_whitespace().map(|f| format!("node {f}")));
    wanted.extend(errors.split(',').map(|e| format!("error {e}")));
    wanted.extend(refusals.split(',').map(|r| format!("answer {r}")));
    println!("things that must occur: {}, things that occur: {}", wanted.len(), seen.len());
    wanted.retain(|w| !seen.keys().any(|k| k.starts_with(w.as_str())));
    wanted
}

const HEAD: &str = "\
# Recorded samples, two lines each: a name, a blank, and the body's text up to the end of the line; then what `report` has to leave.
# Before a sample a line that starts with # is a comment, and an empty line is nothing. Any number of samples may stand here.
#
# In the text of a body
#   /          is a line feed
#   \\hh        is the byte with this hexadecimal number, in two signs of 0 to 9 and a to f
#   {N:T}      is the text T, N times; in T the sign # is the number of the turn, counted from 0; T has no braces
#   {N+S:T}    is the same, the turns counted from S; N and S are at most 65,535
# and any other byte is itself; outside of a repetition # is the number 0. A name with nothing behind it is the empty body. Room is for
# 200,000 bytes of a sample and for 65,600 bytes of a body; what goes beyond is dropped.
#
# In the second line stand
#   with the answer 0, with commas between them, a hash, the counts of types, defs, insts, binds and nodes, and that of equations; with
#   any other answer -. The hash is made of all cells of the tables of nodes, variables, made types, errors and equations, one after the
#   other: it starts as 1, and with each cell it becomes 31 times itself plus the cell, modulo 4,294,967,291
#   a blank, and the text of the report, / for a line feed; where the output is too short, answer=9,-/ and the answer line of the check
#
# If the sign before the last of a name is !, the last says which tables are lent: R, C, N, V, T, E, M the table of rows, cells, nodes,
# variables, made types, errors, memory one cell too short; L every table nine cells longer; 0, 2, 3, 4 a log of so many cells. Else
# every table has the length it has to have, and the log 6,144 cells. Behind that @ and a number are the bytes of output, at most
# 131,072; without it they are 65,536.
#
# Of a sample that does not agree its name is printed, and what is wrong in it:
#   answer     the answer that is returned is not that of the text
#   text       the text or its length, or that there is room or none
#   bytes behind the text   they are not as before; on 9: the output is not zero throughout
#   tables     the hash or the counts
#   rest       with the answer 0: a cell behind the used rows of the five tables, or one of the memory, is not zero, or the two tables of
#              the file are not those that the reader alone leaves in tables of its own; with 3 to 13: a cell of a table is not zero; with
#              1 and 2: a cell of a table is not as before. Before each body every cell and every byte of the output is 7
# and last how many samples agree.
#
# This file is made by reference/samples, with stdout. It is there once more for the program `write_run`, which takes the first line of a
# sample alone; what that prints stands at the top of its main.rt. First come the bodies that the original checker judges: those by
# hand, then generated ones, named by their family and index.
";

const SECOND: &str = "\
# From here on the answers rest on documents 01 and 02 alone: refusals 1 and 3 to 6, rings, variables inside themselves, exchanged roles.
# The reason of each stands with it in reference/bodies.
";

const THIRD: &str = "\
# Lengths of the lent tables and of the output: reference/lent.txt.
";

const FOURTH: &str = "\
# Reports of 65,536 bytes and more, of generated bodies that the original checker judges.
";
