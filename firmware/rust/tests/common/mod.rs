//! Bodies with what is expected of them, the report as text from the typed views, and damaged copies.
#![allow(dead_code)] // each test uses a part
pub mod conflict;

use nunthila::{Checked, Checker, ErrorRow, Extra, Kind, Lengths, Lines, Made, Span, Tables};
use std::fmt::Write;
use std::path::{Path, PathBuf};

/// As much output as any report here needs.
pub const OUT: usize = 262_144;

/// A byte that is in no report.
pub const BEHIND: u8 = 0xee;

/// A path from the root of the repository.
pub fn repository(path: &str) -> PathBuf {
    Path::new(env!("CARGO_MANIFEST_DIR")).join("../..").join(path)
}

/// How many damaged copies are tried: the variable NUNTHILA_COPIES, else `usual`.
pub fn copies(usual: usize) -> usize {
    std::env::var("NUNTHILA_COPIES").map_or(usual, |n| n.parse().expect("NUNTHILA_COPIES is a number"))
}

/// A body and the text that is expected.
pub struct Case {
    pub name: String,
    pub body: Vec<u8>,
    pub expected: String,
}

fn files(folder: &str, extension: &str) -> Vec<PathBuf> {
    let entries = std::fs::read_dir(repository(folder)).expect(folder);
    let mut files: Vec<PathBuf> = entries.map(|e| e.expect(folder).path()).collect();
    files.retain(|p| p.extension().is_some_and(|e| e == extension));
    files.sort();
    files
}

/// The bodies of `examples` with their reports.
pub fn examples() -> Vec<Case> {
    let case = |path: &PathBuf| Case {
        name: path.file_stem().unwrap().to_string_lossy().into_owned(),
        body: std::fs::read(path).unwrap(),
        expected: std::fs::read_to_string(path.with_extension("report")).unwrap(),
    };
    files("examples", "body").iter().map(case).collect()
}

/// The bodies by hand.
pub fn bodies() -> Vec<Case> {
    files("reference/bodies", "txt").iter().flat_map(|p| cases(&std::fs::read_to_string(p).unwrap())).collect()
}

/// The cases of a file. A case is a line `== NAME`, lines that start with `#`, the body's lines or one line `text T`, a line `--` and
/// the whole text. A line `-- source` may follow, and text that is not used here.
pub fn cases(file: &str) -> Vec<Case> {
    let mut cases = Vec::new();
    for part in file.split("\n== ").skip(1) {
        let (name, part) = part.split_once('\n').unwrap();
        let (body, expected) = part.split_once("\n--\n").unwrap_or_else(|| panic!("{name}: no line --"));
        let expected = expected.split("\n-- source\n").next().unwrap();
        let body = body_of(body).unwrap_or_else(|| panic!("{name}: text"));
        let expected = format!("{}\n", expected.trim_end_matches('\n'));
        cases.push(Case { name: name.to_string(), body, expected });
    }
    cases
}

/// The body of a case.
fn body_of(lines: &str) -> Option<Vec<u8>> {
    let lines: Vec<&str> = lines.lines().filter(|l| !l.starts_with('#')).collect();
    match lines.as_slice() {
        ["text"] => Some(Vec::new()),
        [one] if one.starts_with("text ") => expand(&one[5..]),
        lines => Some(bytes(lines.iter().copied())),
    }
}

/// A body and what is expected of `quarrel` or `shortest` on it.
pub struct Conflict {
    pub name: String,
    pub body: Vec<u8>,
    pub parts: Vec<Part>,
}

/// What is expected with each of these numbers and forms of lines, in an output of `room` bytes, or of any where there is none.
pub struct Part {
    /// None of `quarrel`.
    pub numbers: Vec<u64>,
    pub forms: Vec<Lines>,
    pub room: Option<usize>,
    pub answer: usize,
    pub place: Option<usize>,
    pub text: String,
}

/// The bodies by hand of `quarrel`.
pub fn conflicts() -> Vec<Conflict> {
    conflicts_of("reference/quarrels.txt")
}

/// The bodies by hand of `shortest`.
pub fn searches() -> Vec<Conflict> {
    conflicts_of("reference/shortest.txt")
}

/// The bodies of a file whose first lines say of what form it is.
fn conflicts_of(path: &str) -> Vec<Conflict> {
    let file = std::fs::read_to_string(repository(path)).unwrap();
    let conflict = |case: &str| {
        let (name, case) = case.split_once('\n').unwrap();
        let (body, parts) = case.split_once("\n--").unwrap_or_else(|| panic!("{name}: no line --"));
        let body = body_of(body).unwrap_or_else(|| panic!("{name}: text"));
        let parts = parts.split("\n--").map(|p| part(p).unwrap_or_else(|| panic!("{name}: {p}"))).collect();
        Conflict { name: name.to_string(), body, parts }
    };
    file.split("\n== ").skip(1).map(conflict).collect()
}

/// Lines with a line feed behind each.
fn bytes<'a>(lines: impl Iterator<Item = &'a str>) -> Vec<u8> {
    lines.flat_map(|l| [l.as_bytes(), b"\n"].concat()).collect()
}

/// A part from behind its `--` on.
fn part(part: &str) -> Option<Part> {
    let (head, text) = part.trim_end_matches('\n').split_once('\n')?;
    let words: Vec<&str> = head.split_whitespace().collect();
    let numbers: Vec<u64> = words.iter().map_while(|w| w.parse().ok()).collect();
    let (forms, words) = match &words[numbers.len()..] {
        ["where", rest @ ..] => (vec![Lines::Places], rest),
        ["either", rest @ ..] => (vec![Lines::Numbers, Lines::Places], rest),
        rest => (vec![Lines::Numbers], rest),
    };
    let room = match words {
        [] => None,
        ["room", bytes] => Some(bytes.parse().ok()?),
        _ => return None,
    };
    let (answer, text) = text.split_once('\n').unwrap_or((text, ""));
    let (answer, place) = answer.strip_prefix("answer=")?.split_once(',')?;
    let place = if place == "-" { None } else { Some(place.parse().ok()?) };
    let text = String::from_utf8(bytes(text.lines())).ok()?;
    Some(Part { numbers, forms, room, answer: answer.parse().ok()?, place, text })
}

/// The bytes of a body on one line: `/` is a line feed, `\hh` the byte with this hexadecimal number, `{N:T}` the text T N times, where
/// `#` in T is the number of the turn from 0, `{N+S:T}` the same from S.
pub fn expand(text: &str) -> Option<Vec<u8>> {
    let mut out = Vec::new();
    let mut rest = text;
    while let Some(open) = rest.find('{') {
        plain(&rest[..open], 0, &mut out)?;
        let close = open + rest[open..].find('}')?;
        let (head, turn) = rest[open + 1..close].split_once(':')?;
        let (count, first) = head.split_once('+').unwrap_or((head, "0"));
        let (count, first): (u32, u32) = (count.parse().ok()?, first.parse().ok()?);
        for k in 0..count {
            plain(turn, first + k, &mut out)?;
        }
        rest = &rest[close + 1..];
    }
    plain(rest, 0, &mut out)?;
    Some(out)
}

fn plain(text: &str, turn: u32, out: &mut Vec<u8>) -> Option<()> {
    let mut bytes = text.bytes();
    while let Some(b) = bytes.next() {
        match b {
            b'/' => out.push(b'\n'),
            b'#' => out.extend(turn.to_string().bytes()),
            b'\\' => {
                let pair = [bytes.next()?, bytes.next()?];
                out.push(u8::from_str_radix(std::str::from_utf8(&pair).ok()?, 16).ok()?);
            }
            b'}' => return None,
            _ => out.push(b),
        }
    }
    Some(())
}

/// A number, or `-`.
fn optional(n: Option<u16>) -> String {
    n.map_or("-".to_string(), |n| n.to_string())
}

/// The report as text, from the typed views.
pub fn text(checked: &Checked) -> String {
    let mut t = String::new();
    let place = checked.place().map_or("-".to_string(), |p| p.to_string());
    writeln!(t, "answer={},{place}", checked.answer()).unwrap();
    if checked.answer() != nunthila::answer::CHECKED {
        return t;
    }
    writeln!(t, "types={}", checked.types().len()).unwrap();
    for made in checked.types() {
        match made {
            Made::Instance(k) => write!(t, "type=inst,{k}"),
            Made::FnDef(d) => write!(t, "type=fn,{d}"),
            Made::Array(e) => write!(t, "type=array,{e}"),
            Made::Var(v) => write!(t, "type=var,{v}"),
            Made::Ref(e) => write!(t, "type=ref,{e}"),
            Made::Lambda { node, output, inputs } => {
                write!(t, "type=lambda,{node},{output}").unwrap();
                inputs.iter().try_for_each(|i| write!(t, ",{i}"))
            }
        }
        .unwrap();
        t.push('\n');
    }
    writeln!(t, "vars={}", checked.vars().len()).unwrap();
    for var in checked.vars() {
        let kind = match var.kind {
            Kind::Any => "any",
            Kind::Int => "int",
            Kind::Float => "float",
        };
        writeln!(t, "var={kind},{},{}", optional(var.bound), optional(var.origin)).unwrap();
    }
    for node in checked.nodes() {
        let extra = match node.extra {
            Extra::None => "-".to_string(),
            Extra::Local(n) => format!("l{n}"),
            Extra::Fn(d) => format!("f{d}"),
            Extra::Constructor(d) => format!("c{d}"),
            Extra::Instance(k) => format!("i{k}"),
            Extra::Error => "e".to_string(),
            Extra::Other => "o".to_string(),
            Extra::Let(n) | Extra::Method(n) => n.to_string(),
        };
        writeln!(t, "node={},{},{extra}", optional(node.raw), optional(node.fin)).unwrap();
    }
    writeln!(t, "errors={}", checked.errors().len()).unwrap();
    for e in checked.errors() {
        let span = match e.span {
            Span::Node(n) => n.to_string(),
            Span::BindItem(d) => format!("d{d}"),
            Span::Signature => "sig".to_string(),
        };
        write!(t, "error={},{},{span},{}", e.kind.number(), e.cause.number(), optional(e.second)).unwrap();
        e.values.iter().try_for_each(|v| write!(t, ",{v}")).unwrap();
        t.push('\n');
    }
    t
}

/// Every cell, the errors as nine each.
pub fn all_cells(t: Tables) -> Vec<u16> {
    [t.rows, t.cells, t.nodes, t.vars, t.types, &error_cells(t.errors), t.log, t.memory].concat()
}

/// The fields of the rows, nine for each.
pub fn error_cells(rows: &[ErrorRow]) -> Vec<u16> {
    rows.iter().flat_map(|r| [r.kind, r.cause, r.span, r.at, r.between, r.second, r.a, r.b, r.c]).collect()
}

/// Whether all of each table past its used rows is zero; with an answer other than 0 whether all is zero.
pub fn rest_is_zero(checked: &Checked) -> bool {
    let (t, c) = (checked.tables(), checked.counts());
    let zero = |cells: &[u16]| cells.iter().all(|&c| c == 0);
    if checked.answer() != nunthila::answer::CHECKED {
        return zero(&all_cells(t));
    }
    // The first row of each key, how many it has, and how many are used; the row of `fn` is the last.
    let keys = [(0, 512, c.types), (512, 256, c.defs), (768, 64, c.insts), (832, 64, c.binds), (896, 1_024, c.nodes)];
    let inputs: usize =
        checked.types().map(|t| if let Made::Lambda { inputs, .. } = t { inputs.len() } else { 0 }).sum();
    keys.iter().all(|&(first, rows, used)| zero(&t.rows[5 * (first + used)..5 * (first + rows)]))
        && zero(&t.rows[Lengths::required().rows..])
        && zero(&t.cells[3 * c.fields..])
        && zero(&t.nodes[6 * c.nodes..])
        && zero(&t.vars[6 * c.vars..])
        && zero(&t.types[5 * c.made..20_480])
        && zero(&t.types[20_480 + inputs..])
        && zero(&error_cells(&t.errors[c.errors..]))
        && zero(&t.log[3 * checked.equations().len()..])
        && zero(t.memory)
}

/// A checker and an output, to run many bodies.
pub struct Runner {
    pub checker: Checker,
    pub out: Vec<u8>,
}

impl Runner {
    pub fn new() -> Self {
        Self { checker: Checker::with_log(2_048), out: vec![BEHIND; OUT] }
    }

    /// The library's text of a body, after the text from the typed views was found to be the same, of `report` and of `check`.
    pub fn text(&mut self, name: &str, body: &[u8]) -> String {
        let reported = self.checker.report(body, &mut self.out);
        let length = reported.length().unwrap_or_else(|| panic!("{name}: no room in {OUT} bytes"));
        assert_eq!(reported.answer(), reported.checked().answer(), "{name}: answer of the report and of the check");
        let library = String::from_utf8(self.out[..length].to_vec()).unwrap();
        assert!(self.out[length..].iter().all(|&b| b == BEHIND), "{name}: bytes behind the text");
        self.out[..length].fill(BEHIND);
        assert_eq!(text(&reported), library, "{name}: views of report");
        let mut told = *reported.told();
        let checked = self.checker.check(body);
        assert_eq!(text(&checked), library, "{name}: views of check");
        told[nunthila::TOLD - 1] = 0;
        assert_eq!(*checked.told(), told, "{name}: told of check");
        if checked.answer() != nunthila::answer::TOO_LONG {
            assert!(rest_is_zero(&checked), "{name}: zero behind the used rows");
        }
        library
    }
}

/// Pseudo-random numbers.
pub struct Random(pub u64);

impl Random {
    /// A number below n.
    pub fn below(&mut self, n: usize) -> usize {
        self.0 ^= self.0 << 13;
        self.0 ^= self.0 >> 7;
        self.0 ^= self.0 << 17;
        (self.0 % n as u64) as usize
    }

    /// A copy of a body with one to three faults.
    pub fn damaged(&mut self, body: &[u8]) -> Vec<u8> {
        let mut copy = body.to_vec();
        for _ in 0..1 + self.below(2) * self.below(3) {
            self.damage(&mut copy);
        }
        copy
    }

    fn damage(&mut self, body: &mut Vec<u8>) {
        const BYTES: &[u8] = b"0123456789,:=-\nabcdefilnoprtuy";
        if body.is_empty() {
            body.push(BYTES[self.below(BYTES.len())]);
            return;
        }
        let at = self.below(body.len());
        let from = body[..at].iter().rposition(|&b| b == b'\n').map_or(0, |p| p + 1);
        let to = body[at..].iter().position(|&b| b == b'\n').map_or(body.len(), |p| at + p + 1);
        match self.below(16) {
            0 => body[at] = BYTES[self.below(BYTES.len())],
            1 => body[at] = self.below(256) as u8,
            2 => drop(body.remove(at)),
            3 => body.insert(at, BYTES[self.below(BYTES.len())]),
            4 => drop(body.drain(from..to)),
            5 => {
                let line = body[from..to].to_vec();
                body.splice(from..from, line);
            }
            // An operator, or a segment's letter, for another.
            6 | 7 => self.letter(body, at, b"abc", b"abc"),
            8 => self.letter(body, at, b"drnt", b"drnt"),
            9 => self.letter(body, at, b"lfcieo", b"lfcieo"),
            // A type, a name or a node for another.
            _ => self.letter(body, at, b"0123456789", b"0123456789"),
        }
    }

    /// Replaces the first field from `at` on that begins with a byte of `old`, by one byte of `new`.
    fn letter(&mut self, body: &mut [u8], at: usize, old: &[u8], new: &[u8]) {
        let found = (at.max(1)..body.len()).find(|&i| b",:=".contains(&body[i - 1]) && old.contains(&body[i]));
        if let Some(i) = found {
            body[i] = new[self.below(new.len())];
        }
    }
}

/// The lengths with one of the seven tables that have a least length changed by `change`, each with its name.
pub fn each_table(change: fn(usize) -> usize) -> Vec<(&'static str, Lengths)> {
    let r = Lengths::required();
    vec![
        ("rows", Lengths { rows: change(r.rows), ..r }),
        ("cells", Lengths { cells: change(r.cells), ..r }),
        ("nodes", Lengths { nodes: change(r.nodes), ..r }),
        ("vars", Lengths { vars: change(r.vars), ..r }),
        ("types", Lengths { types: change(r.types), ..r }),
        ("errors", Lengths { errors: change(r.errors), ..r }),
        ("memory", Lengths { memory: change(r.memory), ..r }),
    ]
}
