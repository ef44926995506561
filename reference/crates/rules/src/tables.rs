//! The lent tables and the output as `report` leaves them, and how a recorded sample has them. docs/TABLES.md has the tables, cell by
//! cell.
use crate::types::Type;
use crate::unify::{Kind, Outcome, Variable};
use crate::walk::{Equation, ErrorRow, Extra, Refused, Spanned, Walk};
use crate::{finish, print};
use body::Res;

/// "1 over 65,536 bytes".
const MOST_BYTES: usize = 65_536;
/// Cells of the tables of nodes, variables, made types and errors, and of a log that has room for every equation.
const LENGTHS: [usize; 5] = [6_144, 6_144, 21_504, 36_864, 6_144];
/// How many cells more a table has that is lent longer than it has to be: a whole row of errors.
const LONGER: usize = 9;
/// Where the inputs begin in the table of made types.
const INPUTS_FROM: usize = 20_480;

/// What is lent, by the marks in the name of a body: behind `!` a table one cell too short, all of them longer, or a short log;
/// behind `@` the bytes of output.
pub struct Lent {
    /// Cells of the tables of nodes, variables, made types, errors and equations; none where a table is too short.
    lengths: Option<[usize; 5]>,
    output: usize,
}

impl Lent {
    /// What the name of a body says.
    pub fn of(name: &str) -> Lent {
        let (name, output) = match name.split_once('@') {
            Some((name, bytes)) => (name, bytes.parse().expect("a number behind @")),
            None => (name, crate::MOST_OUTPUT),
        };
        let mut lengths = LENGTHS;
        match name.as_bytes() {
            [.., b'!', b'R' | b'C' | b'N' | b'V' | b'T' | b'E' | b'M'] => return Lent { lengths: None, output },
            [.., b'!', b'L'] => lengths = LENGTHS.map(|cells| cells + LONGER),
            [.., b'!', digit @ (b'0' | b'2' | b'3' | b'4')] => lengths[4] = usize::from(digit - b'0'),
            _ => {}
        }
        Lent { lengths: Some(lengths), output }
    }
}

/// What `report` leaves of a body.
pub struct Left {
    /// The text in the output; on 9 the line of 9, and behind it the answer line of the check.
    pub text: String,
    /// The tables, where the answer of the check is 0.
    tables: Option<Tables>,
}

/// What the tables hold and a report does not show.
struct Tables {
    /// How many types, defs, insts, binds and nodes the file has.
    rows: [usize; 5],
    marked: Vec<usize>,
    equations: usize,
    /// The equations that the log has whole.
    log: Vec<usize>,
    hash: u64,
}

impl Left {
    /// What is left of a body on what is lent.
    pub fn of(bytes: &[u8], lent: &Lent) -> Left {
        let (text, tables) = check(bytes, lent.lengths);
        if text.len() <= lent.output {
            return Left { text, tables };
        }
        let answer = text.lines().next().unwrap_or("");
        Left { text: format!("{}{answer}\n", print::answer(9, None)), tables }
    }

    /// The text, and where the answer is 0 the counts of the file's rows, the marked variables, the equations that the log has whole
    /// and the hash of all cells.
    pub fn lines(&self) -> String {
        let Some(tables) = &self.tables else {
            return self.text.clone();
        };
        let mut text = format!("{}read={}\nmarked={}\n", self.text, joined(&tables.rows), joined(&tables.marked));
        text += &format!("equations={}\n", tables.equations);
        for row in tables.log.chunks(3) {
            text += &format!("equation={}\n", joined(row));
        }
        text + &format!("hash={}\n", tables.hash)
    }

    /// The second line of a sample: the hash, the counts of the file's rows and of the equations, or `-`; and the text.
    pub fn line(&self) -> String {
        let text = self.text.replace('\n', "/");
        match &self.tables {
            Some(tables) => format!("{},{},{} {text}", tables.hash, joined(&tables.rows), tables.equations),
            None => format!("- {text}"),
        }
    }
}

/// Numbers with commas between them.
fn joined(numbers: &[usize]) -> String {
    numbers.iter().map(|number| number.to_string()).collect::<Vec<_>>().join(",")
}

/// The report, however long, or the answer line alone; and the tables on 0. Without lengths a table is too short.
fn check(bytes: &[u8], lengths: Option<[usize; 5]>) -> (String, Option<Tables>) {
    if bytes.len() > MOST_BYTES {
        return (print::answer(1, None), None);
    }
    let Some(lengths) = lengths else {
        return (print::answer(2, None), None);
    };
    match body::read(bytes) {
        Ok(body) => {
            let mut walk = Walk::new(&body);
            match finish::run(&mut walk) {
                Ok(finals) => (print::report(&walk, &finals), Some(tables(&walk, &finals, &lengths))),
                Err(Refused { answer, place }) => (print::answer(answer, Some(place)), None),
            }
        }
        Err(refusal) => (print::answer(refusal.answer, refusal.line), None),
    }
}

/// The tables of a body that was checked.
fn tables(walk: &Walk<'_>, finals: &[Option<usize>], lengths: &[usize; 5]) -> Tables {
    let body = walk.body;
    let marked = walk.variables.rows.iter().enumerate().filter(|(_, row)| row.marked);
    let log = log(walk, lengths[4]);
    let cells = [nodes(walk, finals), variables(walk), made_types(walk), errors(walk), log.clone()];
    Tables {
        rows: [body.types.len(), body.defs.len(), body.insts.len(), body.binds.len(), body.nodes.len()],
        marked: marked.map(|(number, _)| number).collect(),
        equations: walk.equations.len(),
        log,
        hash: hash(cells.into_iter().zip(lengths).flat_map(|(table, length)| padded(table, *length))),
    }
}

/// "on 0 all of a table past its used rows is zero".
fn padded(mut table: Vec<usize>, length: usize) -> Vec<usize> {
    assert!(table.len() <= length, "a table is full");
    table.resize(length, 0);
    table
}

/// A hash that takes one cell after the other.
fn hash(cells: impl Iterator<Item = usize>) -> u64 {
    cells.fold(1, |hash, cell| (hash * 31 + cell as u64) % 4_294_967_291)
}

/// A flag and its number; 0 and 0 for none.
fn flagged(value: Option<usize>) -> [usize; 2] {
    value.map_or([0, 0], |value| [1, value])
}

/// RAW, EXTRA, FINAL.
fn nodes(walk: &Walk<'_>, finals: &[Option<usize>]) -> Vec<usize> {
    let rows = walk.node_type.iter().zip(&walk.extra).zip(finals);
    rows.flat_map(|((raw, of), fin)| [flagged(*raw), extra(*of), flagged(*fin)].concat()).collect()
}

/// EXTRA: its tag, and its number.
fn extra(extra: Extra) -> [usize; 2] {
    match extra {
        Extra::Absent => [0, 0],
        Extra::Resolved(Res::Local(node)) => [1, node],
        Extra::Resolved(Res::Fun(def)) => [2, def],
        Extra::Resolved(Res::Ctor(def)) => [3, def],
        Extra::Resolved(Res::Inst(inst)) => [4, inst],
        Extra::Resolved(Res::Error) => [5, 0],
        Extra::Resolved(Res::Other) => [6, 0],
        Extra::LocalType(ty) => [7, ty],
        Extra::Method(def) => [8, def],
    }
}

/// KIND, BOUND, ORIGIN, mark.
fn variables(walk: &Walk<'_>) -> Vec<usize> {
    let row = |row: &Variable| {
        let kind = match row.kind {
            Kind::Any => 0,
            Kind::Int => 1,
            Kind::Float => 2,
        };
        let (bound, origin) = (flagged(row.bound), flagged(row.origin));
        [kind, bound[0], bound[1], origin[0], origin[1], usize::from(row.marked)]
    };
    walk.variables.rows.iter().flat_map(row).collect()
}

/// Head, number, output, the inputs of the rows before, its own; behind 4,096 rows the inputs of all.
fn made_types(walk: &Walk<'_>) -> Vec<usize> {
    let (mut table, mut inputs): (Vec<usize>, Vec<usize>) = Default::default();
    for ty in walk.pool.made() {
        let before = inputs.len();
        let (head, number, output) = match ty {
            Type::Inst(inst) => (5, *inst, 0),
            Type::Fn(def) => (7, *def, 0),
            Type::Array(element) => (8, *element, 0),
            Type::Var(variable) => (12, *variable, 0),
            Type::Lambda { node, output, inputs: own } => {
                inputs.extend(own.iter());
                (13, *node, *output)
            }
            Type::Ref(inner) => (14, *inner, 0),
            other => unreachable!("{other:?} is never made"),
        };
        table.extend([head, number, output, before, inputs.len() - before]);
    }
    let mut table = padded(table, INPUTS_FROM);
    table.extend(inputs);
    table
}

/// KIND, CAUSE, P, Q, three values.
fn errors(walk: &Walk<'_>) -> Vec<usize> {
    let row = |row: &ErrorRow| {
        let p = match row.p {
            Spanned::Node(node) => [0, node],
            Spanned::BindItem(def) => [1, def],
            Spanned::Signature => [2, 0],
        };
        let kind = [row.kind as usize, usize::from(row.cause)];
        [&kind[..], &p, &flagged(row.q), &padded(row.values.clone(), 3)].concat()
    };
    walk.errors.iter().flat_map(row).collect()
}

/// Expected, got and answer of each equation that these cells have whole.
fn log(walk: &Walk<'_>, cells: usize) -> Vec<usize> {
    let row = |equation: &Equation| {
        let answer = match equation.outcome {
            Outcome::Success => 0,
            Outcome::Mismatch => 1,
            Outcome::Refused12 => 12,
            Outcome::Refused13 => 13,
        };
        [equation.expected, equation.got, answer]
    };
    walk.equations.iter().take(cells / 3).flat_map(row).collect()
}
