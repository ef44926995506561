//! The tables of a checked body: zero behind what is in use, counts as in the body, and the report once more from the typed views.
use nunthila::{Cause, Checked, Counts, Equation, ErrorRow, Extra, Kind, Made, Outcome, Span, Tables};
use std::fmt::{Display, Write};

/// First row and number of rows of `type`, `def`, `inst`, `bind` and `node` in the table of rows; docs/TABLES.md.
const REGIONS: [(usize, usize); 5] = [(0, 512), (512, 256), (768, 64), (832, 64), (896, 1_024)];
/// The row of `fn`, the last.
const FN: usize = 1_920;
/// Where the inputs begin in the table of made types.
const INPUTS_FROM: usize = 20_480;

/// What the tables have and a report does not show.
#[derive(Clone, PartialEq, Eq, Debug, Default)]
pub struct Hidden {
    /// Expected, got, and how it ended: 0, or 1 for a mismatch.
    pub equations: Vec<[usize; 3]>,
    /// The variables with a negation mark.
    pub marked: Vec<usize>,
}

pub fn hidden(checked: &Checked) -> Hidden {
    let equation =
        |e: Equation| [usize::from(e.expected), usize::from(e.got), usize::from(e.outcome == Outcome::Mismatch)];
    let marked = checked.vars().enumerate().filter(|(_, var)| var.marked);
    Hidden { equations: checked.equations().map(equation).collect(), marked: marked.map(|(v, _)| v).collect() }
}

/// Whether all cells are 0.
pub fn zero(cells: &[u16]) -> bool {
    cells.chunks(256).all(|part| part.iter().fold(0, |all, cell| all | cell) == 0)
}

pub fn zero_errors(rows: &[ErrorRow]) -> bool {
    rows.iter().all(|row| *row == ErrorRow::default())
}

/// Whether all tables are 0 throughout.
pub fn all_zero(t: &Tables) -> bool {
    let cells = [t.rows, t.cells, t.nodes, t.vars, t.types, t.log, t.memory];
    cells.iter().all(|table| zero(table)) && zero_errors(t.errors)
}

/// All cells, one table behind the other.
pub fn flat(t: &Tables) -> Vec<u16> {
    let mut all = [t.rows, t.cells, t.nodes, t.vars, t.types, t.log, t.memory].concat();
    all.extend(t.errors.iter().flat_map(|e| [e.kind, e.cause, e.span, e.at, e.between, e.second, e.a, e.b, e.c]));
    all
}

/// What is wrong with the tables of a body that is answered 0, and with this text.
pub fn faults(checked: &Checked, body: &[u8], text: &[u8]) -> Vec<String> {
    let mut faults: Vec<String> = Vec::new();
    let (counts, tables) = (checked.counts(), checked.tables());
    faults
        .extend(not_zero(&counts, inputs(checked), &tables).map(|table| format!("{table} is not zero behind its end")));
    let declared = [counts.types, counts.defs, counts.insts, counts.binds, counts.nodes, counts.fields];
    if declared != lines_and_fields(body) {
        faults.push(format!("counts {declared:?} of a body with {:?}", lines_and_fields(body)));
    }
    let views = report(checked);
    if views.as_bytes() != text {
        faults.push(format!("the views give another report than the text:\n{views}"));
    }
    let failed = checked.equations().filter(|e| e.outcome == Outcome::Mismatch).count();
    let raised = checked.errors().filter(|e| e.cause == Cause::Mismatch).count();
    if counts.equations * 3 > tables.log.len() || failed != raised {
        faults.push(format!("the equations in the log: {failed} fail, and {raised} errors are theirs"));
    }
    faults
}

/// How many inputs the made types have.
fn inputs(checked: &Checked) -> usize {
    let of = |made| match made {
        Made::Lambda { inputs, .. } => inputs.len(),
        _ => 0,
    };
    checked.types().map(of).sum()
}

/// The first table that is not 0 behind what is in use.
fn not_zero(counts: &Counts, inputs: usize, t: &Tables) -> Option<&'static str> {
    let rows = [counts.types, counts.defs, counts.insts, counts.binds, counts.nodes];
    let rows =
        rows.iter().zip(REGIONS).all(|(used, (first, most))| zero(&t.rows[5 * (first + used)..5 * (first + most)]));
    let made = zero(&t.types[5 * counts.made..INPUTS_FROM]) && zero(&t.types[INPUTS_FROM + inputs..]);
    let all = [
        ("the table of rows", rows && zero(&t.rows[5 * (FN + 1)..])),
        ("the table of cells", zero(&t.cells[3 * counts.fields..])),
        ("the table of nodes", zero(&t.nodes[6 * counts.nodes..])),
        ("the table of variables", zero(&t.vars[6 * counts.vars..])),
        ("the table of made types", made),
        ("the table of errors", zero_errors(&t.errors[counts.errors..])),
        ("the log", zero(&t.log[(3 * counts.equations).min(t.log.len())..])),
        ("the memory", zero(t.memory)),
    ];
    all.into_iter().find(|(_, good)| !good).map(|(table, _)| table)
}

/// How many `type`, `def`, `inst`, `bind` and `node` lines a body has, and how many fields in all.
fn lines_and_fields(body: &[u8]) -> [usize; 6] {
    let mut counts = [0; 6];
    for line in body.split(|b| *b == b'\n').filter(|line| !line.is_empty()) {
        let equals = line.iter().position(|b| *b == b'=').unwrap_or(line.len());
        let key = [&b"type"[..], b"def", b"inst", b"bind", b"node"].iter().position(|key| *key == &line[..equals]);
        if let Some(key) = key {
            counts[key] += 1;
        }
        let commas = line.iter().filter(|b| **b == b',').count();
        // The word of a `type` or `node` line is no field, and an `inst` may have none.
        counts[5] += match key {
            Some(0 | 4) => commas,
            Some(2) if line.len() == equals + 1 => 0,
            _ => commas + 1,
        };
    }
    counts
}

/// The report of a body that is answered 0, from the typed views.
pub fn report(checked: &Checked) -> String {
    let mut text = "answer=0,-\n".to_string();
    write(&mut text, checked).expect("a string takes all");
    text
}

fn write(out: &mut String, checked: &Checked) -> std::fmt::Result {
    writeln!(out, "types={}", checked.types().len())?;
    for made in checked.types() {
        match made {
            Made::Instance(inst) => writeln!(out, "type=inst,{inst}"),
            Made::FnDef(def) => writeln!(out, "type=fn,{def}"),
            Made::Array(element) => writeln!(out, "type=array,{element}"),
            Made::Var(variable) => writeln!(out, "type=var,{variable}"),
            Made::Lambda { node, output, inputs } => writeln!(out, "type=lambda,{node},{output}{}", list(inputs)),
            Made::Ref(inner) => writeln!(out, "type=ref,{inner}"),
        }?;
    }
    writeln!(out, "vars={}", checked.vars().len())?;
    for var in checked.vars() {
        let kind = match var.kind {
            Kind::Any => "any",
            Kind::Int => "int",
            Kind::Float => "float",
        };
        writeln!(out, "var={kind},{},{}", or_absent(var.bound), or_absent(var.origin))?;
    }
    for node in checked.nodes() {
        writeln!(out, "node={},{},{}", or_absent(node.raw), or_absent(node.fin), extra(node.extra))?;
    }
    writeln!(out, "errors={}", checked.errors().len())?;
    for error in checked.errors() {
        let p = match error.span {
            Span::Node(node) => node.to_string(),
            Span::BindItem(def) => format!("d{def}"),
            Span::Signature => "sig".to_string(),
        };
        let (kind, cause) = (error.kind.number(), error.cause.number());
        writeln!(out, "error={kind},{cause},{p},{}{}", or_absent(error.second), list(&error.values))?;
    }
    Ok(())
}

fn or_absent(value: Option<impl Display>) -> String {
    value.map_or("-".to_string(), |value| value.to_string())
}

/// `,X` for each.
fn list(values: &[u16]) -> String {
    values.iter().map(|value| format!(",{value}")).collect()
}

fn extra(extra: Extra) -> String {
    match extra {
        Extra::None => "-".to_string(),
        Extra::Local(node) => format!("l{node}"),
        Extra::Fn(def) => format!("f{def}"),
        Extra::Constructor(def) => format!("c{def}"),
        Extra::Instance(inst) => format!("i{inst}"),
        Extra::Error => "e".to_string(),
        Extra::Other => "o".to_string(),
        Extra::Let(number) | Extra::Method(number) => number.to_string(),
    }
}

#[cfg(test)]
mod tests {
    use super::*;
    use nunthila::Checker;

    /// Rows of each key, made types with inputs, variables, errors with and without an equation.
    const BODY: &str = "type=array,8\ndef=14,8\ninst=\ninst=1:8,2:14\nbind=8,3:0\nnode=int\nnode=bool\nnode=assign,0,1\n\
                        node=param,-\nnode=bool\nnode=lambda,-,4,3\nnode=path,f0,1,1:f0\nnode=path,i1,1\nnode=list,6\n\
                        node=int\nnode=un,r,9\nnode=float\nnode=call,11\nnode=block,-,2,5,7,8,10,12\nfn=0,13\n";

    fn copies(t: &Tables) -> ([Vec<u16>; 7], Vec<ErrorRow>) {
        ([t.rows, t.cells, t.nodes, t.vars, t.types, t.log, t.memory].map(<[u16]>::to_vec), t.errors.to_vec())
    }

    fn tables<'a>(cells: &'a [Vec<u16>; 7], errors: &'a [ErrorRow]) -> Tables<'a> {
        let [rows, cells, nodes, vars, types, log, memory] = cells;
        Tables { rows, cells, nodes, vars, types, errors, log, memory }
    }

    #[test]
    fn a_cell_behind_the_end_is_told() {
        let mut checker = Checker::with_log(2_048);
        let checked = checker.check(BODY.as_bytes());
        let counts = checked.counts();
        let (mut cells, mut errors) = copies(&checked.tables());
        assert!(counts.types > 0 && counts.defs > 0 && counts.insts > 0 && counts.binds > 0 && inputs(&checked) > 0);
        assert_eq!(not_zero(&counts, inputs(&checked), &tables(&cells, &errors)), None);

        let mut told = |table: usize, cell: usize| {
            let before = std::mem::replace(&mut cells[table][cell], 1);
            let told = not_zero(&counts, inputs(&checked), &tables(&cells, &errors));
            cells[table][cell] = before;
            told
        };
        // The first cell behind the end, and the last of the table.
        let last = |table: &[u16]| table.len() - 1;
        let t = checked.tables();
        for (first, most) in REGIONS.iter().zip([counts.types, counts.defs, counts.insts, counts.binds, counts.nodes]) {
            assert_eq!(told(0, 5 * (first.0 + most)), Some("the table of rows"));
            assert_eq!(told(0, 5 * (first.0 + first.1) - 1), Some("the table of rows"));
        }
        assert_eq!(told(1, 3 * counts.fields), Some("the table of cells"));
        assert_eq!(told(1, last(t.cells)), Some("the table of cells"));
        assert_eq!(told(2, 6 * counts.nodes), Some("the table of nodes"));
        assert_eq!(told(2, last(t.nodes)), Some("the table of nodes"));
        assert_eq!(told(3, 6 * counts.vars), Some("the table of variables"));
        assert_eq!(told(3, last(t.vars)), Some("the table of variables"));
        assert_eq!(told(4, 5 * counts.made), Some("the table of made types"));
        assert_eq!(told(4, INPUTS_FROM - 1), Some("the table of made types"));
        assert_eq!(told(4, INPUTS_FROM + inputs(&checked)), Some("the table of made types"));
        assert_eq!(told(4, last(t.types)), Some("the table of made types"));
        assert_eq!(told(5, 3 * counts.equations), Some("the log"));
        assert_eq!(told(5, last(t.log)), Some("the log"));
        assert_eq!(told(6, 0), Some("the memory"));
        assert_eq!(told(6, last(t.memory)), Some("the memory"));
        // A cell in use is not.
        assert_eq!(told(2, 6 * counts.nodes - 1), None);
        for row in [counts.errors, t.errors.len() - 1] {
            errors[row].c = 1;
            let told = not_zero(&counts, inputs(&checked), &tables(&cells, &errors));
            assert_eq!(told, Some("the table of errors"));
            errors[row].c = 0;
        }
    }

    #[test]
    fn every_cell_counts_where_all_have_to_be_zero() {
        let mut checker = Checker::with_log(2_048);
        let checked = checker.check(b"");
        let (mut cells, mut errors) = copies(&checked.tables());
        assert!(all_zero(&tables(&cells, &errors)));
        for table in 0..cells.len() {
            for cell in [0, 255, 256, cells[table].len() - 1] {
                cells[table][cell] = 1;
                assert!(!all_zero(&tables(&cells, &errors)), "table {table}, cell {cell}");
                cells[table][cell] = 0;
            }
        }
        errors[4_095].b = 1;
        assert!(!all_zero(&tables(&cells, &errors)));
    }

    #[test]
    fn another_body_and_another_text_are_told() {
        let mut checker = Checker::with_log(2_048);
        let mut out = vec![0; 65_536];
        let reported = checker.report(BODY.as_bytes(), &mut out);
        let text = &out[..reported.length().unwrap()];
        assert_eq!(faults(&reported, BODY.as_bytes(), text), Vec::<String>::new());
        for (old, new) in
            [("inst=\n", ""), ("node=int\n", "node=int\nnode=int\n"), ("1:8,2:14", "1:8"), ("bind=8,3:0\n", "")]
        {
            let told = faults(&reported, BODY.replacen(old, new, 1).as_bytes(), text);
            assert!(told.len() == 1 && told[0].starts_with("counts "), "{told:?}");
        }
        let told = faults(&reported, BODY.as_bytes(), &text[1..]);
        assert!(told.len() == 1 && told[0].starts_with("the views "), "{told:?}");
    }

    /// A log that is too short is told, since not every equation is seen.
    #[test]
    fn a_short_log_is_told() {
        let mut checker = Checker::with_log(1);
        let mut out = vec![0; 65_536];
        let reported = checker.report(BODY.as_bytes(), &mut out);
        let told = faults(&reported, BODY.as_bytes(), &out[..reported.length().unwrap()]);
        assert!(told.len() == 1 && told[0].starts_with("the equations "), "{told:?}");
    }
}
