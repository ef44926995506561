//! What occurs in a body and its report, in words: a sample is chosen and counted by them.
use body::{Body, Node, Res, Type};
use original::{Outcome, Run};
use std::collections::BTreeSet;

/// The word of a node's form, with OP and with which of its parts are there.
pub fn kind(n: &Node) -> String {
    let there = |x: &Option<usize>| if x.is_some() { "+" } else { "-" };
    match n {
        Node::Bool => "bool".into(),
        Node::Int => "int".into(),
        Node::Float => "float".into(),
        Node::Str => "str".into(),
        Node::Bin(op, ..) => format!("bin {op:?}"),
        Node::Un(op, _) => format!("un {op:?}"),
        Node::Field(..) => "field".into(),
        Node::List(v) => format!("list {}", v.len().min(2)),
        Node::Index { .. } => "index".into(),
        Node::Assign(..) => "assign".into(),
        Node::OpAssign(..) => "opassign".into(),
        Node::If { otherwise, .. } => format!("if {}", there(otherwise)),
        Node::Loop(_) => "loop".into(),
        Node::Break => "break".into(),
        Node::Call(_, v) => format!("call {}", v.len().min(3)),
        Node::MethodCall { args, .. } => format!("mcall {}", args.len().min(2)),
        Node::Return(e) => format!("return {}", there(e)),
        Node::Block { tail, statements } => format!("block {} {}", there(tail), statements.len().min(2)),
        Node::Let { ty, init } => format!("let {}{}", there(ty), there(init)),
        Node::Param(t) => format!("param {}", there(t)),
        Node::Lambda { output, params, .. } => format!("lambda {} {}", there(output), params.len().min(2)),
        Node::Path { res, segments, .. } => format!("path {} {}", letter(*res), failed(segments)),
    }
}

fn letter(r: Res) -> char {
    match r {
        Res::Local(_) => 'l',
        Res::Fun(_) => 'f',
        Res::Ctor(_) => 'c',
        Res::Inst(_) => 'i',
        Res::Error => 'e',
        Res::Other => 'o',
    }
}

fn failed(segments: &[(u32, Res)]) -> &'static str {
    match segments {
        [] => "none",
        _ if segments.iter().any(|(_, r)| *r == Res::Error) => "failed",
        _ => "whole",
    }
}

/// Why a walk was refused 10 or 11 at a node.
fn reason(n: &Node) -> String {
    match n {
        Node::Path { res: Res::Inst(_), resolved, segments } if failed(segments) == "failed" => {
            if *resolved >= segments.len() {
                "RESOLVED".into()
            } else {
                format!("last segment {}", segments.last().map_or('-', |s| letter(s.1)))
            }
        }
        other => kind(other),
    }
}

/// All that occurs.
pub fn of(b: &Body, run: &Run) -> BTreeSet<String> {
    let mut all: BTreeSet<String> = run.branches.iter().map(|x| format!("unify {x:?}")).collect();
    match &run.outcome {
        // Its tables are not seen, so its nodes do not count as typed.
        Outcome::Refused(answer, node) => {
            let why = if *answer == 13 { kind(&b.nodes[*node]) } else { reason(&b.nodes[*node]) };
            all.insert(format!("answer {answer} {why}"));
        }
        Outcome::Report(text) => {
            all.insert("answer 0".into());
            let r = Report::of(b, text);
            r.variables(&mut all);
            (0..b.nodes.len()).for_each(|n| r.node(n, &mut all));
            r.errors(&mut all);
            for e in &run.entries {
                all.insert(format!("pair {} and {}", r.exact(e.expected), r.exact(e.got)));
            }
        }
        _ => {}
    }
    all
}

const FIXED: [&str; body::FIXED_TYPES] =
    ["nil", "bool", "u8", "u16", "u32", "u64", "i8", "i16", "i32", "i64", "f32", "f64", "err", "diverges"];

/// A report by its rows, and its body.
struct Report<'a> {
    body: &'a Body,
    made: Vec<&'a str>,
    variables: Vec<Vec<&'a str>>,
    nodes: Vec<Vec<&'a str>>,
    errors: Vec<Vec<&'a str>>,
}

impl<'a> Report<'a> {
    fn of(body: &'a Body, text: &'a str) -> Self {
        let rows = |key: &str| -> Vec<&'a str> { text.lines().filter_map(|l| l.strip_prefix(key)).collect() };
        let fields = |key: &str| -> Vec<Vec<&'a str>> { rows(key).iter().map(|r| r.split(',').collect()).collect() };
        Report {
            body,
            made: rows("type="),
            variables: fields("var="),
            nodes: fields("node="),
            errors: fields("error="),
        }
    }

    /// A type in words: a fixed one by its name, a variable by its kind, an array by its element, another by its head.
    fn exact(&self, t: usize) -> String {
        if t < body::FIXED_TYPES {
            return FIXED[t].to_string();
        }
        let element = |e: usize| format!("array of {}", self.head(e));
        match self.body.types.get(t - body::FIXED_TYPES) {
            Some(Type::Array(e)) => element(*e),
            Some(Type::Fun { .. }) => "fun".into(),
            Some(Type::Inst(k)) => format!("inst {}", k.min(&1)),
            Some(Type::Fn(_)) => "fn".into(),
            None => match self.made[t - body::FIXED_TYPES - self.body.types.len()].split(',').collect::<Vec<_>>()[..] {
                ["var", v] => format!("{} variable", self.variables[v.parse::<usize>().unwrap()][0]),
                ["array", e] => element(e.parse().unwrap()),
                ["inst", k] => format!("inst {}", k.parse::<usize>().unwrap().min(1)),
                [head, ..] => head.to_string(),
                [] => unreachable!(),
            },
        }
    }

    /// The same, but for widths and elements.
    fn head(&self, t: usize) -> String {
        match t {
            2..=5 => "uint".into(),
            6..=9 => "int".into(),
            0..body::FIXED_TYPES => FIXED[t].to_string(),
            _ => match self.body.types.get(t - body::FIXED_TYPES) {
                Some(Type::Array(_)) => "array".into(),
                Some(Type::Fun { .. }) => "fun".into(),
                Some(Type::Inst(_)) => "inst".into(),
                Some(Type::Fn(_)) => "fn".into(),
                None => {
                    let row = self.made[t - body::FIXED_TYPES - self.body.types.len()];
                    row.split(',').next().unwrap_or("").to_string()
                }
            },
        }
    }

    /// The head of a field that is a number of a type; another field as it stands.
    fn field(&self, t: &str) -> String {
        t.parse().map_or(t.to_string(), |t| self.head(t))
    }

    fn variables(&self, all: &mut BTreeSet<String>) {
        for v in &self.variables {
            all.insert(format!("var {} bound to {}", v[0], self.field(v[1])));
        }
    }

    fn node(&self, n: usize, all: &mut BTreeSet<String>) {
        let row = &self.nodes[n];
        let kind = kind(&self.body.nodes[n]);
        all.insert(format!("node {kind} {}", if row[0] == "-" { "untyped" } else { "typed" }));
        all.insert(format!("final {} from {}", self.field(row[1]), self.field(row[0])));
        let extra = row[2].chars().next().filter(|c| !c.is_ascii_digit()).unwrap_or('n');
        all.insert(format!("extra {extra} of {}", kind.split(' ').next().unwrap_or("")));
        self.operands(n, all);
    }

    /// What a callee, a receiver, a thing, an operand was.
    fn operands(&self, n: usize, all: &mut BTreeSet<String>) {
        let raw = |m: usize| self.field(self.nodes[m][0]);
        match &self.body.nodes[n] {
            Node::Call(f, _) => {
                all.insert(format!("call of {}", raw(*f)));
            }
            Node::MethodCall { receiver, name, .. } => {
                all.insert(format!("mcall on {} gives {}", raw(*receiver), raw(n)));
                self.binds(*receiver, *name, all);
            }
            Node::Index { thing, .. } => {
                all.insert(format!("index of {}", raw(*thing)));
            }
            Node::Field(e, _) => {
                all.insert(format!("field of {}", raw(*e)));
            }
            Node::Un(op, e) => {
                all.insert(format!("un {op:?} on {}", raw(*e)));
            }
            Node::If { condition, .. } => {
                all.insert(format!("if on {}", raw(*condition)));
            }
            _ => {}
        }
    }

    /// The binds that have a method's name, and the receiver that they are asked for.
    fn binds(&self, receiver: usize, name: u32, all: &mut BTreeSet<String>) {
        let Ok(t) = self.nodes[receiver][0].parse() else { return };
        for (with, items) in &self.body.binds {
            if items.iter().any(|(n, _)| *n == name) {
                let same = if *with == t { "the same" } else { "another" };
                all.insert(format!("bind on {} for {}, {same}", self.exact(*with), self.exact(t)));
            }
        }
    }

    fn errors(&self, all: &mut BTreeSet<String>) {
        for e in &self.errors {
            let at = match e[2].parse::<usize>() {
                Ok(n) => kind(&self.body.nodes[n]).split(' ').next().unwrap_or("").to_string(),
                Err(_) => e[2][..1].to_string(),
            };
            all.insert(format!("error {} cause {}", e[0], e[1]));
            let first = e.get(4).map(|t| self.field(t)).unwrap_or_default();
            all.insert(format!("error {} at {at} with {first}", e[0]));
        }
    }
}
