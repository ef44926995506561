//! A body before it is written: its rows, its nodes, and the text made of them.
use std::fmt::Write;

pub const NIL: u16 = 0;
pub const BOOL: u16 = 1;
pub const U64: u16 = 5;
pub const I32: u16 = 8;
pub const F64: u16 = 11;
/// The number of the first `type` row.
pub const FIRST_ROW: u16 = 14;

/// A `type` row.
#[derive(Clone, PartialEq)]
pub enum Row {
    Array(u16),
    /// SPAN, output, inputs.
    Fun(u16, u16, Vec<u16>),
    Inst(usize),
}

/// What a path stands for.
#[derive(Clone, Copy, PartialEq)]
pub enum Res {
    Local(usize),
    Fun(usize),
    Inst(usize),
}

/// A `node` row.
#[derive(Clone)]
pub enum Node {
    Bool,
    Int,
    Float,
    Bin(char, usize, usize),
    Un(char, usize),
    Field(usize, u16),
    List(Vec<usize>),
    Index(usize, usize),
    Assign(usize, usize),
    OpAssign(usize, usize),
    If(usize, usize, Option<usize>),
    Loop(usize),
    Break,
    Call(usize, Vec<usize>),
    Method(usize, u16, Vec<usize>),
    Return(Option<usize>),
    Block(Option<usize>, Vec<usize>),
    Let(Option<u16>, Option<usize>),
    Param(Option<u16>),
    Lambda(Option<u16>, usize, Vec<usize>),
    /// The name of the last segment.
    Path(Res, u16),
    /// A path to a local, without segments.
    Local(usize),
}

#[derive(Clone, Default)]
pub struct Draft {
    pub types: Vec<Row>,
    /// Output first, then inputs.
    pub defs: Vec<Vec<u16>>,
    pub insts: Vec<Vec<(u16, u16)>>,
    pub binds: Vec<(u16, Vec<(u16, usize)>)>,
    pub nodes: Vec<Node>,
    pub result: u16,
    pub params: Vec<usize>,
}

impl Draft {
    pub fn emit(&mut self, node: Node) -> usize {
        self.nodes.push(node);
        self.nodes.len() - 1
    }

    /// A new row, its number.
    pub fn row(&mut self, row: Row) -> u16 {
        self.types.push(row);
        FIRST_ROW + self.types.len() as u16 - 1
    }

    pub fn row_of(&self, ty: u16) -> Option<&Row> {
        self.types.get(usize::from(ty.checked_sub(FIRST_ROW)?))
    }

    /// The number of a row that stands already.
    pub fn find(&self, row: &Row) -> Option<u16> {
        self.types.iter().position(|r| r == row).map(|at| FIRST_ROW + at as u16)
    }

    /// A path of one segment to a local.
    pub fn local(&mut self, node: usize) -> usize {
        self.emit(Node::Path(Res::Local(node), node as u16))
    }

    /// Drops the declarations that the nodes do not need: a body file has those of the script that names them.
    pub fn drop_unused(&mut self) {
        let mut need = Need {
            types: vec![false; self.types.len()],
            defs: vec![false; self.defs.len()],
            insts: vec![false; self.insts.len()],
            binds: vec![false; self.binds.len()],
        };
        need.ty(self, self.result);
        for node in &self.nodes {
            need.node(self, node);
        }
        // The methods and fields of what is needed may need more.
        loop {
            let before = need.count();
            for d in 0..self.defs.len() {
                if need.defs[d] {
                    self.defs[d].iter().for_each(|t| need.ty(self, *t));
                }
            }
            for k in 0..self.insts.len() {
                if need.insts[k] {
                    self.insts[k].iter().for_each(|f| need.ty(self, f.1));
                }
            }
            for b in 0..self.binds.len() {
                if need.binds[b] {
                    need.ty(self, self.binds[b].0);
                    self.binds[b].1.iter().for_each(|m| need.defs[m.1] = true);
                }
            }
            if need.count() == before {
                break;
            }
        }
        self.keep(&need);
    }

    fn keep(&mut self, need: &Need) {
        let (types, defs, insts) = (places(&need.types), places(&need.defs), places(&need.insts));
        let ty = |t: u16| match t.checked_sub(FIRST_ROW) {
            None => t,
            Some(at) => FIRST_ROW + types[usize::from(at)] as u16,
        };
        retain(&mut self.types, &need.types);
        retain(&mut self.defs, &need.defs);
        retain(&mut self.insts, &need.insts);
        retain(&mut self.binds, &need.binds);
        for row in &mut self.types {
            match row {
                Row::Array(e) => *e = ty(*e),
                Row::Fun(_, output, inputs) => {
                    *output = ty(*output);
                    inputs.iter_mut().for_each(|i| *i = ty(*i));
                }
                Row::Inst(k) => *k = insts[*k],
            }
        }
        self.defs.iter_mut().flatten().for_each(|t| *t = ty(*t));
        self.insts.iter_mut().flatten().for_each(|f| f.1 = ty(f.1));
        for (on, methods) in &mut self.binds {
            *on = ty(*on);
            methods.iter_mut().for_each(|m| m.1 = defs[m.1]);
        }
        for node in &mut self.nodes {
            match node {
                Node::Let(Some(t), _) | Node::Param(Some(t)) | Node::Lambda(Some(t), ..) => *t = ty(*t),
                Node::Path(Res::Fun(d), _) => *d = defs[*d],
                Node::Path(Res::Inst(k), _) => *k = insts[*k],
                _ => {}
            }
        }
        self.result = ty(self.result);
    }

    /// The body file.
    pub fn text(&self) -> Vec<u8> {
        let mut out = String::new();
        for row in &self.types {
            let _ = match row {
                Row::Array(e) => writeln!(out, "type=array,{e}"),
                Row::Fun(span, output, inputs) => writeln!(out, "type=fun,{span},{output}{}", after(inputs)),
                Row::Inst(k) => writeln!(out, "type=inst,{k}"),
            };
        }
        for def in &self.defs {
            let _ = writeln!(out, "def={}{}", def[0], after(&def[1..]));
        }
        for inst in &self.insts {
            let fields: Vec<String> = inst.iter().map(|(n, t)| format!("{n}:{t}")).collect();
            let _ = writeln!(out, "inst={}", fields.join(","));
        }
        for (on, methods) in &self.binds {
            let methods: String = methods.iter().map(|(n, d)| format!(",{n}:{d}")).collect();
            let _ = writeln!(out, "bind={on}{methods}");
        }
        for node in &self.nodes {
            let _ = writeln!(out, "node={}", node_text(node));
        }
        let _ = writeln!(out, "fn={},{}{}", self.result, self.nodes.len() - 1, after(&self.params));
        out.into_bytes()
    }
}

/// Which rows a body needs.
struct Need {
    types: Vec<bool>,
    defs: Vec<bool>,
    insts: Vec<bool>,
    binds: Vec<bool>,
}

impl Need {
    fn count(&self) -> usize {
        let count = |of: &[bool]| of.iter().filter(|b| **b).count();
        count(&self.types) + count(&self.defs) + count(&self.insts) + count(&self.binds)
    }

    fn ty(&mut self, draft: &Draft, t: u16) {
        let Some(row) = draft.row_of(t) else {
            return;
        };
        self.types[usize::from(t - FIRST_ROW)] = true;
        match row {
            Row::Array(e) => self.ty(draft, *e),
            Row::Fun(_, output, inputs) => {
                self.ty(draft, *output);
                inputs.iter().for_each(|i| self.ty(draft, *i));
            }
            Row::Inst(k) => self.insts[*k] = true,
        }
    }

    fn node(&mut self, draft: &Draft, node: &Node) {
        match node {
            Node::Let(Some(t), _) | Node::Param(Some(t)) | Node::Lambda(Some(t), ..) => self.ty(draft, *t),
            Node::Path(Res::Fun(d), _) => self.defs[*d] = true,
            Node::Path(Res::Inst(k), _) => self.insts[*k] = true,
            Node::Method(_, name, _) => {
                for (b, (_, methods)) in draft.binds.iter().enumerate() {
                    self.binds[b] |= methods.iter().any(|m| m.0 == *name);
                }
            }
            _ => {}
        }
    }
}

/// The new number of each row that is kept.
fn places(kept: &[bool]) -> Vec<usize> {
    let mut next = 0;
    kept.iter()
        .map(|k| {
            next += usize::from(*k);
            next - usize::from(*k)
        })
        .collect()
}

fn retain<T>(rows: &mut Vec<T>, kept: &[bool]) {
    let mut kept = kept.iter();
    rows.retain(|_| *kept.next().unwrap());
}

/// Items, each behind a comma.
fn after<T: std::fmt::Display>(items: &[T]) -> String {
    items.iter().map(|i| format!(",{i}")).collect()
}

fn optional<T: std::fmt::Display>(value: &Option<T>) -> String {
    value.as_ref().map_or("-".to_string(), T::to_string)
}

fn node_text(node: &Node) -> String {
    match node {
        Node::Bool => "bool".to_string(),
        Node::Int => "int".to_string(),
        Node::Float => "float".to_string(),
        Node::Break => "break".to_string(),
        Node::Bin(op, a, b) => format!("bin,{op},{a},{b}"),
        Node::Un(op, a) => format!("un,{op},{a}"),
        Node::Field(a, name) => format!("field,{a},{name}"),
        Node::List(items) => format!("list{}", after(items)),
        Node::Index(a, b) => format!("index,{a},{b}"),
        Node::Assign(a, b) => format!("assign,{a},{b}"),
        Node::OpAssign(a, b) => format!("opassign,{a},{b}"),
        Node::If(a, b, other) => format!("if,{a},{b},{}", optional(other)),
        Node::Loop(a) => format!("loop,{a}"),
        Node::Call(f, args) => format!("call,{f}{}", after(args)),
        Node::Method(r, name, args) => format!("mcall,{r},{name}{}", after(args)),
        Node::Return(a) => format!("return,{}", optional(a)),
        Node::Block(tail, items) => format!("block,{}{}", optional(tail), after(items)),
        Node::Let(ty, init) => format!("let,{},{}", optional(ty), optional(init)),
        Node::Param(ty) => format!("param,{}", optional(ty)),
        Node::Lambda(output, body, params) => format!("lambda,{},{body}{}", optional(output), after(params)),
        Node::Path(res, name) => {
            let res = match res {
                Res::Local(n) => format!("l{n}"),
                Res::Fun(d) => format!("f{d}"),
                Res::Inst(k) => format!("i{k}"),
            };
            format!("path,{res},1,{name}:{res}")
        }
        Node::Local(n) => format!("path,l{n},1"),
    }
}
