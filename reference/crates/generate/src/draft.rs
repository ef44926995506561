//! A body before it is written: its rows, its nodes, and the text made of them.

use crate::random::Random;
use std::collections::HashMap;
use std::fmt::Write;

pub const NIL: u16 = 0;
pub const BOOL: u16 = 1;
pub const U64: u16 = 5;
pub const I32: u16 = 8;
pub const F64: u16 = 11;
pub const ERR: u16 = 12;
/// The number of the first `type` row.
pub const FIRST_ROW: u16 = 14;
/// The most nodes a body may have.
pub const MAX_NODES: usize = 1024;
/// The most items of a list, block, call, path, inst or bind.
pub const MAX_ITEMS: usize = 64;
/// The most levels of `fun` in `fun`.
pub const MAX_FUN_LEVELS: usize = 4;

/// One `type` row.
#[derive(Clone, PartialEq, Eq, Hash)]
pub enum Row {
    Array(u16),
    /// Span, output, inputs.
    Fun(u16, u16, Vec<u16>),
    Inst(usize),
    Fn(usize),
}

/// What a path, or a segment of one, stands for.
#[derive(Clone, Copy, PartialEq)]
pub enum Res {
    Local(usize),
    Fun(usize),
    Ctor(usize),
    Inst(usize),
    Error,
    Other,
}

/// One `node` row.
#[derive(Clone)]
pub enum Node {
    Bool,
    Int,
    Float,
    Str,
    Bin(char, usize, usize),
    Un(char, usize),
    Field(usize, u16),
    List(Vec<usize>),
    Index(usize, usize),
    Assign(usize, usize),
    OpAssign(usize, usize),
    If(usize, usize, Option<usize>),
    Loop(usize),
    Break,
    Call(usize, Vec<usize>),
    Method(usize, u16, Vec<usize>),
    Return(Option<usize>),
    Block(Option<usize>, Vec<usize>),
    Let(Option<u16>, Option<usize>),
    Param(Option<u16>),
    Lambda(Option<u16>, usize, Vec<usize>),
    Path(Res, usize, Vec<(u16, Res)>),
}

/// A body: its declarations, its nodes and its `fn` line.
#[derive(Default)]
pub struct Draft {
    pub types: Vec<Row>,
    numbers: HashMap<Row, u16>,
    /// Output first, then inputs.
    pub defs: Vec<Vec<u16>>,
    pub insts: Vec<Vec<(u16, u16)>>,
    pub binds: Vec<(u16, Vec<(u16, usize)>)>,
    pub nodes: Vec<Node>,
    pub result: u16,
    pub params: Vec<usize>,
}

impl Node {
    /// Calls `visit` on each child.
    fn each_child(&mut self, mut visit: impl FnMut(&mut usize)) {
        match self {
            Node::Bin(_, a, b) | Node::Index(a, b) | Node::Assign(a, b) | Node::OpAssign(a, b) => {
                visit(a);
                visit(b);
            }
            Node::Un(_, a) | Node::Field(a, _) | Node::Loop(a) => visit(a),
            Node::List(items) => items.iter_mut().for_each(visit),
            Node::If(a, b, other) => {
                visit(a);
                visit(b);
                other.iter_mut().for_each(visit);
            }
            Node::Call(a, items) | Node::Method(a, _, items) | Node::Lambda(_, a, items) => {
                visit(a);
                items.iter_mut().for_each(visit);
            }
            Node::Return(a) | Node::Let(_, a) => a.iter_mut().for_each(visit),
            Node::Block(tail, items) => {
                tail.iter_mut().for_each(&mut visit);
                items.iter_mut().for_each(visit);
            }
            _ => {}
        }
    }

    /// Calls `visit` on each local that a path names.
    fn each_local(&mut self, mut visit: impl FnMut(&mut usize)) {
        if let Node::Path(res, _, segments) = self {
            let all = std::iter::once(res).chain(segments.iter_mut().map(|s| &mut s.1));
            for named in all {
                if let Res::Local(node) = named {
                    visit(node);
                }
            }
        }
    }
}

impl Draft {
    /// The number of a row: that of an equal one, else a new one.
    /// A row with too many levels of `fun` becomes i32.
    pub fn row(&mut self, row: Row) -> u16 {
        if let Some(&number) = self.numbers.get(&row) {
            return number;
        }
        if self.levels_of(&row) > MAX_FUN_LEVELS || self.types.len() >= 512 {
            return I32;
        }
        let number = FIRST_ROW + self.types.len() as u16;
        self.numbers.insert(row.clone(), number);
        self.types.push(row);
        number
    }

    /// The number of a row that is already there.
    pub fn find(&self, row: &Row) -> Option<u16> {
        self.numbers.get(row).copied()
    }

    /// The row behind a type number, if it is not one of the first 14.
    pub fn row_of(&self, number: u16) -> Option<&Row> {
        self.types.get(usize::from(number.checked_sub(FIRST_ROW)?))
    }

    fn levels_of(&self, row: &Row) -> usize {
        match row {
            Row::Array(element) => self.fun_levels(*element),
            Row::Fun(_, output, inputs) => {
                let inner = inputs.iter().chain([output]);
                1 + inner.map(|t| self.fun_levels(*t)).max().unwrap_or(0)
            }
            _ => 0,
        }
    }

    /// How many levels of `fun` a type has, arrays not counted.
    pub fn fun_levels(&self, number: u16) -> usize {
        self.row_of(number).map_or(0, |row| self.levels_of(row))
    }

    /// True for types without `fun` and `fn`: two equal ones meet.
    pub fn is_plain(&self, number: u16) -> bool {
        match self.row_of(number) {
            None | Some(Row::Inst(_)) => true,
            Some(Row::Array(element)) => self.is_plain(*element),
            Some(_) => false,
        }
    }

    /// True for an array of a `fun`: a bind on it serves every array.
    pub fn is_array_of_fun(&self, number: u16) -> bool {
        match self.row_of(number) {
            Some(Row::Array(element)) => matches!(self.row_of(*element), Some(Row::Fun(..))),
            _ => false,
        }
    }

    /// The method a receiver of this type finds, in file order.
    pub fn method(&self, receiver: u16, name: u16) -> Option<usize> {
        let array = matches!(self.row_of(receiver), Some(Row::Array(_)));
        let serves = |on: u16| on == receiver || (array && self.is_array_of_fun(on));
        let serving = self.binds.iter().filter(|bind| serves(bind.0));
        let mut items = serving.flat_map(|bind| bind.1.iter());
        items.find(|item| item.0 == name).map(|item| item.1)
    }

    /// Numbers the nodes anew in a random order that the rules allow.
    pub fn renumber(&mut self, random: &mut Random) {
        let count = self.nodes.len();
        let window = random.pick(&[2, 8, count]);
        let (mut waits, users) = self.dependencies();
        let mut ready: Vec<usize> = (0..count - 1).filter(|&n| waits[n] == 0).collect();
        ready.reverse();
        let mut places = vec![count - 1; count];
        for place in 0..count - 1 {
            let back = random.below(window.min(ready.len()));
            let node = ready.remove(ready.len() - 1 - back);
            places[node] = place;
            for &user in &users[node] {
                waits[user] -= 1;
                if waits[user] == 0 && user != count - 1 {
                    ready.push(user);
                }
            }
        }
        self.move_nodes(&places);
    }

    /// For each node: how many others must come before it, and who waits for it.
    fn dependencies(&mut self) -> (Vec<usize>, Vec<Vec<usize>>) {
        let count = self.nodes.len();
        let mut waits = vec![0; count];
        let mut users = vec![Vec::new(); count];
        for (number, node) in self.nodes.iter_mut().enumerate() {
            let mut note = |other: &mut usize| {
                waits[number] += 1;
                users[*other].push(number);
            };
            node.each_child(&mut note);
            node.each_local(&mut note);
        }
        (waits, users)
    }

    fn move_nodes(&mut self, places: &[usize]) {
        let mut moved = vec![Node::Break; places.len()];
        for (number, mut node) in std::mem::take(&mut self.nodes).into_iter().enumerate() {
            node.each_child(|child| *child = places[*child]);
            node.each_local(|local| *local = places[*local]);
            moved[places[number]] = node;
        }
        self.nodes = moved;
        for param in &mut self.params {
            *param = places[*param];
        }
    }

    /// The body file.
    pub fn text(&self) -> Vec<u8> {
        let mut text = String::new();
        for row in &self.types {
            write_row(&mut text, row);
        }
        for def in &self.defs {
            text.push_str("def=");
            numbers(&mut text, def);
            text.push('\n');
        }
        for inst in &self.insts {
            let fields: Vec<String> = inst.iter().map(|(n, t)| format!("{n}:{t}")).collect();
            let _ = writeln!(text, "inst={}", fields.join(","));
        }
        for (on, items) in &self.binds {
            let _ = write!(text, "bind={on}");
            for (name, def) in items {
                let _ = write!(text, ",{name}:{def}");
            }
            text.push('\n');
        }
        for node in &self.nodes {
            text.push_str("node=");
            write_node(&mut text, node);
            text.push('\n');
        }
        let _ = write!(text, "fn={},{}", self.result, self.nodes.len() - 1);
        items(&mut text, &self.params);
        text.push('\n');
        text.into_bytes()
    }
}

fn numbers(text: &mut String, values: &[u16]) {
    for (position, value) in values.iter().enumerate() {
        let comma = if position == 0 { "" } else { "," };
        let _ = write!(text, "{comma}{value}");
    }
}

fn items(text: &mut String, nodes: &[usize]) {
    for node in nodes {
        let _ = write!(text, ",{node}");
    }
}

fn optional<T: std::fmt::Display>(value: &Option<T>) -> String {
    value.as_ref().map_or("-".to_string(), T::to_string)
}

fn write_row(text: &mut String, row: &Row) {
    let _ = match row {
        Row::Array(element) => write!(text, "type=array,{element}"),
        Row::Fun(span, output, _) => write!(text, "type=fun,{span},{output}"),
        Row::Inst(inst) => write!(text, "type=inst,{inst}"),
        Row::Fn(def) => write!(text, "type=fn,{def}"),
    };
    if let Row::Fun(_, _, inputs) = row {
        for input in inputs {
            let _ = write!(text, ",{input}");
        }
    }
    text.push('\n');
}

fn write_res(text: &mut String, res: &Res) {
    let _ = match res {
        Res::Local(node) => write!(text, "l{node}"),
        Res::Fun(def) => write!(text, "f{def}"),
        Res::Ctor(def) => write!(text, "c{def}"),
        Res::Inst(inst) => write!(text, "i{inst}"),
        Res::Error => write!(text, "e"),
        Res::Other => write!(text, "o"),
    };
}

fn write_node(text: &mut String, node: &Node) {
    let _ = match node {
        Node::Bool => write!(text, "bool"),
        Node::Int => write!(text, "int"),
        Node::Float => write!(text, "float"),
        Node::Str => write!(text, "str"),
        Node::Break => write!(text, "break"),
        Node::Bin(op, a, b) => write!(text, "bin,{op},{a},{b}"),
        Node::Un(op, a) => write!(text, "un,{op},{a}"),
        Node::Field(a, name) => write!(text, "field,{a},{name}"),
        Node::List(_) => write!(text, "list"),
        Node::Index(a, b) => write!(text, "index,{a},{b}"),
        Node::Assign(a, b) => write!(text, "assign,{a},{b}"),
        Node::OpAssign(a, b) => write!(text, "opassign,{a},{b}"),
        Node::If(a, b, other) => write!(text, "if,{a},{b},{}", optional(other)),
        Node::Loop(a) => write!(text, "loop,{a}"),
        Node::Call(a, _) => write!(text, "call,{a}"),
        Node::Method(a, name, _) => write!(text, "mcall,{a},{name}"),
        Node::Return(a) => write!(text, "return,{}", optional(a)),
        Node::Block(tail, _) => write!(text, "block,{}", optional(tail)),
        Node::Let(ty, init) => write!(text, "let,{},{}", optional(ty), optional(init)),
        Node::Param(ty) => write!(text, "param,{}", optional(ty)),
        Node::Lambda(output, body, _) => write!(text, "lambda,{},{body}", optional(output)),
        Node::Path(res, resolved, segments) => {
            return write_path(text, res, *resolved, segments);
        }
    };
    match node {
        Node::List(list) | Node::Call(_, list) | Node::Method(_, _, list) => items(text, list),
        Node::Block(_, list) | Node::Lambda(_, _, list) => items(text, list),
        _ => {}
    }
}

fn write_path(text: &mut String, res: &Res, resolved: usize, segments: &[(u16, Res)]) {
    text.push_str("path,");
    write_res(text, res);
    let _ = write!(text, ",{resolved}");
    for (name, segment) in segments {
        let _ = write!(text, ",{name}:");
        write_res(text, segment);
    }
}
