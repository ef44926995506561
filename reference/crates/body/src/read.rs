//! The reader: document 01, "The body, and where it comes from", and 1 and 3 to 6 of "Declined bodies".
use crate::{Bin, Body, FIXED_TYPES, Node, Refusal, Res, Type, Un};
use std::collections::HashSet;

/// 3: line not of the form or order.
const FORM: u8 = 3;
/// 4: count over a limit.
const COUNT: u8 = 4;
/// 5: a number that breaks a reference rule.
const REFERENCE: u8 = 5;
/// 6: too many levels.
const LEVELS: u8 = 6;

/// "Limits: 65,536 bytes; ...; 64 levels of nodes; 4 of fun in fun".
const MOST_BYTES: usize = 65_536;
const MOST_NODE_LEVELS: usize = 64;
const MOST_FUN_LEVELS: usize = 4;

/// "Keys come in this order".
const KEYS: [&[u8]; 6] = [b"type", b"def", b"inst", b"bind", b"node", b"fn"];

/// The type that may not be written: Diverges.
const DIVERGES: usize = 13;

/// "Check: 1 over 65,536 bytes; ... Then, at the first line at fault".
pub fn read(bytes: &[u8]) -> Result<Body, Refusal> {
    if bytes.len() > MOST_BYTES {
        return Err(Refusal { answer: 1, line: None });
    }
    let at = |answer, line| Refusal { answer, line: Some(line) };
    let mut reader = Reader::default();
    let mut lines = 0;
    for line in bytes.split_inclusive(|&byte| byte == b'\n') {
        lines += 1;
        reader.line(line).map_err(|answer| at(answer, lines))?;
    }
    // "Input that ends before an `fn` line is 3 at the line after its last."
    if !reader.ended {
        return Err(at(FORM, lines + 1));
    }
    // "forward references judged after the last line, before 6". Types come first, so row 0 is line 1.
    if let Some(row) = reader.broken_forward_reference() {
        return Err(at(REFERENCE, row + 1));
    }
    // "6 too many levels", at the `fn` line, which is the last.
    if node_levels(&reader.body) > MOST_NODE_LEVELS || fun_levels(&reader.body) > MOST_FUN_LEVELS {
        return Err(at(LEVELS, lines));
    }
    Ok(reader.body)
}

/// What one line says, by its key.
enum Row {
    Type(Type),
    Def(usize, Vec<usize>),
    Inst(Vec<(u32, usize)>),
    Bind(usize, Vec<(u32, usize)>),
    Node(Node),
    Fn(usize, usize, Vec<usize>),
}

/// Where a child stands, and so what kind of node it must be.
#[derive(Clone, Copy)]
enum Stand {
    Expression,
    Block,
    Statement,
    Param,
}

#[derive(Default)]
struct Reader {
    body: Body,
    /// The `type` rows so far, to find an equal one.
    types: HashSet<Type>,
    /// Whether some line uses this node already, by node.
    used: Vec<bool>,
    /// The place in `KEYS` of the last line's key.
    key: usize,
    /// The `fn` line was read.
    ended: bool,
}

impl Reader {
    /// "3 ...; 4 ...; 5 ...; within one line in that order".
    fn line(&mut self, line: &[u8]) -> Result<(), u8> {
        let row = self.ordered_row(line).ok_or(FORM)?;
        if self.over_a_limit(&row) {
            return Err(COUNT);
        }
        if !self.references_hold(&row) {
            return Err(REFERENCE);
        }
        self.keep(row);
        Ok(())
    }

    /// "`key=value` lines, each ended by a line feed. Keys come in this order: ..., then one `fn`."
    fn ordered_row(&mut self, line: &[u8]) -> Option<Row> {
        let line = line.strip_suffix(b"\n")?;
        let equals = line.iter().position(|&byte| byte == b'=')?;
        let (key, value) = (&line[..equals], &line[equals + 1..]);
        let key = KEYS.iter().position(|&known| known == key)?;
        if self.ended || key < self.key {
            return None;
        }
        self.key = key;
        form(key, value)
    }

    /// "Limits: ... 512 types, 256 defs, 64 insts, 64 binds, 1,024 nodes; 64 items ...; 16 inputs ...".
    fn over_a_limit(&self, row: &Row) -> bool {
        let body = &self.body;
        let (rows_before, most_rows, items, most_items) = match row {
            Row::Type(Type::Fun { inputs, .. }) => (body.types.len(), 512, inputs.len(), 16),
            Row::Type(_) => (body.types.len(), 512, 0, 0),
            Row::Def(_, inputs) => (body.defs.len(), 256, inputs.len(), 16),
            Row::Inst(fields) => (body.insts.len(), 64, fields.len(), 64),
            Row::Bind(_, methods) => (body.binds.len(), 64, methods.len(), 64),
            Row::Node(node) => {
                let (items, most_items) = match node {
                    Node::List(items) | Node::Call(_, items) => (items.len(), 64),
                    Node::MethodCall { args, .. } => (args.len(), 64),
                    Node::Block { statements, .. } => (statements.len(), 64),
                    Node::Path { segments, .. } => (segments.len(), 64),
                    Node::Lambda { params, .. } => (params.len(), 16),
                    _ => (0, 0),
                };
                (body.nodes.len(), 1024, items, most_items)
            }
            Row::Fn(_, _, params) => (0, 1, params.len(), 16),
        };
        rows_before + 1 > most_rows || items > most_items
    }

    /// Every reference rule but that of `type=inst,K` and `type=fn,D`.
    fn references_hold(&mut self, row: &Row) -> bool {
        match row {
            // "E, OUT, IN are lower types. Equal rows and a written type 13 are refused 5."
            Row::Type(ty) => {
                let lower = match ty {
                    Type::Array(element) => self.is_type(*element),
                    Type::Fun { output, inputs, .. } => self.are_types(*output, inputs),
                    Type::Inst(_) | Type::Fn(_) => true,
                };
                lower && self.types.insert(ty.clone())
            }
            Row::Def(output, inputs) => self.are_types(*output, inputs),
            Row::Inst(fields) => fields.iter().all(|&(_, ty)| self.is_type(ty)),
            Row::Bind(ty, methods) => self.is_type(*ty) && methods.iter().all(|&(_, def)| def < self.body.defs.len()),
            Row::Node(node) => self.node_references_hold(node),
            // "`fn=OUT,BODY,P..`; BODY is the last node. ... P of `fn` has a type."
            Row::Fn(output, body, params) => {
                self.is_type(*output)
                    && body + 1 == self.body.nodes.len()
                    && self.take_child(*body, Stand::Expression)
                    && params.iter().all(|&param| {
                        self.take_child(param, Stand::Param) && self.body.nodes[param] != Node::Param(None)
                    })
            }
        }
    }

    /// Types written in a node, what its RES name, and its children.
    fn node_references_hold(&mut self, node: &Node) -> bool {
        let named = match node {
            Node::Let { ty, .. } | Node::Param(ty) => self.is_type_or_absent(*ty),
            Node::Lambda { output, .. } => self.is_type_or_absent(*output),
            Node::Path { res, segments, .. } => {
                self.res_holds(*res) && segments.iter().all(|&(_, res)| self.res_holds(res))
            }
            _ => true,
        };
        let mut children = children(node).into_iter();
        named && children.all(|(child, stand)| self.take_child(child, stand))
    }

    /// A number of a type that stands already; within a `type` line that is a lower one. 13 may not be written.
    fn is_type(&self, ty: usize) -> bool {
        ty < FIXED_TYPES + self.body.types.len() && ty != DIVERGES
    }

    /// `OUT,IN..`.
    fn are_types(&self, output: usize, inputs: &[usize]) -> bool {
        self.is_type(output) && inputs.iter().all(|&input| self.is_type(input))
    }

    /// `TYPE|-`.
    fn is_type_or_absent(&self, ty: Option<usize>) -> bool {
        ty.is_none_or(|ty| self.is_type(ty))
    }

    /// "RES is `lN` (a lower `let` or `param` node), `fD`, `cD`, `iK`, `e` (error) or `o` (any other)."
    fn res_holds(&self, res: Res) -> bool {
        match res {
            Res::Local(node) => matches!(self.body.nodes.get(node), Some(Node::Let { .. } | Node::Param(_))),
            Res::Fun(def) | Res::Ctor(def) => def < self.body.defs.len(),
            Res::Inst(inst) => inst < self.body.insts.len(),
            Res::Error | Res::Other => true,
        }
    }

    /// "A child has a lower number and one parent. ... `let` stands only as S, `param` only as P; BLOCK is a `block`."
    fn take_child(&mut self, child: usize, stand: Stand) -> bool {
        let Some(node) = self.body.nodes.get(child) else {
            return false;
        };
        let fits = match stand {
            Stand::Expression => !matches!(node, Node::Let { .. } | Node::Param(_)),
            Stand::Block => matches!(node, Node::Block { .. }),
            Stand::Statement => !matches!(node, Node::Param(_)),
            Stand::Param => matches!(node, Node::Param(_)),
        };
        let used_before = std::mem::replace(&mut self.used[child], true);
        fits && !used_before
    }

    /// "Rows of each key count from 0."
    fn keep(&mut self, row: Row) {
        match row {
            Row::Type(ty) => self.body.types.push(ty),
            Row::Def(output, inputs) => self.body.defs.push((output, inputs)),
            Row::Inst(fields) => self.body.insts.push(fields),
            Row::Bind(ty, methods) => self.body.binds.push((ty, methods)),
            Row::Node(node) => {
                self.body.nodes.push(node);
                self.used.push(false);
            }
            Row::Fn(output, body, params) => {
                self.body.output = output;
                self.body.body = body;
                self.body.params = params;
                self.ended = true;
            }
        }
    }

    /// The first `type=inst,K` or `type=fn,D` whose K or D no row has.
    fn broken_forward_reference(&self) -> Option<usize> {
        self.body.types.iter().position(|ty| match ty {
            Type::Inst(inst) => *inst >= self.body.insts.len(),
            Type::Fn(def) => *def >= self.body.defs.len(),
            Type::Array(_) | Type::Fun { .. } => false,
        })
    }
}

/// "64 levels of nodes, any parentless node being level 1": the height of the highest tree.
fn node_levels(body: &Body) -> usize {
    let mut heights: Vec<usize> = Vec::new();
    for node in &body.nodes {
        let below = children(node).iter().map(|&(child, _)| heights[child]).max();
        heights.push(1 + below.unwrap_or(0));
    }
    heights.into_iter().max().unwrap_or(0)
}

/// "4 of fun in fun, arrays between them not counted".
fn fun_levels(body: &Body) -> usize {
    let mut levels: Vec<usize> = vec![0; FIXED_TYPES];
    for ty in &body.types {
        levels.push(match ty {
            Type::Array(element) => levels[*element],
            Type::Fun { output, inputs, .. } => {
                let parts = inputs.iter().chain([output]);
                1 + parts.map(|&part| levels[part]).max().unwrap_or(0)
            }
            Type::Inst(_) | Type::Fn(_) => 0,
        });
    }
    levels.into_iter().max().unwrap_or(0)
}

/// The children of a node and where they stand.
fn children(node: &Node) -> Vec<(usize, Stand)> {
    use Stand::{Block, Expression, Param, Statement};
    let all = |nodes: &[usize], stand| -> Vec<(usize, Stand)> { nodes.iter().map(|&child| (child, stand)).collect() };
    match node {
        Node::Bool | Node::Int | Node::Float | Node::Str | Node::Break => vec![],
        Node::Param(_) | Node::Path { .. } => vec![],
        Node::Bin(_, left, right) => all(&[*left, *right], Expression),
        Node::Un(_, operand) | Node::Field(operand, _) => all(&[*operand], Expression),
        Node::List(items) => all(items, Expression),
        Node::Index { thing, index } => all(&[*thing, *index], Expression),
        Node::Assign(variable, value) | Node::OpAssign(variable, value) => all(&[*variable, *value], Expression),
        Node::If { condition, block, otherwise } => {
            let mut found = vec![(*condition, Expression), (*block, Block)];
            found.extend(otherwise.map(|otherwise| (otherwise, Expression)));
            found
        }
        Node::Loop(block) => all(&[*block], Block),
        Node::Call(first, args) | Node::MethodCall { receiver: first, args, .. } => {
            let mut found = vec![(*first, Expression)];
            found.extend(all(args, Expression));
            found
        }
        Node::Return(value) | Node::Let { init: value, .. } => value.iter().map(|&value| (value, Expression)).collect(),
        Node::Block { tail, statements } => {
            let mut found = all(statements, Statement);
            found.extend(tail.map(|tail| (tail, Expression)));
            found
        }
        Node::Lambda { body, params, .. } => {
            let mut found = all(params, Param);
            found.push((*body, Expression));
            found
        }
    }
}

/// "Each line's value ... Its fields are separated by commas." Only an `inst` may have none.
fn form(key: usize, value: &[u8]) -> Option<Row> {
    let fields: Vec<&[u8]> = value.split(|&byte| byte == b',').collect();
    Some(match (KEYS[key], fields.as_slice()) {
        (b"type", fields) => Row::Type(type_form(fields)?),
        (b"def", [output, inputs @ ..]) => Row::Def(number(output)?, numbers(inputs)?),
        (b"inst", [b""]) => Row::Inst(vec![]),
        (b"inst", fields) => Row::Inst(pairs(fields, number)?),
        (b"bind", [ty, methods @ ..]) => Row::Bind(number(ty)?, pairs(methods, number)?),
        (b"node", fields) => Row::Node(node_form(fields)?),
        (b"fn", [output, body, params @ ..]) => Row::Fn(number(output)?, number(body)?, numbers(params)?),
        _ => return None,
    })
}

/// "`type`: `array,E`; `fun,SPAN,OUT,IN..`; `inst,K`; `fn,D`."
fn type_form(fields: &[&[u8]]) -> Option<Type> {
    Some(match fields {
        [b"array", element] => Type::Array(number(element)?),
        [b"fun", span, output, inputs @ ..] => {
            Type::Fun { span: name(span)?, output: number(output)?, inputs: numbers(inputs)? }
        }
        [b"inst", inst] => Type::Inst(number(inst)?),
        [b"fn", def] => Type::Fn(number(def)?),
        _ => return None,
    })
}

/// "`node`: `bool`, `int`, ...", in the paper's order.
fn node_form(fields: &[&[u8]]) -> Option<Node> {
    Some(match fields {
        [b"bool"] => Node::Bool,
        [b"int"] => Node::Int,
        [b"float"] => Node::Float,
        [b"str"] => Node::Str,
        [b"bin", op, left, right] => Node::Bin(bin_form(op)?, number(left)?, number(right)?),
        [b"un", op, operand] => Node::Un(un_form(op)?, number(operand)?),
        [b"field", operand, field] => Node::Field(number(operand)?, name(field)?),
        [b"list", items @ ..] => Node::List(numbers(items)?),
        [b"index", thing, index] => Node::Index { thing: number(thing)?, index: number(index)? },
        [b"assign", variable, value] => Node::Assign(number(variable)?, number(value)?),
        [b"opassign", variable, value] => Node::OpAssign(number(variable)?, number(value)?),
        [b"if", condition, block, otherwise] => {
            Node::If { condition: number(condition)?, block: number(block)?, otherwise: number_or_absent(otherwise)? }
        }
        [b"loop", block] => Node::Loop(number(block)?),
        [b"break"] => Node::Break,
        [b"call", callee, args @ ..] => Node::Call(number(callee)?, numbers(args)?),
        [b"mcall", receiver, method, args @ ..] => {
            Node::MethodCall { receiver: number(receiver)?, name: name(method)?, args: numbers(args)? }
        }
        [b"return", value] => Node::Return(number_or_absent(value)?),
        [b"block", tail, statements @ ..] => {
            Node::Block { tail: number_or_absent(tail)?, statements: numbers(statements)? }
        }
        [b"let", ty, init] => Node::Let { ty: number_or_absent(ty)?, init: number_or_absent(init)? },
        [b"param", ty] => Node::Param(number_or_absent(ty)?),
        [b"lambda", output, body, params @ ..] => {
            Node::Lambda { output: number_or_absent(output)?, body: number(body)?, params: numbers(params)? }
        }
        [b"path", res, resolved, segments @ ..] => {
            Node::Path { res: res_form(res)?, resolved: number(resolved)?, segments: pairs(segments, res_form)? }
        }
        _ => return None,
    })
}

/// "OP `b` (the four that give Bool ...), `c` (ordering comparisons) or `a` (others)".
fn bin_form(op: &[u8]) -> Option<Bin> {
    Some(match op {
        b"b" => Bin::Boolean,
        b"c" => Bin::Ordering,
        b"a" => Bin::Arithmetic,
        _ => return None,
    })
}

/// "OP `d` deref, `r` address, `n` negation, `t` not".
fn un_form(op: &[u8]) -> Option<Un> {
    Some(match op {
        b"d" => Un::Deref,
        b"r" => Un::Address,
        b"n" => Un::Negation,
        b"t" => Un::Not,
        _ => return None,
    })
}

/// RES: a letter and a number, or `e` or `o` alone.
fn res_form(field: &[u8]) -> Option<Res> {
    Some(match field {
        [b'l', node @ ..] => Res::Local(number(node)?),
        [b'f', def @ ..] => Res::Fun(number(def)?),
        [b'c', def @ ..] => Res::Ctor(number(def)?),
        [b'i', inst @ ..] => Res::Inst(number(inst)?),
        b"e" => Res::Error,
        b"o" => Res::Other,
        _ => return None,
    })
}

/// "Numbers have no sign and no leading zero." "No number in a body is above 65,535."
fn number(field: &[u8]) -> Option<usize> {
    let digits = (1..=5).contains(&field.len()) && field.iter().all(u8::is_ascii_digit);
    if !digits || (field[0] == b'0' && field.len() > 1) {
        return None;
    }
    let value = field.iter().fold(0, |value, digit| 10 * value + usize::from(digit - b'0'));
    (value <= 65_535).then_some(value)
}

/// NAME and SPAN: plain numbers without another rule.
fn name(field: &[u8]) -> Option<u32> {
    number(field).and_then(|value| u32::try_from(value).ok())
}

/// "`-` means absent".
fn number_or_absent(field: &[u8]) -> Option<Option<usize>> {
    match field {
        b"-" => Some(None),
        _ => number(field).map(Some),
    }
}

/// "`..` none or more of the item before it".
fn numbers(fields: &[&[u8]]) -> Option<Vec<usize>> {
    fields.iter().map(|field| number(field)).collect()
}

/// `NAME:ITEM..`, a name and an item around one colon.
fn pairs<T>(fields: &[&[u8]], item: fn(&[u8]) -> Option<T>) -> Option<Vec<(u32, T)>> {
    let pair = |field: &&[u8]| {
        let colon = field.iter().position(|&byte| byte == b':')?;
        Some((name(&field[..colon])?, item(&field[colon + 1..])?))
    };
    fields.iter().map(pair).collect()
}
