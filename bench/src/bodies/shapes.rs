//! Shapes of bodies with a large minimal conflict, each with two numbers that are searched for the largest ratio of
//! `nunthila_quarrel` to `nunthila_check`.
use super::draft::{I32, Node, Row, U64};
use super::statements::{ITEMS, Statements};

pub struct Shape {
    pub name: &'static str,
    pub what: &'static str,
    /// The body for two numbers; each has exactly 1,024 nodes.
    pub make: fn(usize, usize) -> Vec<u8>,
    /// What is tried for each number.
    pub tried: (&'static [usize], &'static [usize]),
    /// The numbers with the largest ratio.
    pub kept: (usize, usize),
}

impl Shape {
    pub fn kept(&self) -> Vec<u8> {
        (self.make)(self.kept.0, self.kept.1)
    }
}

const CALLS: &[usize] = &[6, 8, 10, 12, 14, 16, 18, 20, 22, 25];
const ALONE: &[usize] = &[20, 24, 28];
const NO: &[usize] = &[0];
const ROWS: &[usize] = &[50, 200, 500];

pub const ALL: &[Shape] = &[
    Shape {
        name: "chain-assigns",
        what: "variables assigned one to the next, between i32 and a boolean: every equation is needed",
        make: |count, _| chain_of_assigns(count),
        tried: (&[60, 120, 180, 240], NO),
        kept: (240, 0),
    },
    Shape {
        name: "chain-sums",
        what: "sums within sums of literals, two nodes for an equation; every equation is needed",
        make: |depth, _| chain_of_sums(depth),
        tried: (&[4, 8, 16, 32, 56], NO),
        kept: (32, 0),
    },
    Shape {
        name: "chain-calls",
        what: "calls within calls, whose arguments join 16 parameters one to the next; every equation is needed",
        make: |calls, _| chain_of_calls(calls, Anchor::Early),
        tried: (ALONE, NO),
        kept: (28, 0),
    },
    Shape {
        name: "chain-calls-late",
        what: "the same, but i32 comes behind the chain, which is open until then",
        make: |calls, _| chain_of_calls(calls, Anchor::Late),
        tried: (ALONE, NO),
        kept: (28, 0),
    },
    Shape {
        name: "chain-inside",
        what: "the same; the last equation puts a variable inside itself",
        make: |calls, _| chain_of_calls(calls, Anchor::Inside),
        tried: (ALONE, NO),
        kept: (28, 0),
    },
    Shape {
        name: "chain-deep",
        what: "the same between two arrays, of which one is one level deeper",
        make: chain_between_arrays,
        tried: (ALONE, ROWS),
        kept: (28, 200),
    },
    Shape {
        name: "and-variables",
        what: "a chain of calls, and empty lists, each of which draws a variable",
        make: |calls, _| chain_and_lists(calls, 0, |_| (Node::List(vec![]), Node::List(vec![]))),
        tried: (CALLS, NO),
        kept: (25, 0),
    },
    Shape {
        name: "and-returns",
        what: "a chain of calls, and lists of `return`, each of which raises two equations",
        make: |calls, _| chain_and_lists(calls, 0, |value| (Node::Local(value), Node::Return(None))),
        tried: (CALLS, NO),
        kept: (25, 0),
    },
    Shape {
        name: "and-arrays",
        what: "a chain of calls, and lists of arrays",
        make: |calls, rows| chain_and_lists(calls, rows, |value| (Node::Local(value), Node::Local(value))),
        tried: (CALLS, ROWS),
        kept: (25, 50),
    },
    Shape {
        name: "and-chain",
        what: "a chain of calls, and literals that are bound one to the next from the last equation back alone",
        make: |calls, _| chain_and_chain(calls, usize::MAX, End::Refused),
        tried: (CALLS, NO),
        kept: (14, 0),
    },
    Shape {
        name: "and-pairs-deep",
        what: "a chain of calls, and equations of two variables that lead along it to one array, from the last equation back alone",
        make: chain_and_arrays,
        tried: (CALLS, ROWS),
        kept: (20, 50),
    },
    Shape {
        name: "and-pairs",
        what: "a chain of calls, literals that are bound one to the next from the last equation back alone, and equations of two \
               variables that both lead along them",
        make: |calls, literals| chain_and_chain(calls, literals, End::Refused),
        tried: (CALLS, &[250, 300, 350, 400, 450]),
        kept: (12, 400),
    },
    Shape {
        name: "and-pairs-answered",
        what: "the same without the equation behind it that is refused 12, so that the check finds final types",
        make: |calls, literals| chain_and_chain(calls, literals, End::Answered),
        tried: (CALLS, &[250, 300, 350, 400, 450]),
        kept: (12, 400),
    },
];

/// `x0 = value; x0 = x1; x1 = x2; ..`, and the last one is a boolean.
fn chain_of_assigns(count: usize) -> Vec<u8> {
    let mut s = Statements::new();
    let value = s.param(I32);
    let chain: Vec<usize> = (0..count).map(|_| s.variable()).collect();
    s.join(chain[0], value);
    for pair in chain.windows(2) {
        s.join(pair[0], pair[1]);
    }
    s.assign(chain[count - 1], Node::Bool);
    s.finish()
}

/// `let x = 1 + (1 + (1 + value)); let y = 1 + (1 + (1 + x)); ..`, so deep, from i32, and the last one is u64.
fn chain_of_sums(depth: usize) -> Vec<u8> {
    let mut s = Statements::new();
    let (mut last, other) = (s.param(I32), s.param(U64));
    while s.free() >= 2 * depth + 5 {
        let literals: Vec<usize> = (0..depth).map(|_| s.emit(Node::Int)).collect();
        let mut sum = s.emit(Node::Local(last));
        for literal in literals {
            sum = s.emit(Node::Bin('a', literal, sum));
        }
        last = s.state(Node::Let(None, Some(sum)));
    }
    s.join(last, other);
    s.finish()
}

/// Parameters of each lambda.
const WIDTH: usize = 16;

/// A chain of variables that calls join.
struct Calls {
    /// The first variable of the chain.
    first: usize,
    /// A let whose type is the last variable: behind the parameters come a let and the outputs of the lambdas.
    last: usize,
}

/// `let last = (|q0, .., q15| (|p0, .., p15| inner)(p1, .., p15, q0))(q1, .., q15, end);`, so many calls within one another, each
/// joining its parameters one to the next and to the first of the call around it. Their equations come from `p0` on, so that each
/// variable that is bound already is expected, and the new one is got. The innermost body is `end`, behind a statement on `p0`.
fn calls(s: &mut Statements, count: usize, inner: impl FnOnce(&mut Statements, usize) -> Option<usize>) -> Calls {
    let end = s.variable();
    let params: Vec<Vec<usize>> = (0..count).map(|_| (0..WIDTH).map(|_| s.emit(Node::Param(None))).collect()).collect();
    let first = params[0][0];
    let statement = inner(s, first);
    let mut body = s.emit(Node::Local(end));
    if let Some(statement) = statement {
        body = s.emit(Node::Block(Some(body), vec![statement]));
    }
    let chain: Vec<usize> = params.iter().flatten().copied().chain([end]).collect();
    for (call, params) in params.into_iter().enumerate() {
        let callee = s.emit(Node::Lambda(None, body, params));
        let next = &chain[WIDTH * call + 1..][..WIDTH];
        let args = next.iter().map(|local| s.emit(Node::Local(*local))).collect();
        body = s.emit(Node::Call(callee, args));
    }
    Calls { first, last: s.state(Node::Let(None, Some(body))) }
}

/// `local = value` as a statement of a block.
fn assigned(s: &mut Statements, local: usize, value: usize) -> Option<usize> {
    let (left, right) = (s.emit(Node::Local(local)), s.emit(Node::Local(value)));
    Some(s.emit(Node::Assign(left, right)))
}

/// How a chain clashes with the boolean at its end.
#[derive(Clone, Copy, PartialEq)]
enum Anchor {
    /// Its first variable is i32, by the first equation.
    Early,
    /// By the last but one.
    Late,
    /// There is no boolean: its end is a list of its first variable.
    Inside,
}

fn chain_of_calls(count: usize, anchor: Anchor) -> Vec<u8> {
    let mut s = Statements::new();
    let value = s.param(I32);
    let chain = calls(&mut s, count, |s, first| if anchor == Anchor::Early { assigned(s, first, value) } else { None });
    if anchor == Anchor::Late {
        s.join(chain.first, value);
    }
    if anchor == Anchor::Inside {
        let first = s.emit(Node::Local(chain.first));
        s.assign(chain.last, Node::List(vec![first]));
    } else {
        s.assign(chain.last, Node::Bool);
    }
    s.finish()
}

/// The arrays of i32 up to so many levels.
fn arrays(s: &mut Statements, rows: usize) -> Vec<u16> {
    let mut types = vec![I32];
    for row in 0..rows {
        types.push(s.draft.row(Row::Array(types[row])));
    }
    types
}

/// The first variable of the chain is an array, the last one an array of a level less.
fn chain_between_arrays(count: usize, rows: usize) -> Vec<u8> {
    let mut s = Statements::new();
    let types = arrays(&mut s, rows);
    let (deep, less) = (s.param(types[rows]), s.param(types[rows - 1]));
    let chain = calls(&mut s, count, |_, _| None);
    s.join(chain.first, deep);
    s.join(chain.last, less);
    s.finish()
}

/// A chain between i32 and a boolean, and lists in all other nodes; their items by a local that is an array of so many levels.
fn chain_and_lists(count: usize, rows: usize, items: fn(usize) -> (Node, Node)) -> Vec<u8> {
    let mut s = Statements::new();
    let types = arrays(&mut s, rows);
    let (value, array) = (s.param(I32), s.param(types[rows]));
    let chain = calls(&mut s, count, |s, first| assigned(s, first, value));
    let (first, other) = items(array);
    let free = s.free() - 3;
    s.lists(free, first, other);
    s.assign(chain.last, Node::Bool);
    s.finish()
}

/// What stands behind the failed equation.
#[derive(Clone, Copy, PartialEq)]
enum End {
    Answered,
    /// An equation that is refused 12.
    Refused,
}

/// Nodes of an equation that puts a variable inside itself.
const INSIDE: usize = 5;

/// `let v; v = [v];`
fn inside(s: &mut Statements) {
    let variable = s.variable();
    let item = s.emit(Node::Local(variable));
    s.assign(variable, Node::List(vec![item]));
}

/// A chain of calls between two arrays of which one is a level deeper. In all other nodes two variables are set against each other:
/// the check has them so before they are joined to the chain, and from the last equation back they are joined to it first.
fn chain_and_arrays(count: usize, rows: usize) -> Vec<u8> {
    let mut s = Statements::new();
    let types = arrays(&mut s, rows);
    let (deep, less) = (s.param(types[rows]), s.param(types[rows - 1]));
    let (one, other) = (s.variable(), s.variable());
    let chain = calls(&mut s, count, |_, _| None);
    let free = s.free() - 4 * 3 - INSIDE;
    s.lists(free, Node::Local(one), Node::Local(other));
    s.join(other, chain.first);
    s.join(one, chain.first);
    s.join(chain.first, deep);
    s.join(chain.last, less);
    inside(&mut s);
    s.finish()
}

/// A chain of calls between i32 and a boolean. i32 is its first variable's by an equation before it, which is dropped, and by one
/// behind it.
///
/// - Behind that one the variable is set against so many literals, or as many as have room. The check binds each of them to i32; from
///   the last equation back they are bound one to the next, at the end of what is kept of the chain.
/// - Before it, in all other nodes, `long` is set against `short`. The check has `long` bound to `short`; from the last equation back
///   `long` leads along the chain and the literals, and `short` along the literals.
fn chain_and_chain(count: usize, literals: usize, end: End) -> Vec<u8> {
    let mut s = Statements::new();
    let (long, short, start) = (s.variable(), literal(&mut s), literal(&mut s));
    let value = s.param(I32);
    let chain = calls(&mut s, count, |s, first| assigned(s, first, value));
    let room = s.free() - 2 * 3 - if end == End::Refused { INSIDE } else { 0 };
    let bound = bound_literals(value, start, literals.min(items_of_lists(room - ONE_ITEM) - 2));
    let rest = items_of_lists(room - nodes_of_lists(bound.len()));
    let mut pairs = vec![Node::Local(short); rest - 1];
    pairs.push(Node::Local(chain.first));
    lists_of(&mut s, Node::Local(long), &pairs);
    s.join(short, start);
    lists_of(&mut s, Node::Local(chain.first), &bound);
    s.assign(chain.last, Node::Bool);
    if end == End::Refused {
        inside(&mut s);
    }
    s.finish()
}

/// `let x = 1;`
fn literal(s: &mut Statements) -> usize {
    let int = s.emit(Node::Int);
    s.state(Node::Let(None, Some(int)))
}

/// i32, so many literals, and a let of one, where they begin if they are bound from the last one back.
fn bound_literals(value: usize, start: usize, count: usize) -> Vec<Node> {
    let mut items = vec![Node::Local(value)];
    items.extend(vec![Node::Int; count]);
    items.push(Node::Local(start));
    items
}

/// Nodes of a list of two.
const ONE_ITEM: usize = 3;

/// Nodes of lists with so many items behind their first.
fn nodes_of_lists(items: usize) -> usize {
    items + 2 * items.div_ceil(ITEMS - 1)
}

/// How many items have room behind the first ones of lists of so many nodes.
fn items_of_lists(nodes: usize) -> usize {
    nodes / (ITEMS + 1) * (ITEMS - 1) + (nodes % (ITEMS + 1)).saturating_sub(2)
}

/// Lists of these items, each behind a first one.
fn lists_of(s: &mut Statements, first: Node, items: &[Node]) {
    for part in items.chunks(ITEMS - 1) {
        s.list(&first, part);
    }
}
