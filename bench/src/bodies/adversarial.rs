//! Bodies that take a checker long unless it takes care, each of exactly 1,024 nodes and answered 0.
use super::draft::{BOOL, Draft, FIRST_ROW, I32, NIL, Node, Row, U64};
use super::ordinary;
use super::statements::{ITEMS, NODES, Statements};

const INPUTS: usize = 16;
const FILE_BYTES: usize = 65_536;

pub struct Adversarial {
    pub name: &'static str,
    pub what: &'static str,
    pub bytes: Vec<u8>,
    /// The demand on adversarial bodies does not count those about function types.
    pub function_types: bool,
}

/// All of them.
pub fn all() -> Vec<Adversarial> {
    let one = |name, what, bytes| Adversarial { name, what, bytes, function_types: false };
    vec![
        Adversarial {
            function_types: true,
            ..one(
                "function-types",
                "512 function types, four deep, 16 inputs each; those of the fourth level each set against a lambda of lambdas",
                function_types(),
            )
        },
        Adversarial {
            function_types: true,
            ..one(
                "function-rows",
                "an ordinary body and 500 function types that differ in the last two of 16 inputs",
                function_rows(),
            )
        },
        one(
            "shared-lambdas",
            "each lambda's type has the one before inside twice; each binding is searched for its variable; the last lambdas \
             are set against the first",
            shared_lambdas(960),
        ),
        one(
            "shared-lambdas-bound",
            "lambdas that share their parts for half of the nodes; in the other half fresh variables are bound to the last",
            shared_lambdas(500),
        ),
        one(
            "chain-lets",
            "127 variables bound one to the next, then asked from the far end 169 times",
            chain_of_lets(),
        ),
        one(
            "chain-lists",
            "988 variables bound one to the next; each equation asks from the far end of all those before it",
            chain_of_lists(),
        ),
        one("arrays-500", "arrays 500 deep set against each other 338 times", arrays()),
        one(
            "arrays-500-bound",
            "fresh variables bound to arrays 500 deep 476 times, each searched for its variable",
            arrays_bound(),
        ),
        one("errors", "as many errors as were found possible in 1,024 nodes", errors()),
        one("methods", "64 binds of 64 methods on one type; each of 506 calls names the last", methods()),
        one("fields", "506 fields, each the last of 64", fields()),
        one("bytes-65536", "an ordinary body, with declarations up to 65,536 bytes", bytes()),
        one("marks-growth", "a mark passed between two bound variables 334 times", marks()),
    ]
}

/// Four levels of 128 function types, and a lambda that meets each of the fourth level: its inputs and its output are such
/// lambdas of the level below.
fn function_types() -> Vec<u8> {
    let mut s = Statements::new();
    let mut level: Vec<u16> = vec![I32; 128];
    for _ in 0..4 {
        let below = level.clone();
        for (span, ty) in below.iter().enumerate() {
            level[span] = s.draft.row(Row::Fun(span as u16, *ty, vec![*ty; INPUTS]));
        }
    }
    let mut inner = s.param(I32);
    for _ in 0..4 {
        let params: Vec<usize> = (0..INPUTS).map(|_| s.emit(Node::Param(None))).collect();
        let mut bound = Vec::new();
        for param in &params {
            let (left, right) = (s.local(*param), s.local(inner));
            bound.push(s.emit(Node::Assign(left, right)));
        }
        let tail = s.local(inner);
        let body = s.emit(Node::Block(Some(tail), bound));
        let lambda = s.emit(Node::Lambda(None, body, params));
        inner = s.state(Node::Let(None, Some(lambda)));
    }
    for ty in &level {
        let value = s.local(inner);
        s.state(Node::Let(Some(*ty), Some(value)));
    }
    s.finish()
}

/// An ordinary body, and function types of which none is equal to another.
fn function_rows() -> Vec<u8> {
    let mut draft = ordinary::draft(7_000_001, NODES);
    for row in 0..500 {
        let mut inputs = vec![I32; INPUTS];
        inputs[INPUTS - 2] = FIRST_ROW + row / 12;
        inputs[INPUTS - 1] = row % 12;
        draft.row(Row::Fun(7, I32, inputs));
    }
    draft.text()
}

/// Calls a lambda of 16 inputs with 16 times this local: each input's variable is bound to its type.
fn bind_all(s: &mut Statements, local: usize) {
    let params: Vec<usize> = (0..INPUTS).map(|_| s.emit(Node::Param(None))).collect();
    let body = s.local(local);
    let callee = s.emit(Node::Lambda(None, body, params));
    let args: Vec<usize> = (0..INPUTS).map(|_| s.local(local)).collect();
    s.state(Node::Call(callee, args));
}

/// `let f = |p| e; f(e)`, where `e` is the lambda before: its type stands in the input and in the output. From a number of
/// nodes on, fresh variables are bound to the type of the last one, and then the last ones are set against the first.
fn shared_lambdas(nodes: usize) -> Vec<u8> {
    let mut s = Statements::new();
    let mut last = s.param(I32);
    let mut all = Vec::new();
    while s.draft.nodes.len() < nodes && s.free() >= 7 {
        let param = s.emit(Node::Param(None));
        let body = s.local(last);
        let lambda = s.emit(Node::Lambda(None, body, vec![param]));
        let next = s.state(Node::Let(None, Some(lambda)));
        let (callee, arg) = (s.local(next), s.local(last));
        s.state(Node::Call(callee, vec![arg]));
        all.push(next);
        last = next;
    }
    while s.free() >= 2 * INPUTS + 40 {
        bind_all(&mut s, last);
    }
    for first in 0.. {
        if s.free() < 3 {
            break;
        }
        s.equate(all[all.len() - 1 - first], all[first]);
    }
    s.finish()
}

/// `let v0; let v1; .. v0 = v1; v1 = v2; ..`, then `v0 = x` again and again.
fn chain_of_lets() -> Vec<u8> {
    let mut s = Statements::new();
    let value = s.param(I32);
    let lets: Vec<usize> = (0..127).map(|_| s.state(Node::Let(None, None))).collect();
    for pair in lets.windows(2) {
        s.equate(pair[0], pair[1]);
    }
    while s.free() >= 3 {
        s.equate(lets[0], value);
    }
    s.finish()
}

/// `let x = 1; [x, 1, 1, ..]; [x, 1, ..]`: each literal's variable becomes the end of the chain that starts at `x`.
fn chain_of_lists() -> Vec<u8> {
    let mut s = Statements::new();
    let one = s.emit(Node::Int);
    let first = s.state(Node::Let(None, Some(one)));
    while s.free() >= 4 {
        let count = (ITEMS - 1).min(s.free() - 2);
        let mut items = vec![s.local(first)];
        items.extend((0..count).map(|_| s.emit(Node::Int)));
        s.state(Node::List(items));
    }
    s.finish()
}

/// `let a: T; let b: T; a = b; ..`, where T is an array 500 deep.
fn arrays() -> Vec<u8> {
    let mut s = Statements::new();
    let mut ty = I32;
    for _ in 0..500 {
        ty = s.draft.row(Row::Array(ty));
    }
    let a = s.state(Node::Let(Some(ty), None));
    let b = s.state(Node::Let(Some(ty), None));
    while s.free() >= 3 {
        s.equate(a, b);
    }
    s.finish()
}

/// Lambdas called with a local whose type is an array 500 deep.
fn arrays_bound() -> Vec<u8> {
    let mut s = Statements::new();
    let mut ty = I32;
    for _ in 0..500 {
        ty = s.draft.row(Row::Array(ty));
    }
    let local = s.state(Node::Let(Some(ty), None));
    while s.free() >= 2 * INPUTS + 3 {
        bind_all(&mut s, local);
    }
    s.finish()
}

/// Lists of an integer and arrays of an open variable: each item mismatches and cannot be inferred, and each list mismatches
/// in the list around it.
fn errors() -> Vec<u8> {
    let mut s = Statements::new();
    let empty = s.emit(Node::List(vec![]));
    let open = s.state(Node::Let(None, Some(empty)));
    let mut lists = vec![s.emit(Node::Int)];
    // The outer list and the block.
    while s.draft.nodes.len() + 4 + 2 <= NODES {
        let count = (ITEMS - 1).min(NODES - 2 - s.draft.nodes.len() - 2);
        let mut items = vec![s.emit(Node::Int)];
        items.extend((0..count).map(|_| s.local(open)));
        lists.push(s.emit(Node::List(items)));
    }
    s.state(Node::List(lists));
    s.finish()
}

/// `x.m()`, `m` being the last of the 4,096 methods on the type of `x`.
fn methods() -> Vec<u8> {
    let mut s = Statements::new();
    s.draft.defs.push(vec![NIL, I32]);
    for bind in 0..ITEMS {
        let names = (0..ITEMS).map(|item| ((ITEMS * bind + item) as u16, 0));
        s.draft.binds.push((I32, names.collect()));
    }
    let value = s.param(I32);
    while s.free() >= 2 {
        let receiver = s.local(value);
        s.state(Node::Method(receiver, (ITEMS * ITEMS - 1) as u16, vec![]));
    }
    s.finish()
}

/// `x.f`, `f` being the last of 64 fields.
fn fields() -> Vec<u8> {
    let mut s = Statements::new();
    let inst = s.draft.row(Row::Inst(0));
    s.draft.insts.push((0..ITEMS as u16).map(|name| (name, BOOL)).collect());
    let value = s.param(inst);
    while s.free() >= 2 {
        let thing = s.local(value);
        s.state(Node::Field(thing, ITEMS as u16 - 1));
    }
    s.finish()
}

/// An ordinary body, with declarations behind its own up to 65,536 bytes.
fn bytes() -> Vec<u8> {
    let mut draft = ordinary::draft(7_000_000, NODES);
    while draft.types.len() < 512 {
        let span = draft.types.len() as u16;
        draft.row(Row::Fun(1_000 + span, I32, vec![U64; 3]));
    }
    while draft.defs.len() < 256 {
        draft.defs.push(vec![U64; 17]);
    }
    while draft.insts.len() < 64 {
        draft.insts.push((0..20).map(|name| (10 + name, I32)).collect());
    }
    // Methods of `bind=14`, eight bytes with a name of five digits, until one line more is enough; then names of fewer digits.
    let missing = |draft: &Draft| FILE_BYTES - draft.text().len() - "bind=14\n".len();
    while missing(&draft) >= 8 * 60 + 12 {
        draft.binds.push((FIRST_ROW, vec![(60_000, 0); 60]));
    }
    let rest = missing(&draft);
    let count = rest.div_ceil(8);
    let name = |digits: usize| if digits == 1 { 1 } else { 10_u16.pow(digits as u32 - 1) };
    let digits = |item: usize| rest / count + usize::from(item < rest % count) - ",:0".len();
    draft.binds.push((FIRST_ROW, (0..count).map(|item| (name(digits(item)), 0)).collect()));
    assert_eq!(draft.text().len(), FILE_BYTES);
    draft.text()
}

/// Two variables bound to i32, the first negated, then set against each other in turn.
fn marks() -> Vec<u8> {
    let mut s = Statements::new();
    let value = s.param(I32);
    let mut lets = Vec::new();
    for _ in 0..2 {
        let int = s.emit(Node::Int);
        lets.push(s.state(Node::Let(None, Some(int))));
    }
    for local in lets.clone() {
        s.equate(local, value);
    }
    let operand = s.local(lets[0]);
    s.state(Node::Un('n', operand));
    let mut turn = 0;
    while s.free() >= 3 {
        s.equate(lets[turn % 2], lets[(turn + 1) % 2]);
        turn += 1;
    }
    s.finish()
}
