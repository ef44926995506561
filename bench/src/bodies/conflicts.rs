//! Bodies whose equations have a minimal conflict, each of exactly 1,024 nodes: a conflict of three equations with 900 harmless ones
//! and more above it or between its equations, and the shapes of `shapes.rs`.
use super::draft::{I32, Node, Row};
use super::shapes;
use super::statements::{ITEMS, Statements};

#[derive(Clone, Copy, PartialEq)]
pub enum Group {
    /// The harmless equations stand above all of the conflict.
    Above,
    /// They stand between the first equation of the conflict and the last.
    Between,
    /// A shape that was searched for the largest ratio.
    Searched,
}

pub struct Conflict {
    pub name: String,
    pub what: &'static str,
    pub group: Group,
    pub bytes: Vec<u8>,
}

/// All of them.
pub fn all() -> Vec<Conflict> {
    let mut all = Vec::new();
    for (group, place) in [(Group::Above, "above"), (Group::Between, "between")] {
        for (kind, name, what) in KINDS {
            all.push(Conflict { name: format!("{place}-{name}"), what, group, bytes: body(kind, group) });
        }
    }
    for shape in shapes::ALL {
        all.push(Conflict {
            name: shape.name.to_string(),
            what: shape.what,
            group: Group::Searched,
            bytes: shape.kept(),
        });
    }
    all
}

/// What the harmless equations are.
#[derive(Clone, Copy)]
enum Kind {
    Mixed,
    Literals,
    Chain,
    FromBehind,
    /// Arrays so deep.
    Arrays(usize),
    Diverging(usize),
}

const KINDS: [(Kind, &str, &str); 7] = [
    (
        Kind::Mixed,
        "mixed",
        "literals assigned to lets, variables assigned one to the next, elements of lists that are literals, arrays or `return`",
    ),
    (Kind::Literals, "literals", "literals in lists of literals"),
    (
        Kind::Chain,
        "chain",
        "literals in lists that begin with one variable: all are bound one to the next, in the check too",
    ),
    (
        Kind::FromBehind,
        "from-behind",
        "the same, but the variable is bound to i32 before: the check binds each literal to i32, and from the last equation back \
         they are bound one to the next",
    ),
    (Kind::Arrays(3), "arrays", "arrays three deep in lists of such"),
    (Kind::Arrays(500), "arrays-500", "arrays 500 deep in lists of such"),
    (
        Kind::Diverging(500),
        "diverging",
        "`break` in lists that begin with an array 500 deep: the check meets Diverges at once; the array is asked for whether it is \
         plain, once for all equations of a list",
    ),
];

/// Nodes of the three equations of the conflict.
const CONFLICT: usize = 9;
/// Nodes of further blocks around the statements.
const BLOCKS: usize = 4;

/// `v = true; v = w; w = 1`, and harmless equations in all other nodes.
fn body(kind: Kind, group: Group) -> Vec<u8> {
    let mut s = Statements::new();
    let (v, w) = (s.variable(), s.variable());
    let from = From::new(&mut s, kind);
    let free = s.free() - CONFLICT - BLOCKS;
    if group == Group::Above {
        from.harmless(&mut s, free);
        s.assign(v, Node::Bool);
        s.join(v, w);
    } else {
        s.assign(v, Node::Bool);
        from.harmless(&mut s, free / 2);
        s.join(v, w);
        from.harmless(&mut s, free / 2);
    }
    s.assign(w, Node::Int);
    s.finish()
}

/// What harmless equations are made of.
struct From {
    kind: Kind,
    /// Of type i32.
    value: usize,
    /// A variable, bound to i32 or open.
    variable: usize,
    array: usize,
}

impl From {
    fn new(s: &mut Statements, kind: Kind) -> Self {
        let depth = if let Kind::Arrays(depth) | Kind::Diverging(depth) = kind { depth } else { 2 };
        let mut ty = I32;
        for _ in 0..depth {
            ty = s.draft.row(Row::Array(ty));
        }
        let (value, array, variable) = (s.param(I32), s.param(ty), s.variable());
        if let Kind::FromBehind = kind {
            s.join(variable, value);
        }
        From { kind, value, variable, array }
    }

    /// Harmless equations in at most so many nodes.
    fn harmless(&self, s: &mut Statements, nodes: usize) {
        match self.kind {
            Kind::Mixed => self.mixed(s, nodes),
            Kind::Literals => s.lists(nodes, Node::Int, Node::Int),
            Kind::Chain | Kind::FromBehind => s.lists(nodes, Node::Local(self.variable), Node::Int),
            Kind::Arrays(_) => s.lists(nodes, Node::Local(self.array), Node::Local(self.array)),
            Kind::Diverging(_) => s.lists(nodes, Node::Local(self.array), Node::Break),
        }
    }

    fn mixed(&self, s: &mut Statements, nodes: usize) {
        let end = s.draft.nodes.len() + nodes;
        for _ in 0..nodes / 25 {
            let local = s.variable();
            s.assign(local, Node::Int);
        }
        let chained: Vec<usize> = (0..nodes / 50).map(|_| s.variable()).collect();
        for pair in chained.windows(2) {
            s.join(pair[0], pair[1]);
        }
        // Each `return` raises an equation of its own too.
        s.lists(nodes / 8, Node::Local(self.value), Node::Return(None));
        s.lists(nodes / 5, Node::Local(self.array), Node::Local(self.array));
        s.lists(end - s.draft.nodes.len(), Node::Int, Node::Int);
    }
}

impl Statements {
    /// A let without type and value.
    pub fn variable(&mut self) -> usize {
        self.state(Node::Let(None, None))
    }

    /// `local = value`.
    pub fn assign(&mut self, local: usize, value: Node) {
        let (left, right) = (self.emit(Node::Local(local)), self.emit(value));
        self.state(Node::Assign(left, right));
    }

    /// `a = b` of two locals, by paths without segments.
    pub fn join(&mut self, a: usize, b: usize) {
        self.assign(a, Node::Local(b));
    }

    /// Lists in at most so many nodes, each of one first item and as many others as have room.
    pub fn lists(&mut self, nodes: usize, first: Node, other: Node) {
        let mut free = nodes;
        while free > 2 {
            let others = (ITEMS - 1).min(free - 2);
            self.list(&first, &vec![other.clone(); others]);
            free -= others + 2;
        }
    }

    /// A list of these nodes.
    pub fn list(&mut self, first: &Node, others: &[Node]) {
        let items = std::iter::once(first).chain(others).map(|item| self.emit(item.clone())).collect();
        self.state(Node::List(items));
    }
}
