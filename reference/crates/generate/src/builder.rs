//! What every family builds with: nodes, locals, and the closing of a body.

use crate::draft::{Draft, MAX_ITEMS, MAX_NODES, Node, Res, Row};
use crate::random::Random;

/// What the generator knows of an expression's type.
#[derive(Clone, PartialEq)]
pub enum Shape {
    /// Exactly this type number.
    Row(u16),
    /// An integer or float variable meant to become this type.
    Number(u16),
    /// A Regular variable meant to become this type.
    Any(u16),
    List(Box<Shape>),
    Ref(Box<Shape>),
    /// Inputs and output.
    Lambda(Vec<Shape>, Box<Shape>),
    Def(usize),
    /// Nothing is known; often err.
    Unknown,
}

impl Shape {
    /// True if a Regular variable stands in it.
    pub fn has_any(&self) -> bool {
        match self {
            Shape::Any(_) => true,
            Shape::List(inner) | Shape::Ref(inner) => inner.has_any(),
            _ => false,
        }
    }

    /// The type number it is meant to become, if it has one.
    pub fn target(&self, draft: &Draft) -> Option<u16> {
        match self {
            Shape::Row(t) | Shape::Number(t) | Shape::Any(t) => Some(*t),
            Shape::List(inner) => draft.find(&Row::Array(inner.target(draft)?)),
            _ => None,
        }
    }
}

/// A `let` or `param` that the walk has typed.
#[derive(Clone)]
pub struct Local {
    pub node: usize,
    pub shape: Shape,
}

/// A body under construction.
pub struct Builder {
    pub random: Random,
    pub draft: Draft,
    pub locals: Vec<Local>,
    /// Mistakes made on purpose, per thousand expressions.
    pub slips: usize,
    /// Whether a mistake may end the walk.
    pub refusals: bool,
    /// Level of the node being built, counted generously.
    pub level: usize,
}

impl Builder {
    pub fn new(random: Random) -> Self {
        Self { random, draft: Draft::default(), locals: Vec::new(), slips: 0, refusals: true, level: 3 }
    }

    pub fn emit(&mut self, node: Node) -> usize {
        self.draft.nodes.push(node);
        self.draft.nodes.len() - 1
    }

    /// Runs `make` one level further down.
    pub fn deeper<T>(&mut self, make: impl FnOnce(&mut Self) -> T) -> T {
        self.level += 1;
        let made = make(self);
        self.level -= 1;
        made
    }

    /// A small name, now and then a large one.
    pub fn name(&mut self) -> u16 {
        match self.random.below(200) {
            0 => 65535,
            1 => self.random.below(65536) as u16,
            _ => self.random.range(1, 4) as u16,
        }
    }

    pub fn int(&mut self) -> usize {
        self.emit(Node::Int)
    }

    pub fn float(&mut self) -> usize {
        self.emit(Node::Float)
    }

    pub fn boolean(&mut self) -> usize {
        self.emit(Node::Bool)
    }

    /// `[a, ..]`.
    pub fn list(&mut self, items: Vec<usize>) -> usize {
        self.emit(Node::List(items))
    }

    pub fn un(&mut self, op: char, operand: usize) -> usize {
        self.emit(Node::Un(op, operand))
    }

    pub fn assign(&mut self, variable: usize, value: usize) -> usize {
        self.emit(Node::Assign(variable, value))
    }

    pub fn call(&mut self, callee: usize, args: Vec<usize>) -> usize {
        self.emit(Node::Call(callee, args))
    }

    /// A `let` with neither type nor init: it draws a Regular variable.
    pub fn open_let(&mut self) -> usize {
        self.emit(Node::Let(None, None))
    }

    /// A `let` of a declared type without init.
    pub fn typed_let(&mut self, ty: u16) -> usize {
        self.emit(Node::Let(Some(ty), None))
    }

    /// A `let` of an expression.
    pub fn let_of(&mut self, init: usize) -> usize {
        self.emit(Node::Let(None, Some(init)))
    }

    /// A path whose segments did not fail.
    pub fn path(&mut self, res: Res) -> usize {
        let last = if res == Res::Error { Res::Other } else { res };
        let mut segments = vec![(self.name(), last)];
        match self.random.below(12) {
            0 => segments.clear(),
            1 => segments.insert(0, (self.name(), Res::Other)),
            _ => {}
        }
        let resolved = match self.random.below(12) {
            0 => self.random.pick(&[0, 9, 65535]),
            _ => segments.len(),
        };
        self.emit(Node::Path(res, resolved, segments))
    }

    pub fn local(&mut self, node: usize) -> usize {
        self.path(Res::Local(node))
    }

    /// A path of type err.
    pub fn error(&mut self) -> usize {
        self.path(Res::Error)
    }

    /// `{ let x: T; x }`, an expression of exactly this type.
    pub fn declared(&mut self, ty: u16) -> usize {
        let fresh = self.typed_let(ty);
        let path = self.local(fresh);
        self.emit(Node::Block(Some(path), vec![fresh]))
    }

    /// A block of these statements, in blocks of blocks if they are many.
    pub fn block(&mut self, tail: Option<usize>, mut statements: Vec<usize>) -> usize {
        while statements.len() > MAX_ITEMS {
            let parts: Vec<Vec<usize>> = statements.chunks(60).map(<[_]>::to_vec).collect();
            let wrap = |part| self.emit(Node::Block(None, part));
            statements = parts.into_iter().map(wrap).collect();
        }
        self.emit(Node::Block(tail, statements))
    }

    /// Parameters of the function, one per type.
    pub fn params(&mut self, types: &[u16]) {
        for &ty in types {
            let node = self.emit(Node::Param(Some(ty)));
            self.draft.params.push(node);
            let shape = Shape::Row(ty);
            self.locals.push(Local { node, shape });
        }
    }

    /// The body file, its outermost block made of these statements.
    pub fn finish(mut self, result: u16, tail: Option<usize>, statements: Vec<usize>) -> Vec<u8> {
        if self.random.chance(8) && self.draft.nodes.len() + 12 < MAX_NODES {
            self.unused_nodes();
        }
        self.block(tail, statements);
        self.close(result)
    }

    /// The body file; the last node is its body.
    pub fn close(mut self, result: u16) -> Vec<u8> {
        self.draft.result = result;
        if self.random.chance(10) {
            self.random.shuffle(&mut self.draft.params);
        }
        if self.random.chance(25) {
            self.draft.renumber(&mut self.random);
        }
        self.draft.text()
    }

    /// A few nodes that no line uses.
    fn unused_nodes(&mut self) {
        for _ in 0..self.random.range(1, 3) {
            match self.random.below(7) {
                0 => self.emit(Node::Str),
                1 => self.open_let(),
                2 => self.emit(Node::Param(None)),
                3 => self.path(Res::Other),
                4 => {
                    let inner = self.int();
                    self.un('n', inner)
                }
                5 => self.emit(Node::Break),
                _ => self.int(),
            };
        }
    }
}
