//! Chains of variables between ends that clash, for conflicts of many sizes: no family of its own, so that no body gets another index.

use crate::builder::Builder;
use crate::draft::{BOOL, I32, MAX_NODES, NIL, Node, Res, U64};

/// A local whose type is meant to be so many arrays around the type that its whole chain is about.
#[derive(Clone, Copy)]
struct Vertex {
    local: usize,
    depth: usize,
}

/// Values that clash with one another, but for the literals and some of the declared types.
#[derive(Clone, Copy)]
enum End {
    Int,
    Float,
    Declared(u16),
    Inst(usize),
}

/// Pairs of ends; most clash.
const CLASHES: [(End, End); 9] = [
    (End::Int, End::Float),
    (End::Int, End::Float),
    (End::Int, End::Declared(BOOL)),
    (End::Float, End::Declared(I32)),
    (End::Declared(U64), End::Declared(4)),
    (End::Declared(I32), End::Declared(4)),
    (End::Declared(NIL), End::Float),
    (End::Inst(0), End::Inst(1)),
    (End::Int, End::Declared(2)),
];

impl Builder {
    /// Variables in a chain with clashing ends, other links between them, and equations that share nothing with it, in any order.
    pub fn conflict_body(mut self) -> Vec<u8> {
        self.equation_tables();
        self.draft.insts.push(vec![(1, I32)]);
        self.params(&[I32, U64]);
        let count = self.random.pick(&[1, 2, 2, 3, 3, 4, 4, 5, 6, 7, 8, 9, 10, 12, 14, 90]);
        let most_depth = self.random.pick(&[0, 0, 1, 2]);
        let mut made = Vec::new();
        let lets = self.open_lets(&mut made, count);
        let mut vertices: Vec<Vertex> = Vec::new();
        for local in lets {
            vertices.push(Vertex { local, depth: self.random.below(most_depth + 1) });
        }
        let lambda = self.random.chance(30).then(|| self.identity(&mut made));
        let mut equations: Vec<usize> =
            vertices.windows(2).map(|pair| self.link(pair[0], pair[1], lambda, 0)).collect();
        self.ends(&mut equations, &vertices);
        self.more_links(&mut equations, &vertices, lambda);
        self.harmless(&mut equations);
        self.random.shuffle(&mut equations);
        made.extend(equations);
        let (result, tail) = self.result_of(&vertices);
        self.finish(result, tail, made)
    }

    /// A chain with clashing ends behind equations that shorten it: dropping from the first equation up leaves a long way through it,
    /// and fewer equations conflict. The clash comes last. Now and then all are in any order.
    pub fn shortcut_body(mut self) -> Vec<u8> {
        self.draft.defs = vec![vec![I32, I32]];
        self.draft.insts = vec![vec![], vec![]];
        let count = self.random.pick(&[2, 2, 3, 3, 4, 4, 5, 6, 7, 9]);
        let most_depth = self.random.pick(&[0, 0, 0, 1, 2]);
        let mut made = Vec::new();
        let lets = self.open_lets(&mut made, count);
        let mut vertices: Vec<Vertex> = Vec::new();
        for local in lets {
            vertices.push(Vertex { local, depth: self.random.below(most_depth + 1) });
        }
        let lambda = self.random.chance(15).then(|| self.identity(&mut made));
        let (near, far) = self.random.pick(&CLASHES);
        let mut equations = self.shortcuts(&vertices, near, lambda);
        self.without_a_share(&mut equations);
        let mut chain: Vec<usize> = vertices.windows(2).map(|pair| self.link(pair[0], pair[1], lambda, 0)).collect();
        chain.push(self.end(vertices[0], near));
        self.without_a_share(&mut chain);
        self.random.shuffle(&mut chain);
        equations.extend(chain);
        let last = vertices[count - 1];
        equations.push(match self.random.chance(20) {
            true => self.link(vertices[0], last, None, 1),
            false => self.end(last, far),
        });
        if self.random.chance(20) {
            self.random.shuffle(&mut equations);
        }
        made.extend(equations);
        self.finish(NIL, None, made)
    }

    /// Links past some of the variables of a chain, and its near end again at any of them.
    fn shortcuts(&mut self, vertices: &[Vertex], near: End, lambda: Option<usize>) -> Vec<usize> {
        let count = self.random.pick(&[0, 1, 1, 2, 2, 3]);
        let mut equations = Vec::new();
        for _ in 0..count {
            let (one, other) = (self.random.pick(vertices), self.random.pick(vertices));
            equations.push(match self.random.chance(50) {
                true => self.end(one, near),
                false => self.link(one, other, lambda, 0),
            });
        }
        equations
    }

    /// A few equations more that share nothing with the chain, at any place.
    fn without_a_share(&mut self, equations: &mut Vec<usize>) {
        for _ in 0..self.random.pick(&[0, 0, 1, 2]) {
            let (left, right) = match self.random.below(3) {
                0 => (self.int(), self.emit(Node::Break)),
                1 => (self.int(), self.int()),
                _ => (self.boolean(), self.boolean()),
            };
            let equation = self.set(left, right);
            let at = self.random.below(equations.len() + 1);
            equations.insert(at, equation);
        }
    }

    /// `let f = |p| p`.
    fn identity(&mut self, made: &mut Vec<usize>) -> usize {
        let param = self.emit(Node::Param(None));
        let body = self.local(param);
        let lambda = self.emit(Node::Lambda(None, body, vec![param]));
        let kept = self.let_of(lambda);
        made.push(kept);
        kept
    }

    /// An expression inside so many lists.
    fn in_lists(&mut self, expression: usize, depth: usize) -> usize {
        (0..depth).fold(expression, |inner, _| self.list(vec![inner]))
    }

    /// An equation of two variables inside as many lists as their depths are apart, and `wrong` more on one side; or with a call of
    /// the identity in the place of one of them. Few are negated.
    fn link(&mut self, one: Vertex, other: Vertex, lambda: Option<usize>, wrong: usize) -> usize {
        let outer = one.depth.max(other.depth) + usize::from(self.random.chance(10));
        let mut left = self.local(one.local);
        if self.random.chance(2) {
            left = self.un('n', left);
        }
        let left = self.in_lists(left, outer - one.depth);
        let right = self.local(other.local);
        let right = self.in_lists(right, outer - other.depth + wrong);
        match lambda.filter(|_| outer == 0 && self.random.chance(40)) {
            Some(lambda) => {
                let callee = self.local(lambda);
                let result = self.call(callee, vec![left]);
                self.set(result, right)
            }
            None => self.set(left, right),
        }
    }

    /// Ends that clash, or a link that puts a variable inside itself, at any two of the variables; and some ends twice.
    fn ends(&mut self, equations: &mut Vec<usize>, vertices: &[Vertex]) {
        let (first, last) = (vertices[0], vertices[vertices.len() - 1]);
        for turn in 0..self.random.pick(&[1, 1, 1, 2, 3]) {
            let (near, far) = match turn {
                0 => (first, last),
                _ => (self.random.pick(vertices), self.random.pick(vertices)),
            };
            if self.random.chance(25) {
                equations.push(self.link(far, near, None, 1));
                continue;
            }
            let (left, right) = self.random.pick(&CLASHES);
            equations.push(self.end(near, left));
            equations.push(self.end(far, right));
            while self.random.chance(30) {
                let again = self.random.pick(vertices);
                equations.push(self.end(again, left));
            }
        }
    }

    /// An equation of a variable and an end.
    fn end(&mut self, vertex: Vertex, end: End) -> usize {
        let variable = self.local(vertex.local);
        match end {
            // A call of `def=i32,i32`, and an index.
            End::Declared(I32) if vertex.depth == 0 && self.random.chance(30) => {
                let callee = self.path(Res::Fun(0));
                self.call(callee, vec![variable])
            }
            End::Declared(U64) if vertex.depth == 0 && self.random.chance(50) => {
                let thing = self.list(vec![]);
                self.emit(Node::Index(thing, variable))
            }
            _ => {
                let value = self.end_value(end);
                let value = self.in_lists(value, vertex.depth);
                if self.random.chance(70) { self.set(variable, value) } else { self.set(value, variable) }
            }
        }
    }

    fn end_value(&mut self, end: End) -> usize {
        match end {
            End::Int => self.int(),
            End::Float => self.float(),
            End::Declared(NIL) => self.emit(Node::Block(None, vec![])),
            End::Declared(BOOL) => self.boolean(),
            End::Declared(ty) => self.declared(ty),
            End::Inst(inst) => self.path(Res::Inst(inst)),
        }
    }

    /// Links beside the chain, so that several conflicts overlap.
    fn more_links(&mut self, equations: &mut Vec<usize>, vertices: &[Vertex], lambda: Option<usize>) {
        let most = self.random.pick(&[0, 0, 1, 2, vertices.len()]);
        for _ in 0..self.random.below(most + 1) {
            if self.draft.nodes.len() + 200 > MAX_NODES {
                return;
            }
            let (one, other) = (self.random.pick(vertices), self.random.pick(vertices));
            equations.push(self.link(one, other, lambda, 0));
        }
    }

    /// Equations that share nothing with the chain; few of them with a side that is not plain, or that refuse the body.
    fn harmless(&mut self, equations: &mut Vec<usize>) {
        for _ in 0..self.random.pick(&[0, 1, 2, 4, 8, 16]) {
            let equation = match self.random.below(60) {
                0 => {
                    let (left, right) = (self.any_value(), self.any_value());
                    self.set(left, right)
                }
                1 => self.emit(Node::Str),
                2 => {
                    let operand = self.int();
                    let negated = self.un('n', operand);
                    let value = self.declared(I32);
                    self.set(negated, value)
                }
                3..12 => {
                    let left = self.int();
                    let right = self.emit(Node::Break);
                    self.set(left, right)
                }
                12..30 => {
                    let (left, right) = (self.int(), self.int());
                    self.set(left, right)
                }
                30..45 => {
                    let (left, right) = (self.int(), self.declared(I32));
                    self.set(left, right)
                }
                _ => {
                    let (left, right) = (self.boolean(), self.boolean());
                    self.set(left, right)
                }
            };
            equations.push(equation);
        }
    }

    /// The declared result and the tail: now and then a variable of the chain.
    fn result_of(&mut self, vertices: &[Vertex]) -> (u16, Option<usize>) {
        if self.random.chance(75) {
            return (NIL, None);
        }
        let vertex = self.random.pick(vertices);
        let result = self.random.pick(&[BOOL, I32, U64, NIL]);
        (result, Some(self.local(vertex.local)))
    }
}
