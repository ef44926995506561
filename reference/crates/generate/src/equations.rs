//! Few variables and many equations between small terms.

use crate::builder::{Builder, Local, Shape};
use crate::draft::{BOOL, ERR, F64, I32, NIL, Node, Res, Row, U64};

impl Builder {
    /// Rows that many equations speak of.
    pub fn equation_tables(&mut self) {
        let ints = self.draft.row(Row::Array(I32));
        let nested = self.draft.row(Row::Array(ints));
        self.draft.row(Row::Array(U64));
        let thunk = self.draft.row(Row::Fun(0, I32, vec![]));
        let unary = self.draft.row(Row::Fun(1, I32, vec![I32]));
        self.draft.row(Row::Fun(2, ints, vec![I32, BOOL]));
        self.draft.row(Row::Fun(0, thunk, vec![unary]));
        self.draft.row(Row::Array(unary));
        let inst = self.draft.row(Row::Inst(0));
        self.draft.defs = vec![vec![I32, I32], vec![BOOL, ints, I32], vec![unary, BOOL]];
        self.draft.insts = vec![vec![(1, I32), (2, ints), (3, unary)]];
        self.draft.binds =
            vec![(I32, vec![(1, 0), (2, 1)]), (ints, vec![(1, 1)]), (inst, vec![(2, 2)]), (nested, vec![])];
    }

    pub fn open_lets(&mut self, made: &mut Vec<usize>, count: usize) -> Vec<usize> {
        let lets: Vec<usize> = (0..count).map(|_| self.open_let()).collect();
        made.extend(&lets);
        lets
    }

    /// `a = b` between two locals.
    pub fn equate(&mut self, a: usize, b: usize) -> usize {
        let left = self.local(a);
        let right = self.local(b);
        self.set(left, right)
    }

    /// An equation of two expressions, in one of the forms that raise one.
    pub fn set(&mut self, left: usize, right: usize) -> usize {
        match self.random.below(14) {
            0 => self.emit(Node::OpAssign(left, right)),
            1 | 2 => {
                let op = self.random.pick(&['a', 'b', 'c']);
                self.emit(Node::Bin(op, left, right))
            }
            3 | 4 => self.list(vec![left, right]),
            5 => {
                let condition = self.boolean();
                let block = self.block(Some(left), vec![]);
                self.emit(Node::If(condition, block, Some(right)))
            }
            _ => self.assign(left, right),
        }
    }

    /// A small term over the locals.
    fn term(&mut self, size: usize) -> usize {
        if size == 0 || self.random.chance(50) {
            return match self.random.maybe(&self.locals) {
                Some(local) => self.local(local.node),
                None => self.int(),
            };
        }
        match self.random.below(24) {
            0..3 => self.int(),
            3 => self.float(),
            4 => self.boolean(),
            5 | 6 => self.list(vec![]),
            7..12 => {
                let count = self.random.pick(&[1, 1, 2]);
                let items = (0..count).map(|_| self.term(size - 1)).collect();
                self.list(items)
            }
            12 | 13 => {
                let inner = self.term(size - 1);
                self.un('r', inner)
            }
            14 => {
                let inner = self.term(size - 1);
                self.un('n', inner)
            }
            15 => {
                let thing = self.term(size - 1);
                let index = self.int();
                self.emit(Node::Index(thing, index))
            }
            16..20 => self.term_lambda(size),
            20 => self.emit(Node::Break),
            21 => self.error(),
            _ => {
                let callee = self.term(size - 1);
                let args = (0..self.random.below(3)).map(|_| self.term(size - 1)).collect();
                self.call(callee, args)
            }
        }
    }

    fn term_lambda(&mut self, size: usize) -> usize {
        let seen = self.locals.len();
        let mut params = Vec::new();
        for _ in 0..self.random.below(3) {
            let ty = self.random.chance(25).then_some(I32);
            let node = self.emit(Node::Param(ty));
            params.push(node);
            let shape = Shape::Unknown;
            self.locals.push(Local { node, shape });
        }
        let body = self.term(size - 1);
        self.locals.truncate(seen);
        let output = self.random.chance(20).then_some(I32);
        self.emit(Node::Lambda(output, body, params))
    }

    /// Equations between small terms over a few locals.
    pub fn equations_body(mut self) -> Vec<u8> {
        self.equation_tables();
        if self.random.chance(45) {
            return self.agreeing_body();
        }
        let types: Vec<u16> = (0..self.random.below(4)).map(|_| self.any_type()).collect();
        self.params(&types);
        let mut made = Vec::new();
        for _ in 0..self.random.range(1, 5) {
            self.equation_local(&mut made);
        }
        for _ in 0..self.random.pick(&[2, 3, 4, 6, 12]) {
            let left = self.term(2);
            let right = self.term(2);
            let equation = match self.random.chance(85) {
                true => self.set(left, right),
                false => self.call(left, vec![right]),
            };
            made.push(equation);
        }
        let tail = self.random.chance(40).then(|| self.term(2));
        let result = self.any_type();
        self.finish(result, tail, made)
    }

    /// Variables for numbers and for arrays of them, set only against their own.
    fn agreeing_body(mut self) -> Vec<u8> {
        self.params(&[I32]);
        let mut made = Vec::new();
        let count = self.random.range(2, 5);
        let single = self.open_lets(&mut made, count);
        let arrays = self.open_lets(&mut made, 2);
        for _ in 0..self.random.pick(&[2, 4, 8, 14]) {
            let of_array = self.random.chance(35);
            let left = self.agreeing_term(&single, &arrays, of_array);
            let right = self.agreeing_term(&single, &arrays, of_array);
            made.push(self.set(left, right));
        }
        let param = self.locals[0].node;
        for variable in single {
            made.push(self.equate(variable, param));
        }
        for variable in arrays {
            let left = self.local(variable);
            let right = self.local(param);
            let right = self.list(vec![right]);
            made.push(self.assign(left, right));
        }
        self.finish(NIL, None, made)
    }

    fn agreeing_term(&mut self, single: &[usize], arrays: &[usize], of_array: bool) -> usize {
        if !of_array {
            let local = self.random.pick(single);
            return match self.random.below(30) {
                0 => self.int(),
                1 => self.declared(I32),
                2 => {
                    let operand = self.local(local);
                    self.un('n', operand)
                }
                _ => self.local(local),
            };
        }
        match self.random.below(5) {
            0 => self.list(vec![]),
            1 | 2 => {
                let inner = self.random.pick(single);
                let item = self.local(inner);
                self.list(vec![item])
            }
            _ => {
                let local = self.random.pick(arrays);
                self.local(local)
            }
        }
    }

    fn equation_local(&mut self, made: &mut Vec<usize>) {
        let node = match self.random.below(20) {
            0..11 => self.open_let(),
            11..18 => {
                let init = self.term(2);
                self.let_of(init)
            }
            _ => {
                let init = self.term(2);
                let ty = self.any_type();
                self.emit(Node::Let(Some(ty), Some(init)))
            }
        };
        made.push(node);
        let shape = Shape::Unknown;
        self.locals.push(Local { node, shape });
    }

    /// A value of each kind of type, all as often, as a side of an equation.
    pub fn any_value(&mut self) -> usize {
        match self.random.below(17) {
            0 => self.boolean(),
            1 => self.int(),
            2 => self.float(),
            3 => self.error(),
            4 => self.emit(Node::Break),
            5 => self.path(Res::Inst(0)),
            6 => self.path(Res::Fun(0)),
            7 => {
                let inner = self.int();
                self.un('r', inner)
            }
            8 => {
                let body = self.int();
                self.emit(Node::Lambda(None, body, vec![]))
            }
            9 => self.emit(Node::Block(None, vec![])),
            10 => {
                let fresh = self.open_let();
                let path = self.local(fresh);
                self.emit(Node::Block(Some(path), vec![fresh]))
            }
            other => self.declared_value(other),
        }
    }

    /// A value of a declared type: by number an integer, a float, an array or a function.
    fn declared_value(&mut self, kind: usize) -> usize {
        let ty = match kind {
            11 => self.random.range(2, 5) as u16,
            12 => self.random.range(6, 9) as u16,
            13 => 10,
            14 => F64,
            15 => self.some_fun().unwrap_or(ERR),
            _ => {
                let element = self.any_type();
                match self.draft.find(&Row::Array(element)) {
                    Some(array) => array,
                    None => return self.list(vec![]),
                }
            }
        };
        self.declared(ty)
    }
}
