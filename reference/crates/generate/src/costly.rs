//! Bodies that take a checker long unless it takes care.

use crate::builder::Builder;
use crate::draft::{I32, NIL, Node, Row};

impl Builder {
    pub fn costly_body(mut self) -> Vec<u8> {
        self.params(&[I32]);
        match self.random.below(8) {
            0..3 => self.shared_parts(),
            3 => self.wide_functions(),
            4 | 5 => self.long_chain(),
            _ => self.marks_to_and_fro(),
        }
    }

    /// Each variable holds the one before twice, so that paths through them double.
    fn shared_parts(mut self) -> Vec<u8> {
        let mut last = self.open_let();
        let mut made = vec![last];
        for _ in 0..self.random.pick(&[4, 8, 16, 40, 80]) {
            let next = self.open_let();
            let left = self.local(next);
            let lambda = self.holds_twice(last);
            let bound = self.assign(left, lambda);
            made.extend([next, bound]);
            last = next;
        }
        let first = self.local(made[0]);
        let value = match self.random.chance(40) {
            true => self.local(last),
            false => self.declared(I32),
        };
        made.push(self.assign(first, value));
        self.finish(NIL, None, made)
    }

    /// A lambda with this local's type as its input and its output.
    fn holds_twice(&mut self, local: usize) -> usize {
        let param = self.emit(Node::Param(None));
        let left = self.local(param);
        let right = self.local(local);
        let bound = self.assign(left, right);
        let tail = self.local(local);
        let body = self.block(Some(tail), vec![bound]);
        self.emit(Node::Lambda(None, body, vec![param]))
    }

    /// Functions of many inputs, four levels of them, against lambdas of lambdas.
    fn wide_functions(mut self) -> Vec<u8> {
        let inputs = self.random.pick(&[2, 3, 5, 8, 16]);
        let mut ty = I32;
        let body = self.int();
        let mut inner = self.let_of(body);
        let mut made = vec![inner];
        for _ in 0..self.random.range(2, 4) {
            ty = self.draft.row(Row::Fun(0, ty, vec![ty; inputs]));
            let lambda = self.all_inputs(inner, inputs);
            inner = self.let_of(lambda);
            made.push(inner);
        }
        let value = self.local(inner);
        made.push(self.emit(Node::Let(Some(ty), Some(value))));
        self.finish(NIL, None, made)
    }

    /// A lambda whose inputs and output all have this local's type.
    fn all_inputs(&mut self, local: usize, inputs: usize) -> usize {
        let params: Vec<usize> = (0..inputs).map(|_| self.emit(Node::Param(None))).collect();
        let mut bound = Vec::new();
        for &param in &params {
            let left = self.local(param);
            let right = self.local(local);
            bound.push(self.assign(left, right));
        }
        let tail = self.local(local);
        let body = self.block(Some(tail), bound);
        self.emit(Node::Lambda(None, body, params))
    }

    /// Hundreds of variables bound one to the next, closed to a ring or not.
    fn long_chain(mut self) -> Vec<u8> {
        let count = self.random.range(20, 160);
        let lets: Vec<usize> = (0..count).map(|_| self.open_let()).collect();
        let mut made = lets.clone();
        for pair in lets.windows(2) {
            made.push(self.equate(pair[0], pair[1]));
        }
        let (first, last) = (lets[0], lets[count - 1]);
        for _ in 0..self.random.range(1, 3) {
            made.push(match self.random.below(3) {
                0 => self.equate(last, first),
                _ => {
                    let left = self.local(first);
                    let right = self.declared(I32);
                    self.assign(left, right)
                }
            });
        }
        self.finish(NIL, None, made)
    }

    /// A mark passed between two bound variables again and again.
    fn marks_to_and_fro(mut self) -> Vec<u8> {
        let lets = [self.open_let(), self.open_let()];
        let mut made = lets.to_vec();
        for local in lets {
            let left = self.local(local);
            let right = self.declared(I32);
            made.push(self.assign(left, right));
        }
        let operand = self.local(lets[0]);
        made.push(self.un('n', operand));
        for turn in 0..self.random.range(2, 20) {
            made.push(self.equate(lets[turn % 2], lets[(turn + 1) % 2]));
        }
        self.finish(NIL, None, made)
    }
}
