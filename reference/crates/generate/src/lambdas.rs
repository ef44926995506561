//! Lambdas against functions, both ways round, and calls of both.

use crate::builder::{Builder, Local, Shape};
use crate::draft::{BOOL, I32, NIL, Node, Row};

/// Where a lambda departs from the function it is set against.
#[derive(Clone, Copy, PartialEq)]
enum Flaw {
    None,
    Output,
    Length,
    Input,
}

impl Builder {
    /// A `fun` row of up to four levels.
    fn deep_fun(&mut self) -> u16 {
        let mut part = self.basic();
        for _ in 0..self.random.pick(&[1, 1, 1, 2, 2, 3, 4]) {
            part = self.fun_around(part);
            if self.random.chance(15) {
                part = self.draft.row(Row::Array(part));
            }
        }
        part
    }

    /// A `fun` row with this type as its output or as an input.
    fn fun_around(&mut self, part: u16) -> u16 {
        let count = self.random.pick(&[0, 1, 1, 2, 3]);
        let mut inputs: Vec<u16> = (0..count).map(|_| self.plain()).collect();
        let span = self.random.below(3) as u16;
        let output = match self.random.chance(60) || inputs.is_empty() {
            true => part,
            false => {
                inputs[0] = part;
                self.plain()
            }
        };
        self.draft.row(Row::Fun(span, output, inputs))
    }

    fn fun_tables(&mut self) {
        self.draft.row(Row::Array(I32));
        for _ in 0..self.random.range(2, 5) {
            self.deep_fun();
        }
        for _ in 0..self.random.below(3) {
            let def = vec![self.plain(), self.wanted(), self.wanted()];
            self.draft.defs.push(def);
        }
    }

    /// A lambda that meets this `fun`, but for one flaw.
    fn flawed_lambda(&mut self, fun: u16, flaw: Flaw) -> usize {
        let Some((mut output, mut inputs)) = self.fun_parts(fun) else {
            return self.int();
        };
        match flaw {
            Flaw::None => {}
            Flaw::Output => output = self.other_than(output),
            Flaw::Length if inputs.is_empty() || self.random.chance(50) => inputs.push(I32),
            Flaw::Length => {
                inputs.pop();
            }
            Flaw::Input => {
                if let Some(last) = inputs.last_mut() {
                    *last = if *last == I32 { BOOL } else { I32 };
                }
            }
        }
        self.deeper(|b| b.lambda_for(output, &inputs, 4)).0
    }

    fn some_flaw(&mut self) -> Flaw {
        match self.random.chance(55) {
            true => Flaw::None,
            false => self.random.pick(&[Flaw::Output, Flaw::Length, Flaw::Input]),
        }
    }

    /// A lambda against a function, one way round or the other.
    fn lambda_theme(&mut self, made: &mut Vec<usize>) {
        let fun = self.some_fun().unwrap_or(I32);
        let flaw = self.some_flaw();
        match self.random.below(10) {
            0 | 1 => {
                let lambda = self.flawed_lambda(fun, flaw);
                let node = self.emit(Node::Let(Some(fun), Some(lambda)));
                made.push(node);
                let shape = Shape::Row(fun);
                self.locals.push(Local { node, shape });
            }
            2 => {
                let left = self.flawed_lambda(fun, flaw);
                let right = self.declared(fun);
                made.push(self.set(left, right));
            }
            3 => self.lambda_in_variable(made, fun, flaw),
            4 => self.lambda_called(made),
            5 => self.lambda_returned(made),
            6 => self.lambda_argument(made, fun, flaw),
            7 => self.same_functions(made, fun),
            8 => {
                let left = self.flawed_lambda(fun, flaw);
                let left = self.list(vec![left]);
                let right = self.declared(fun);
                let right = self.list(vec![right]);
                made.push(self.set(right, left));
            }
            _ => self.statement(made, 8),
        }
    }

    /// A variable bound to a lambda, then set against the function.
    fn lambda_in_variable(&mut self, made: &mut Vec<usize>, fun: u16, flaw: Flaw) {
        let holder = self.open_let();
        made.push(holder);
        let lambda = self.flawed_lambda(fun, flaw);
        let left = self.local(holder);
        made.push(self.assign(left, lambda));
        let variable = self.local(holder);
        let value = self.declared(fun);
        made.push(match self.random.chance(50) {
            true => self.assign(variable, value),
            false => self.assign(value, variable),
        });
        if self.random.chance(30) {
            let callee = self.local(holder);
            let args = self.some_args(2);
            made.push(self.call(callee, args));
        }
    }

    /// `let f = |..| ..`, called with arguments that fit or do not.
    fn lambda_called(&mut self, made: &mut Vec<usize>) {
        let output = self.plain();
        let count = self.random.pick(&[0, 1, 1, 2, 3, 16]);
        let inputs: Vec<u16> = (0..count).map(|_| self.plain()).collect();
        let (lambda, shape) = self.deeper(|b| b.lambda_for(output, &inputs, 4));
        let node = self.let_of(lambda);
        made.push(node);
        let Shape::Lambda(shapes, _) = &shape else {
            return;
        };
        for _ in 0..self.random.range(1, 3) {
            let args = match self.random.chance(65) {
                true => self.arguments(shapes, count),
                false => self.some_args(3),
            };
            let callee = self.local(node);
            made.push(self.call(callee, args));
        }
        self.locals.push(Local { node, shape });
    }

    /// A lambda that gives a lambda, called twice; `return` in it leaves the function.
    fn lambda_returned(&mut self, made: &mut Vec<usize>) {
        let param = self.emit(Node::Param(None));
        let inner = match self.random.chance(50) {
            true => self.local(param),
            false => {
                let value = self.any_value();
                self.emit(Node::Return(Some(value)))
            }
        };
        let inner = self.emit(Node::Lambda(None, inner, vec![]));
        let output = match self.random.chance(30) {
            true => self.some_fun(),
            false => None,
        };
        let outer = self.emit(Node::Lambda(output, inner, vec![param]));
        let argument = self.any_value();
        let first = self.call(outer, vec![argument]);
        let second = self.call(first, vec![]);
        made.push(self.let_of(second));
    }

    /// A lambda as argument of a def, or of a function kept in a local.
    fn lambda_argument(&mut self, made: &mut Vec<usize>, fun: u16, flaw: Flaw) {
        let taker = self.draft.row(Row::Fun(0, I32, vec![fun]));
        let lambda = self.flawed_lambda(fun, flaw);
        let callee = self.declared(taker);
        made.push(self.call(callee, vec![lambda]));
        let defs = self.draft.defs.len();
        if defs > 0 {
            let def = self.random.below(defs);
            if let Some(call) = self.call_def(def, 6) {
                made.push(call);
            }
        }
    }

    /// Equal functions, lambdas, references or defs never meet.
    fn same_functions(&mut self, made: &mut Vec<usize>, fun: u16) {
        let local = match self.random.below(4) {
            0 => self.typed_let(fun),
            1 => {
                let lambda = self.flawed_lambda(fun, Flaw::None);
                self.let_of(lambda)
            }
            2 => {
                let inner = self.boolean();
                let reference = self.un('r', inner);
                self.let_of(reference)
            }
            _ => {
                let res = self.declared_res();
                let path = self.path(res);
                self.let_of(path)
            }
        };
        made.push(local);
        let left = self.local(local);
        let right = self.local(local);
        made.push(self.set(left, right));
    }

    pub fn lambdas_body(mut self) -> Vec<u8> {
        self.one_of_each();
        self.fun_tables();
        self.params(&[I32, BOOL]);
        let mut made = Vec::new();
        for _ in 0..self.random.range(1, 4) {
            self.lambda_theme(&mut made);
        }
        self.lambda_end(made)
    }

    /// One instance and one def, so that values of every kind can be made.
    pub fn one_of_each(&mut self) {
        self.draft.row(Row::Inst(0));
        self.draft.insts.push(vec![(1, I32), (2, BOOL)]);
        self.draft.defs.push(vec![I32, I32]);
    }

    /// The result of a function may be a function itself.
    fn lambda_end(mut self, made: Vec<usize>) -> Vec<u8> {
        match self.some_fun() {
            Some(fun) if self.random.chance(30) => {
                let flaw = self.some_flaw();
                let tail = self.flawed_lambda(fun, flaw);
                self.finish(fun, Some(tail), made)
            }
            _ => self.finish(NIL, None, made),
        }
    }
}
