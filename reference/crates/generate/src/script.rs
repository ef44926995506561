//! Statements as a script has them, and a whole script.

use crate::builder::{Builder, Local, Shape};
use crate::draft::{BOOL, NIL, Node, Res, Row};
use crate::typed::Fit;

impl Builder {
    /// About `count` statements of about `size` nodes together.
    pub fn statements(&mut self, count: usize, size: usize) -> Vec<usize> {
        let mut made = Vec::new();
        for _ in 0..count {
            self.statement(&mut made, (size / count).max(2));
        }
        made
    }

    /// Adds one statement, or two that belong together.
    pub fn statement(&mut self, made: &mut Vec<usize>, size: usize) {
        match self.random.below(20) {
            0..3 => self.let_typed(made, size),
            3..6 => self.let_plain(made, size),
            6 | 7 => self.let_then_assign(made, size),
            8 => self.let_lambda(made, size),
            9 => self.let_function(made, size),
            10 => self.let_reference(made, size),
            11..14 => self.assign_local(made, size),
            14 | 15 => self.if_statement(made, size),
            16 => self.loop_statement(made, size),
            17 => self.let_list(made, size),
            _ => {
                let want = self.plain();
                made.push(self.expr(want, Fit::Loose, size).0);
            }
        }
    }

    fn keep(&mut self, made: &mut Vec<usize>, node: usize, shape: Shape) {
        made.push(node);
        self.locals.push(Local { node, shape });
    }

    fn let_typed(&mut self, made: &mut Vec<usize>, size: usize) {
        let ty = self.wanted();
        let init = (size > 2 || self.random.chance(50)).then(|| self.deeper(|b| b.against(&Shape::Row(ty), size)));
        let node = self.emit(Node::Let(Some(ty), init));
        self.keep(made, node, Shape::Row(ty));
    }

    fn let_plain(&mut self, made: &mut Vec<usize>, size: usize) {
        let ty = self.plain();
        let (init, shape) = self.deeper(|b| b.expr(ty, Fit::Loose, size));
        let node = self.let_of(init);
        self.keep(made, node, shape);
    }

    fn let_then_assign(&mut self, made: &mut Vec<usize>, size: usize) {
        let ty = self.plain();
        let node = self.open_let();
        made.push(node);
        let value = self.expr(ty, Fit::Loose, size).0;
        let path = self.local(node);
        made.push(self.assign(path, value));
        let shape = Shape::Any(ty);
        self.locals.push(Local { node, shape });
    }

    /// `let f = |..| ..; f(..)`: the call binds what is open.
    fn let_lambda(&mut self, made: &mut Vec<usize>, size: usize) {
        let output = self.plain();
        let count = self.random.below(4);
        let inputs: Vec<u16> = (0..count).map(|_| self.plain()).collect();
        let (lambda, shape) = self.deeper(|b| b.lambda_for(output, &inputs, size / 2));
        let node = self.let_of(lambda);
        let callee = self.local(node);
        let Shape::Lambda(shapes, _) = &shape else {
            return;
        };
        let args = self.arguments(&shapes.clone(), size / 2);
        self.keep(made, node, shape);
        let call = self.call(callee, args);
        made.push(call);
    }

    /// `let f: fun = |..| ..`, or a def kept in a local.
    fn let_function(&mut self, made: &mut Vec<usize>, size: usize) {
        if self.random.chance(50)
            && let Some(ty) = self.some_fun()
            && self.can_be_met(ty)
        {
            let init = self.deeper(|b| b.against(&Shape::Row(ty), size));
            let node = self.emit(Node::Let(Some(ty), Some(init)));
            self.keep(made, node, Shape::Row(ty));
        } else if !self.draft.defs.is_empty() {
            let def = self.random.below(self.draft.defs.len());
            let path = self.path(Res::Fun(def));
            let node = self.let_of(path);
            if self.draft.defs[def].iter().all(|t| self.can_be_met(*t)) {
                self.keep(made, node, Shape::Def(def));
            } else {
                made.push(node);
            }
        }
    }

    fn let_reference(&mut self, made: &mut Vec<usize>, size: usize) {
        let ty = self.plain();
        let (inner, shape) = self.deeper(|b| b.expr(ty, Fit::Loose, size));
        let reference = self.un('r', inner);
        let node = self.let_of(reference);
        self.keep(made, node, Shape::Ref(Box::new(shape)));
    }

    /// `let a = []; a = [..]`.
    fn let_list(&mut self, made: &mut Vec<usize>, size: usize) {
        let ty = self.plain();
        let Some(&Row::Array(element)) = self.draft.row_of(ty) else {
            return self.let_plain(made, size);
        };
        let empty = self.list(vec![]);
        let node = self.let_of(empty);
        made.push(node);
        let value = self.expr(ty, Fit::Solid, size).0;
        let path = self.local(node);
        made.push(self.assign(path, value));
        let shape = Shape::List(Box::new(Shape::Any(element)));
        self.locals.push(Local { node, shape });
    }

    fn assign_local(&mut self, made: &mut Vec<usize>, size: usize) {
        let usable: Vec<Local> = self
            .locals
            .iter()
            .filter(|l| {
                let target = l.shape.target(&self.draft);
                target.is_some_and(|t| self.can_be_met(t))
            })
            .cloned()
            .collect();
        let Some(local) = self.random.maybe(&usable) else {
            return self.let_typed(made, size);
        };
        let variable = self.local(local.node);
        let value = self.deeper(|b| b.against(&local.shape, size));
        made.push(match self.random.chance(30) {
            true => self.emit(Node::OpAssign(variable, value)),
            false => self.assign(variable, value),
        });
    }

    fn if_statement(&mut self, made: &mut Vec<usize>, size: usize) {
        let condition = self.deeper(|b| b.expr(BOOL, Fit::Exact, size / 3)).0;
        let block = self.inner_block(size / 2);
        let other = self.random.chance(30).then(|| self.deeper(|b| b.inner_block(size / 3)));
        made.push(self.emit(Node::If(condition, block, other)));
    }

    fn loop_statement(&mut self, made: &mut Vec<usize>, size: usize) {
        let block = self.inner_block(size);
        made.push(self.emit(Node::Loop(block)));
    }

    /// A block without tail, often ended by `break` or `return`.
    fn inner_block(&mut self, size: usize) -> usize {
        let seen = self.locals.len();
        let mut statements = match size > 3 && self.level < 40 {
            true => self.deeper(|b| b.statements(2, size)),
            false => Vec::new(),
        };
        if self.random.chance(30) {
            let last = self.deeper(|b| b.diverging(2));
            statements.push(last);
        }
        self.forget_locals(seen);
        self.block(None, statements)
    }

    /// A whole script: parameters, statements and a tail.
    pub fn script(mut self, count: usize, size: usize) -> Vec<u8> {
        let types: Vec<u16> = (0..self.random.below(5)).map(|_| self.wanted()).collect();
        self.params(&types);
        let nil = self.random.chance(30);
        let result = if nil { NIL } else { self.plain() };
        self.draft.result = result;
        let statements = self.statements(count, size);
        let tail = (!nil).then(|| self.against(&Shape::Row(result), size / count.max(1)));
        self.finish(result, tail, statements)
    }
}
