//! Any node in any place: trees built without regard to types.

use crate::builder::{Builder, Local, Shape};
use crate::draft::{Node, Res};

impl Builder {
    /// A path to something typed, or to whatever is declared.
    pub fn wild_path(&mut self) -> usize {
        let recent = self.locals.len().saturating_sub(6);
        let from = if self.random.chance(60) { recent } else { 0 };
        let count = self.locals.len() - from;
        if count > 0 && self.random.chance(75) {
            let node = self.locals[from + self.random.below(count)].node;
            return self.local(node);
        }
        let res = self.declared_res();
        self.path(res)
    }

    /// A def, constructor or instance, or an error if there is none.
    pub fn declared_res(&mut self) -> Res {
        let defs = self.draft.defs.len();
        let insts = self.draft.insts.len();
        match self.random.below(10) {
            0..3 if defs > 0 => Res::Fun(self.random.below(defs)),
            3..5 if defs > 0 => Res::Ctor(self.random.below(defs)),
            5..9 if insts > 0 => Res::Inst(self.random.below(insts)),
            _ => Res::Error,
        }
    }

    fn wild_leaf(&mut self) -> usize {
        match self.random.below(20) {
            0..4 => self.int(),
            4 | 5 => self.float(),
            6 | 7 => self.boolean(),
            8 => self.list(vec![]),
            9 => self.emit(Node::Break),
            10 => self.error(),
            11 if self.refusals && self.random.chance(10) => self.emit(Node::Str),
            _ => self.wild_path(),
        }
    }

    fn wild_type(&mut self, percent: usize) -> Option<u16> {
        self.random.chance(percent).then(|| self.any_type())
    }

    fn wild_items(&mut self, size: usize) -> Vec<usize> {
        let count = self.random.pick(&[0, 1, 1, 2, 3]);
        (0..count).map(|_| self.wild(size / count.max(1))).collect()
    }

    /// A tree of about `size` nodes.
    pub fn wild(&mut self, size: usize) -> usize {
        if size < 2 || self.level > 48 {
            return self.wild_leaf();
        }
        self.deeper(|b| b.wild_node(size - 1))
    }

    fn wild_node(&mut self, size: usize) -> usize {
        match self.random.below(32) {
            0..4 => self.wild_bin(size),
            4..7 => {
                let op = self.random.pick(&['d', 'r', 'r', 'n', 't']);
                let operand = self.wild(size);
                self.un(op, operand)
            }
            7 | 8 => {
                let thing = self.wild(size);
                let name = self.name();
                self.emit(Node::Field(thing, name))
            }
            9..12 => {
                let items = self.wild_items(size);
                self.list(items)
            }
            12..14 => {
                let thing = self.wild(size / 2);
                let index = self.doubtful(|b| b.wild(size / 2));
                self.emit(Node::Index(thing, index))
            }
            14..18 => self.wild_assign(size),
            18 | 19 => self.wild_if(size),
            20 => {
                let block = self.wild_block(size);
                self.emit(Node::Loop(block))
            }
            21..24 => {
                let callee = self.wild(size / 2);
                let args = self.doubtful(|b| b.wild_items(size / 2));
                self.call(callee, args)
            }
            24..26 => {
                let receiver = self.wild(size / 2);
                let name = self.name();
                let args = self.doubtful(|b| b.wild_items(size / 2));
                self.emit(Node::Method(receiver, name, args))
            }
            26 => {
                let value = self.random.chance(70).then(|| self.wild(size));
                self.emit(Node::Return(value))
            }
            27 => self.wild_block(size),
            28..31 => self.wild_lambda(size),
            _ => self.wild_leaf(),
        }
    }

    /// A part the walk may not reach: its locals may stay untyped.
    fn doubtful<T>(&mut self, make: impl FnOnce(&mut Self) -> T) -> T {
        let seen = self.locals.len();
        let made = make(self);
        if !self.refusals || self.random.chance(50) {
            self.locals.truncate(seen);
        }
        made
    }

    fn wild_bin(&mut self, size: usize) -> usize {
        let op = self.random.pick(&['a', 'b', 'c']);
        let left = self.wild(size / 2);
        let right = self.wild(size / 2);
        self.emit(Node::Bin(op, left, right))
    }

    fn wild_assign(&mut self, size: usize) -> usize {
        let variable = match self.random.chance(70) {
            true => self.wild_path(),
            false => self.wild(size / 2),
        };
        let value = self.wild(size / 2);
        match self.random.chance(30) {
            true => self.emit(Node::OpAssign(variable, value)),
            false => self.assign(variable, value),
        }
    }

    fn wild_if(&mut self, size: usize) -> usize {
        let condition = match self.random.chance(40) {
            true => self.boolean(),
            false => self.wild(size / 3),
        };
        let block = self.wild_block(size / 3);
        let other = self.random.chance(60).then(|| self.wild(size / 3));
        self.emit(Node::If(condition, block, other))
    }

    fn wild_lambda(&mut self, size: usize) -> usize {
        let mut params = Vec::new();
        for _ in 0..self.random.pick(&[0, 1, 1, 2, 3]) {
            let ty = self.wild_type(30);
            let node = self.emit(Node::Param(ty));
            params.push(node);
            let shape = Shape::Unknown;
            self.locals.push(Local { node, shape });
        }
        let body = self.wild(size);
        let output = self.wild_type(30);
        self.emit(Node::Lambda(output, body, params))
    }

    /// A block; its locals stay in use after it.
    pub fn wild_block(&mut self, size: usize) -> usize {
        let count = self.random.pick(&[0, 1, 2, 3, 4]).min(size);
        let share = size / (count + 1);
        let mut statements = Vec::new();
        for _ in 0..count {
            let statement = self.deeper(|b| b.wild_statement(share));
            statements.push(statement);
        }
        let tail = self.random.chance(60).then(|| self.deeper(|b| b.wild(share)));
        self.block(tail, statements)
    }

    pub fn wild_statement(&mut self, size: usize) -> usize {
        if self.random.chance(55) {
            return self.wild(size);
        }
        let init = self.random.chance(70).then(|| self.wild(size));
        let ty = self.wild_type(25);
        let node = self.emit(Node::Let(ty, init));
        let shape = Shape::Unknown;
        self.locals.push(Local { node, shape });
        node
    }

    /// A whole body of wild statements.
    pub fn wild_body(mut self, count: usize, size: usize) -> Vec<u8> {
        self.wild_tables();
        let types: Vec<u16> = (0..self.random.below(4)).map(|_| self.any_type()).collect();
        self.params(&types);
        let share = size / count.max(1);
        let statements = (0..count).map(|_| self.wild_statement(share)).collect();
        let tail = self.random.chance(60).then(|| self.wild(share));
        let result = self.any_type();
        self.finish(result, tail, statements)
    }
}
