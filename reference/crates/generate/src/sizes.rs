//! Bodies by their size: a node or two, many levels, many items, many nodes.

use crate::builder::{Builder, Local, Shape};
use crate::draft::{BOOL, I32, MAX_ITEMS, MAX_NODES, NIL, Node, Res, Row};

impl Builder {
    /// One node to eight, of any kind.
    pub fn small_body(mut self) -> Vec<u8> {
        if self.random.chance(60) {
            self.wild_tables();
        }
        let types: Vec<u16> = (0..self.random.below(3)).map(|_| self.any_type()).collect();
        self.params(&types);
        self.level = 1;
        let size = self.random.pick(&[1, 1, 2, 3, 5, 8]);
        let result = self.small_result();
        if self.random.chance(50) {
            self.wild(size);
        } else {
            let statements = (0..size / 3).map(|_| self.wild_statement(2)).collect();
            let tail = self.random.chance(50).then(|| self.wild(1));
            self.block(tail, statements);
        }
        self.close(result)
    }

    fn small_result(&mut self) -> u16 {
        match self.random.chance(50) {
            true => self.random.pick(&[NIL, BOOL, I32, 12]),
            false => self.any_type(),
        }
    }

    /// A chain of nodes, the last of them the body, often 64 levels deep.
    pub fn nested_body(mut self) -> Vec<u8> {
        let inst = self.draft.row(Row::Inst(0));
        self.draft.insts.push(vec![(1, inst)]);
        self.draft.defs = vec![vec![I32, I32], vec![BOOL, BOOL]];
        self.draft.binds = vec![(I32, vec![(1, 0)]), (BOOL, vec![(1, 1)])];
        let levels = match self.random.chance(50) {
            true => 64,
            false => self.random.range(10, 64),
        };
        match self.random.below(6) {
            0 => self.nested_arrays(levels),
            1 => self.nested_functions(),
            2 | 3 => self.nested_steady(levels),
            _ => self.nested_wild(levels),
        }
    }

    /// Arrays in arrays, in a row of their type too.
    fn nested_arrays(mut self, levels: usize) -> Vec<u8> {
        let mut ty = I32;
        let mut node = match self.random.chance(50) {
            true => self.list(vec![]),
            false => self.int(),
        };
        let empty = matches!(self.draft.nodes[node], Node::List(_));
        for level in 1..levels {
            node = self.list(vec![node]);
            if !(empty && level == 1) {
                ty = self.draft.row(Row::Array(ty));
            }
        }
        if empty {
            ty = self.draft.row(Row::Array(ty));
        }
        let ty = if self.random.chance(85) { ty } else { I32 };
        self.close(ty)
    }

    /// Four levels of `fun`, met by lambdas of lambdas.
    fn nested_functions(mut self) -> Vec<u8> {
        let mut ty = I32;
        for _ in 0..self.random.range(2, 4) {
            let mut inputs: Vec<u16> = (0..self.random.below(3)).map(|_| self.plain()).collect();
            let mut output = ty;
            if self.random.chance(40) {
                inputs.push(ty);
                output = I32;
            }
            ty = self.draft.row(Row::Fun(0, output, inputs));
        }
        let (output, inputs) = self.fun_parts(ty).unwrap_or((I32, vec![]));
        self.lambda_for(output, &inputs, 4);
        let result = if self.random.chance(90) { ty } else { I32 };
        self.close(result)
    }

    /// A chain whose nodes keep one type, so that it meets without error.
    fn nested_steady(mut self, levels: usize) -> Vec<u8> {
        let ty = self.random.pick(&[BOOL, I32]);
        self.params(&[ty]);
        let local = self.locals[0].node;
        let mut node = self.local(local);
        let mut level = 1;
        while level < levels {
            let (next, added) = self.steady_step(node, local, levels - level);
            node = next;
            level += added;
        }
        self.close(ty)
    }

    /// One step out, and how many levels it adds.
    fn steady_step(&mut self, node: usize, local: usize, room: usize) -> (usize, usize) {
        match self.random.below(10) {
            0 => (self.un('t', node), 1),
            1 => (self.block(Some(node), vec![]), 1),
            2 => {
                let right = self.local(local);
                (self.emit(Node::Bin('a', node, right)), 1)
            }
            3 => (self.emit(Node::Method(node, 1, vec![])), 1),
            4 if room > 2 => {
                let reference = self.un('r', node);
                (self.un('d', reference), 2)
            }
            5 if room > 2 => {
                let list = self.list(vec![node]);
                let index = self.int();
                (self.emit(Node::Index(list, index)), 2)
            }
            6 if room > 2 => {
                let lambda = self.emit(Node::Lambda(None, node, vec![]));
                let call = self.call(lambda, vec![]);
                let left = self.local(local);
                (self.emit(Node::Bin('c', left, call)), 3)
            }
            7 if room > 3 => {
                let condition = self.boolean();
                let block = self.block(Some(node), vec![]);
                let other = self.local(local);
                (self.emit(Node::If(condition, block, Some(other))), 2)
            }
            8 if room > 2 => {
                let fresh = self.emit(Node::Let(None, Some(node)));
                let tail = self.local(fresh);
                (self.block(Some(tail), vec![fresh]), 2)
            }
            _ => {
                let left = self.local(local);
                (self.emit(Node::Bin('a', left, node)), 1)
            }
        }
    }

    /// A chain of any nodes.
    fn nested_wild(mut self, levels: usize) -> Vec<u8> {
        self.params(&[I32]);
        let mut node = self.wild(1);
        for level in 1..levels {
            let inner = matches!(self.draft.nodes[node], Node::Block(..));
            node = match self.random.below(14) {
                0 if inner => self.emit(Node::Loop(node)),
                1 if inner => {
                    let condition = self.boolean();
                    self.emit(Node::If(condition, node, None))
                }
                2 => self.emit(Node::Return(Some(node))),
                3 => self.emit(Node::Field(node, 1)),
                4 => self.emit(Node::Lambda(None, node, vec![])),
                5 => self.call(node, vec![]),
                6 => self.list(vec![node]),
                7 => {
                    let op = self.random.pick(&['r', 'd', 'n', 't']);
                    self.un(op, node)
                }
                8 => {
                    let left = self.wild(1);
                    self.assign(left, node)
                }
                9 if level + 1 < levels => {
                    let right = self.wild(1);
                    self.emit(Node::Bin('b', node, right))
                }
                10 => {
                    let name = self.name();
                    self.emit(Node::Method(node, name, vec![]))
                }
                _ => {
                    let tail = self.random.chance(60).then_some(node);
                    let rest = if tail.is_none() { vec![node] } else { vec![] };
                    self.emit(Node::Block(tail, rest))
                }
            };
        }
        let result = self.small_result();
        self.close(result)
    }

    /// Many nodes, wide nodes, many declarations.
    pub fn large_body(mut self) -> Vec<u8> {
        self.refusals = self.random.chance(5);
        match self.random.below(14) {
            0 | 1 => self.wide_body(),
            2 => self.full_tables(),
            3 => self.long_report_body(),
            4 | 5 => {
                let count = self.random.range(30, 60);
                self.wild_body(count, 550)
            }
            6 | 7 => {
                let count = self.random.range(40, 60);
                self.slips = self.random.pick(&[0, 0, 10]);
                self.tidy_tables();
                self.script(count, count * 10)
            }
            _ => self.full_body(),
        }
    }

    /// Exactly 1,024 nodes, or nearly so.
    fn full_body(mut self) -> Vec<u8> {
        self.slips = self.random.pick(&[0, 0, 5, 20]);
        self.tidy_tables();
        let types: Vec<u16> = (0..5).map(|_| self.wanted()).collect();
        self.params(&types);
        let total = match self.random.chance(40) {
            true => MAX_NODES,
            false => self.random.range(310, 500),
        };
        let mut made = Vec::new();
        while self.draft.nodes.len() + 220 < total {
            self.statement(&mut made, 8);
        }
        while self.draft.nodes.len() + 1 + made.len() / 59 + 2 < total {
            made.push(self.boolean());
        }
        self.fill_and_close(made, total)
    }

    /// Closes a body, with unused nodes so that the count is exact.
    fn fill_and_close(mut self, made: Vec<usize>, total: usize) -> Vec<u8> {
        let blocks = match made.len() > MAX_ITEMS {
            true => made.len().div_ceil(60),
            false => 0,
        };
        while self.draft.nodes.len() + blocks + 1 < total {
            self.emit(Node::Float);
        }
        self.block(None, made);
        self.close(NIL)
    }

    /// 64 items wherever items may stand.
    fn wide_body(mut self) -> Vec<u8> {
        self.draft.row(Row::Inst(0));
        let inputs = vec![I32; 16];
        let fun = self.draft.row(Row::Fun(0, I32, inputs.clone()));
        let mut def = vec![I32];
        def.extend(&inputs);
        self.draft.defs.push(def);
        let names = (1..=MAX_ITEMS as u16).rev();
        self.draft.insts.push(names.clone().map(|n| (n, I32)).collect());
        self.draft.binds.push((I32, names.map(|n| (n, 0)).collect()));
        self.params(&[I32; 16]);
        let mut made = Vec::new();
        for _ in 0..self.random.range(2, 7) {
            let node = self.wide_node(fun);
            made.push(node);
        }
        self.finish(NIL, None, made)
    }

    fn wide_items(&mut self, count: usize) -> Vec<usize> {
        let one = |b: &mut Self| match b.random.below(40) {
            0 => b.boolean(),
            1..20 => b.int(),
            _ => {
                let local = b.random.pick(&b.locals).node;
                b.local(local)
            }
        };
        (0..count).map(|_| one(self)).collect()
    }

    fn wide_node(&mut self, fun: u16) -> usize {
        let count = self.random.pick(&[15, 16, 16, 17, 63, 64, 64]);
        match self.random.below(8) {
            0 | 1 => {
                let items = self.wide_items(count);
                self.list(items)
            }
            2 => {
                let items = self.wide_items(count);
                self.block(None, items)
            }
            3 => {
                let callee = self.path(Res::Fun(0));
                let args = self.wide_items(count);
                self.call(callee, args)
            }
            4 => {
                let local = self.random.pick(&self.locals).node;
                let receiver = self.local(local);
                let name = self.random.range(1, 65) as u16;
                let args = self.wide_items(count);
                self.emit(Node::Method(receiver, name, args))
            }
            5 => {
                let count = count as u16;
                let local = self.random.pick(&self.locals).node;
                let segments = (0..count).map(|n| (n, Res::Local(local))).collect();
                self.emit(Node::Path(Res::Local(local), 0, segments))
            }
            6 => {
                let thing = self.path(Res::Inst(0));
                let name = self.random.range(1, 65) as u16;
                self.emit(Node::Field(thing, name))
            }
            _ => {
                let inputs = vec![I32; 16];
                let (lambda, _) = self.lambda_for(I32, &inputs, 2);
                self.emit(Node::Let(Some(fun), Some(lambda)))
            }
        }
    }

    /// Declarations up to their limits.
    fn full_tables(mut self) -> Vec<u8> {
        let types = self.random.pick(&[100, 511, 512]);
        let mut last = I32;
        while self.draft.types.len() < types {
            let span = self.draft.types.len() as u16;
            let row = match self.random.chance(60) {
                true => Row::Array(last),
                false => Row::Fun(span, last, vec![span % 12]),
            };
            last = self.draft.row(row);
        }
        for number in 0..self.random.pick(&[64, 255, 256]) {
            self.draft.defs.push(vec![number % 12, number % 10]);
        }
        for number in 0..self.random.pick(&[10, 63, 64]) {
            let on = 14 + number;
            self.draft.insts.push(vec![(number, number % 12)]);
            self.draft.binds.push((on, vec![(1, usize::from(number))]));
        }
        for _ in 0..8 {
            let shape = Shape::Row(self.any_type());
            let node = self.emit(Node::Param(shape.target(&self.draft)));
            self.draft.params.push(node);
            self.locals.push(Local { node, shape });
        }
        let statements = (0..12).map(|_| self.wild_statement(4)).collect();
        self.finish(NIL, None, statements)
    }
}
