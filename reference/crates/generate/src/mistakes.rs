//! Mistakes a script has now and then: each kind of error and each refusal.

use crate::builder::{Builder, Shape};
use crate::draft::{BOOL, Node, Res};
use crate::typed::{Fit, Made};

impl Builder {
    /// A wrong expression where one of type `want` is due.
    pub fn mistake(&mut self, want: u16, size: usize) -> Made {
        let size = size / 2;
        match self.random.below(21) {
            0..3 => {
                let other = self.other_than(want);
                self.quietly(other, Fit::Loose, size)
            }
            3 => self.bad_index(size),
            4 | 5 => (self.bad_unary(size), Shape::Unknown),
            6 | 7 => self.bad_binary(want, size),
            8 => self.bad_callee(size),
            9..12 => self.bad_arguments(size),
            12 => self.bad_field(size),
            13 => self.bad_method(size),
            14 => (self.kind_clash(), Shape::Unknown),
            15 => self.bad_condition(want, size),
            16 => (self.list(vec![]), Shape::Unknown),
            17 => (self.error(), Shape::Unknown),
            18 => self.open_local(),
            19 => self.bad_field(size),
            _ => self.rare(),
        }
    }

    /// An expression of this type, its parts as likely to be wrong as any.
    fn quietly(&mut self, want: u16, fit: Fit, size: usize) -> Made {
        let slips = std::mem::replace(&mut self.slips, 0);
        let made = self.expr(want, fit, size);
        self.slips = slips;
        made
    }

    fn bad_index(&mut self, size: usize) -> Made {
        let want = self.basic();
        let thing = self.quietly(want, Fit::Loose, size).0;
        let index = self.int();
        (self.emit(Node::Index(thing, index)), Shape::Unknown)
    }

    fn bad_unary(&mut self, size: usize) -> usize {
        let op = self.random.pick(&['d', 'n', 't']);
        let want = match op {
            'n' => self.random.pick(&[BOOL, 0, 2, 12]),
            't' => self.random.pick(&[0, 10, 11, 12]),
            _ => self.plain(),
        };
        let fit = if op == 'n' { Fit::Exact } else { Fit::Loose };
        let operand = self.quietly(want, fit, size).0;
        self.un(op, operand)
    }

    fn bad_binary(&mut self, want: u16, size: usize) -> Made {
        let other = self.other_than(want);
        let left = self.quietly(want, Fit::Loose, size / 2).0;
        let right = self.quietly(other, Fit::Loose, size / 2).0;
        let op = self.random.pick(&['a', 'b', 'c']);
        (self.emit(Node::Bin(op, left, right)), Shape::Unknown)
    }

    fn bad_callee(&mut self, size: usize) -> Made {
        let want = self.plain();
        let callee = self.quietly(want, Fit::Loose, size).0;
        let args = self.some_args(2);
        (self.call(callee, args), Shape::Unknown)
    }

    /// Small arguments of any type.
    pub fn some_args(&mut self, most: usize) -> Vec<usize> {
        let count = self.random.below(most + 1);
        let mut args = Vec::new();
        for _ in 0..count {
            let want = self.plain();
            args.push(self.quietly(want, Fit::Loose, 1).0);
        }
        args
    }

    /// A call with wrong arguments, too few or too many.
    fn bad_arguments(&mut self, size: usize) -> Made {
        if self.draft.defs.is_empty() {
            let param = self.emit(Node::Param(Some(BOOL)));
            let body = self.int();
            let callee = self.emit(Node::Lambda(None, body, vec![param]));
            let args = self.some_args(3);
            return (self.call(callee, args), Shape::Unknown);
        }
        let def = self.random.below(self.draft.defs.len());
        let output = Shape::Row(self.draft.defs[def][0]);
        let first = self.draft.defs[def].get(1).copied();
        if let Some(on) = first
            && let Some(name) = self.name_of_method(on, def)
        {
            let receiver = self.quietly(on, Fit::Exact, size).0;
            let args = self.some_args(3);
            return (self.emit(Node::Method(receiver, name, args)), output);
        }
        let callee = self.path(Res::Fun(def));
        let args = self.some_args(4);
        (self.call(callee, args), output)
    }

    fn name_of_method(&mut self, on: u16, def: usize) -> Option<u16> {
        let items = self.draft.binds.iter().flat_map(|bind| &bind.1);
        let names: Vec<u16> = items.filter(|i| i.1 == def).map(|i| i.0).collect();
        let name = self.random.maybe(&names)?;
        (self.draft.method(on, name) == Some(def)).then_some(name)
    }

    /// A missing field, or a field of what has none.
    fn bad_field(&mut self, size: usize) -> Made {
        let insts = self.draft.insts.len();
        let thing = if insts > 0 && self.random.chance(60) {
            let inst = self.random.below(insts);
            self.path(Res::Inst(inst))
        } else {
            let want = self.plain();
            self.quietly(want, Fit::Loose, size).0
        };
        let name = self.random.range(5, 9) as u16;
        (self.emit(Node::Field(thing, name)), Shape::Unknown)
    }

    fn bad_method(&mut self, size: usize) -> Made {
        let want = self.plain();
        let receiver = self.quietly(want, Fit::Loose, size).0;
        let name = self.name();
        let args = self.some_args(2);
        (self.emit(Node::Method(receiver, name, args)), Shape::Unknown)
    }

    /// A number literal set against a Regular variable.
    fn kind_clash(&mut self) -> usize {
        let regular = |local: &&crate::builder::Local| matches!(local.shape, Shape::Any(_));
        let found: Vec<usize> = self.locals.iter().filter(regular).map(|l| l.node).collect();
        let left = match self.random.chance(70) {
            true => self.int(),
            false => self.float(),
        };
        match self.random.maybe(&found) {
            Some(node) => {
                let right = self.local(node);
                self.emit(Node::Bin('a', left, right))
            }
            None => {
                let fresh = self.open_let();
                let right = self.local(fresh);
                let sum = self.emit(Node::Bin('a', left, right));
                self.emit(Node::Block(Some(sum), vec![fresh]))
            }
        }
    }

    fn bad_condition(&mut self, want: u16, size: usize) -> Made {
        let other = self.other_than(BOOL);
        let condition = self.quietly(other, Fit::Loose, size / 2).0;
        let (tail, shape) = self.quietly(want, Fit::Loose, size / 2);
        let block = self.block(Some(tail), vec![]);
        let otherwise = self.against(&shape, 1);
        let node = self.emit(Node::If(condition, block, Some(otherwise)));
        (node, shape)
    }

    /// A local that nothing ever binds.
    fn open_local(&mut self) -> Made {
        let fresh = self.open_let();
        let block = self.emit(Node::Block(None, vec![fresh]));
        (block, Shape::Row(0))
    }

    /// What ends a walk, or a failed path.
    fn rare(&mut self) -> Made {
        let node = match self.random.below(8) {
            0..3 if !self.refusals => self.error(),
            0 => self.emit(Node::Str),
            1 => self.path(Res::Other),
            2 => {
                let untyped = self.emit(Node::Param(None));
                self.local(untyped)
            }
            3..6 if !self.draft.insts.is_empty() => {
                let name = self.name();
                let segments = vec![(name, Res::Inst(0)), (self.name(), Res::Error)];
                self.emit(Node::Path(Res::Inst(0), 1, segments))
            }
            _ => {
                let name = self.name();
                self.emit(Node::Path(Res::Error, 0, vec![(name, Res::Error)]))
            }
        };
        (node, Shape::Unknown)
    }
}
