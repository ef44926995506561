//! Statements of one theme: pairs of types, kinds of variables, Diverges and Error.

use crate::builder::Builder;
use crate::draft::{BOOL, ERR, F64, I32, NIL, Node, Res, U64};

impl Builder {
    /// Statements of one theme, with a script around them.
    pub fn themed(mut self, theme: fn(&mut Self, &mut Vec<usize>), most: usize) -> Vec<u8> {
        self.equation_tables();
        self.params(&[I32, U64]);
        let mut made = Vec::new();
        for _ in 0..self.random.range(1, most) {
            if self.random.chance(25) {
                self.statement(&mut made, 6);
            }
            theme(&mut self, &mut made);
        }
        self.finish(NIL, None, made)
    }

    pub fn pairs_body(self) -> Vec<u8> {
        self.themed(Self::pair_theme, 6)
    }

    /// Any kind of type against any other.
    fn pair_theme(&mut self, made: &mut Vec<usize>) {
        let left = self.any_value();
        let right = self.any_value();
        made.push(self.set(left, right));
    }

    pub fn kinds_body(self) -> Vec<u8> {
        self.themed(Self::kind_theme, 4)
    }

    /// A number variable against a Regular one, open or bound, and near misses.
    fn kind_theme(&mut self, made: &mut Vec<usize>) {
        let regular = self.open_let();
        made.push(regular);
        if self.random.chance(60) {
            let left = self.local(regular);
            let right = self.any_value();
            made.push(self.assign(left, right));
        }
        let number = match self.random.chance(60) {
            true => self.int(),
            false => self.float(),
        };
        let number = match self.random.chance(40) {
            true => number,
            false => {
                let kept = self.let_of(number);
                made.push(kept);
                self.local(kept)
            }
        };
        let equation = self.kind_equation(number, regular);
        made.push(equation);
    }

    fn kind_equation(&mut self, number: usize, regular: usize) -> usize {
        let variable = self.local(regular);
        match self.random.below(9) {
            0 => self.set(variable, number),
            8 => self.kind_call(number, variable),
            1 => {
                let left = self.list(vec![number]);
                let right = self.list(vec![variable]);
                self.assign(left, right)
            }
            2 => {
                let other = self.any_value();
                let clash = self.set(number, other);
                let tail = self.local(regular);
                self.block(Some(clash), vec![variable, tail])
            }
            3 => {
                let holder = self.open_let();
                let left = self.local(holder);
                let bound = self.assign(left, number);
                let left = self.local(holder);
                let clash = self.assign(left, variable);
                self.block(None, vec![holder, bound, clash])
            }
            _ => self.set(number, variable),
        }
    }

    /// A lambda's input bound to a number, then given a Regular variable.
    fn kind_call(&mut self, number: usize, variable: usize) -> usize {
        let param = self.emit(Node::Param(None));
        let left = self.local(param);
        let body = self.assign(left, number);
        let lambda = self.emit(Node::Lambda(None, body, vec![param]));
        self.call(lambda, vec![variable])
    }

    /// Diverges or Error as an operand, as a part, or as a side of an equation.
    fn odd_theme(&mut self, made: &mut Vec<usize>) {
        let odd = match self.random.below(4) {
            0 => self.error(),
            1 => self.emit(Node::Return(None)),
            2 => self.declared(ERR),
            _ => self.emit(Node::Break),
        };
        let node = match self.random.below(17) {
            0..6 => self.odd_operand(odd),
            6..14 => self.odd_part(odd),
            14 => {
                let other = self.any_value();
                self.set(other, odd)
            }
            _ => {
                let other = self.any_value();
                self.set(odd, other)
            }
        };
        made.push(node);
    }

    /// Where a rule asks what the type is.
    fn odd_operand(&mut self, odd: usize) -> usize {
        let name = self.name();
        match self.random.below(6) {
            0 => {
                let op = self.random.pick(&['d', 'r', 'n', 't']);
                self.un(op, odd)
            }
            1 => self.emit(Node::Field(odd, name)),
            2 => {
                let args = self.some_args(2);
                self.emit(Node::Method(odd, name, args))
            }
            3 => {
                let args = self.some_args(2);
                self.call(odd, args)
            }
            4 => {
                let index = self.any_value();
                self.emit(Node::Index(odd, index))
            }
            _ => {
                let block = self.block(None, vec![]);
                self.emit(Node::If(odd, block, None))
            }
        }
    }

    /// Where a rule sets it against a type of its own, or hands it on.
    fn odd_part(&mut self, odd: usize) -> usize {
        match self.random.below(8) {
            0 => {
                let callee = self.path(Res::Fun(0));
                self.call(callee, vec![odd])
            }
            1 => self.let_of(odd),
            2 => {
                let ty = self.random.pick(&[BOOL, I32, F64, ERR, 14, 17]);
                self.emit(Node::Let(Some(ty), Some(odd)))
            }
            3 => {
                let thing = self.declared(14);
                self.emit(Node::Index(thing, odd))
            }
            4 => self.emit(Node::Return(Some(odd))),
            5 => {
                let output = self.random.chance(40).then_some(I32);
                self.emit(Node::Lambda(output, odd, vec![]))
            }
            6 => self.emit(Node::Block(Some(odd), vec![])),
            _ => {
                let receiver = self.declared(I32);
                self.emit(Node::Method(receiver, 2, vec![odd]))
            }
        }
    }

    pub fn odd_body(self) -> Vec<u8> {
        self.themed(Self::odd_theme, 5)
    }
}
