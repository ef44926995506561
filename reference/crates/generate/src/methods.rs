//! Methods and fields on receivers of every kind.

use crate::builder::{Builder, Shape};
use crate::draft::{BOOL, ERR, F64, I32, NIL, Node, Res, Row};
use crate::typed::Fit;

impl Builder {
    /// Binds on types of every kind, several on one, names twice.
    pub fn method_tables(&mut self) {
        self.one_of_each();
        let ints = self.draft.row(Row::Array(I32));
        let fun = self.draft.row(Row::Fun(0, I32, vec![I32]));
        let funs = self.draft.row(Row::Array(fun));
        let def = self.draft.row(Row::Fn(0));
        let nested = self.draft.row(Row::Array(ints));
        let types = [I32, I32, BOOL, F64, ERR, NIL, 14, ints, ints, nested, fun, def];
        for _ in 0..self.random.range(1, 6) {
            let on = match self.random.chance(12) {
                true => funs,
                false => self.random.pick(&types),
            };
            let items = self.method_items(on);
            self.draft.binds.push((on, items));
        }
    }

    /// Methods that take their type first, most of them.
    fn method_items(&mut self, on: u16) -> Vec<(u16, usize)> {
        let mut items = Vec::new();
        for _ in 0..self.random.below(4) {
            let mut def = vec![self.plain()];
            match self.random.below(8) {
                0 => {}
                1 => def.push(self.any_type()),
                _ => def.push(on),
            }
            def.extend((0..self.random.below(3)).map(|_| self.wanted()));
            items.push((self.name(), self.draft.defs.len()));
            self.draft.defs.push(def);
        }
        items
    }

    /// A receiver of any kind, with its type if that is a row.
    fn receiver(&mut self) -> (usize, Option<u16>) {
        let bound = self.random.maybe(&self.draft.binds);
        if let Some((on, _)) = bound
            && self.random.chance(65)
        {
            return (self.expr(on, Fit::Exact, 3).0, Some(on));
        }
        match self.random.below(6) {
            0 => {
                let inner = self.any_value();
                (self.list(vec![inner]), None)
            }
            1 => (self.list(vec![]), None),
            2 => {
                let fresh = self.open_let();
                let path = self.local(fresh);
                (self.emit(Node::Block(Some(path), vec![fresh])), None)
            }
            _ => (self.any_value(), None),
        }
    }

    fn method_theme(&mut self, made: &mut Vec<usize>) {
        if self.random.chance(20) {
            return self.field_theme(made);
        }
        let (receiver, on) = self.receiver();
        let name = self.method_name(on);
        let found = on.and_then(|on| self.draft.method(on, name));
        let args = match found {
            Some(def) if self.random.chance(75) => self.method_args(def),
            _ => self.some_args(3),
        };
        let call = self.emit(Node::Method(receiver, name, args));
        made.push(match self.random.chance(50) {
            true => self.let_of(call),
            false => call,
        });
    }

    /// A field of an instance, there or missing, or of the field's own type.
    fn field_theme(&mut self, made: &mut Vec<usize>) {
        let thing = match self.random.chance(80) {
            true => self.path(Res::Inst(0)),
            false => self.receiver().0,
        };
        let name = self.name();
        let field = self.emit(Node::Field(thing, name));
        made.push(match self.random.chance(15) {
            true => self.emit(Node::Field(field, 1)),
            false => field,
        });
    }

    /// A name that the type has, most often.
    fn method_name(&mut self, on: Option<u16>) -> u16 {
        let known = |bind: &&(u16, Vec<(u16, usize)>)| Some(bind.0) == on;
        let items = self.draft.binds.iter().filter(known).flat_map(|b| &b.1);
        let names: Vec<u16> = items.map(|item| item.0).collect();
        match self.random.maybe(&names) {
            Some(name) if self.random.chance(90) => name,
            _ => self.name(),
        }
    }

    fn method_args(&mut self, def: usize) -> Vec<usize> {
        let inputs = self.draft.defs[def].iter().skip(2);
        let shapes: Vec<Shape> = inputs.map(|t| Shape::Row(*t)).collect();
        self.arguments(&shapes, 4)
    }

    pub fn methods_body(mut self) -> Vec<u8> {
        self.method_tables();
        let ty = self.any_type();
        self.params(&[I32, 14, ty]);
        let mut made = Vec::new();
        let tidy = self.random.chance(35);
        for _ in 0..self.random.range(1, 5) {
            match tidy {
                true => self.found_method(&mut made),
                false => self.method_theme(&mut made),
            }
        }
        self.finish(NIL, None, made)
    }

    /// A call of a method that is there, with arguments that fit.
    fn found_method(&mut self, made: &mut Vec<usize>) {
        let Some((on, items)) = self.random.maybe(&self.draft.binds) else {
            return;
        };
        let receiver = self.expr(on, Fit::Exact, 4).0;
        let Some((name, _)) = self.random.maybe(&items) else {
            return made.push(receiver);
        };
        let args = match self.draft.method(on, name) {
            Some(def) => self.method_args(def),
            None => Vec::new(),
        };
        let call = self.emit(Node::Method(receiver, name, args));
        made.push(self.let_of(call));
    }
}
