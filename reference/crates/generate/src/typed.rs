//! Expressions made for a wanted type, so that a body meets its own equations.

use crate::builder::{Builder, Local, Shape};
use crate::draft::{BOOL, F64, I32, NIL, Node, Res, Row, U64};

/// How closely an expression has to have the wanted type.
#[derive(Clone, Copy, PartialEq)]
pub enum Fit {
    /// The type itself, no variable.
    Exact,
    /// Number variables may stand for it, Regular ones may not.
    Solid,
    /// Any variable may stand for it.
    Loose,
}

/// A node and what is known of its type.
pub type Made = (usize, Shape);

fn is_int(ty: u16) -> bool {
    (2..10).contains(&ty)
}

fn is_signed(ty: u16) -> bool {
    (6..10).contains(&ty)
}

fn is_float(ty: u16) -> bool {
    ty == 10 || ty == F64
}

impl Fit {
    fn accepts(self, shape: &Shape, want: u16) -> bool {
        match self {
            Fit::Exact => *shape == Shape::Row(want),
            Fit::Solid => !shape.has_any(),
            Fit::Loose => true,
        }
    }
}

impl Builder {
    /// An expression that may stand as got against `expected`.
    pub fn against(&mut self, expected: &Shape, size: usize) -> usize {
        if self.random.chance(2) {
            return self.diverging(size);
        }
        let fit = match expected {
            Shape::Row(_) => Fit::Loose,
            _ => Fit::Solid,
        };
        match expected.target(&self.draft) {
            Some(want) => self.expr(want, fit, size).0,
            None => self.emit(Node::Break),
        }
    }

    /// `break`, or a `return` that fits.
    pub fn diverging(&mut self, size: usize) -> usize {
        if size < 2 || self.random.chance(50) || self.level > 48 {
            return self.emit(Node::Break);
        }
        let result = Shape::Row(self.draft.result);
        let value = self.deeper(|b| b.against(&result, size - 1));
        self.emit(Node::Return(Some(value)))
    }

    /// An expression of the wanted type, of about `size` nodes.
    pub fn expr(&mut self, want: u16, fit: Fit, size: usize) -> Made {
        if self.random.below(1000) < self.slips {
            return self.deeper(|b| b.mistake(want, size));
        }
        if size < 2 || self.level > 48 {
            return self.deeper(|b| b.leaf(want, fit));
        }
        for _ in 0..5 {
            let choice = self.random.below(16);
            let made = self.deeper(|b| b.compound(choice, want, fit, size - 1));
            if let Some(made) = made {
                return made;
            }
        }
        self.deeper(|b| b.leaf(want, fit))
    }

    /// A `fun` is met by a lambda alone, so it has its own maker.
    fn compound(&mut self, choice: usize, want: u16, fit: Fit, size: usize) -> Option<Made> {
        if let Some((output, inputs)) = self.fun_parts(want) {
            return (fit != Fit::Exact).then(|| self.lambda_for(output, &inputs, size));
        }
        match choice {
            0..3 => self.arithmetic(want, fit, size),
            3 => self.logic(want, size),
            4 => self.unary(want, fit, size),
            5 => Some(self.there_and_back(want, fit, size)),
            6 => self.field_of(want),
            7 => self.element_of(want, fit, size),
            8 => Some(self.choice_of(want, fit, size)),
            9 => Some(self.block_of(want, fit, size)),
            10 | 11 => self.call_of_def(want, size),
            12 => self.call_of_local(want, fit, size),
            13 | 14 => self.call_of_method(want, size),
            _ => self.list_of(want, fit, size),
        }
    }

    /// The smallest expression of a type.
    fn leaf(&mut self, want: u16, fit: Fit) -> Made {
        if self.random.chance(70)
            && let Some(made) = self.known_local(want, fit)
        {
            return made;
        }
        let exact = fit == Fit::Exact;
        match self.draft.row_of(want) {
            None if want == BOOL => (self.boolean(), Shape::Row(BOOL)),
            None if want == NIL => (self.emit(Node::Block(None, vec![])), Shape::Row(NIL)),
            None if is_int(want) && !exact => (self.int(), Shape::Number(want)),
            None if is_float(want) && !exact => (self.float(), Shape::Number(want)),
            Some(&Row::Inst(inst)) => (self.path(Res::Inst(inst)), Shape::Row(want)),
            Some(&Row::Array(element)) if self.level < 50 => {
                let (item, shape) = self.deeper(|b| b.leaf(element, fit));
                (self.list(vec![item]), self.array_shape(shape))
            }
            Some(Row::Fun(_, output, inputs)) if !exact => {
                let (output, inputs) = (*output, inputs.clone());
                self.lambda_for(output, &inputs, 1)
            }
            _ => self.known_local(want, fit).unwrap_or_else(|| {
                let node = self.declared(want);
                (node, Shape::Row(want))
            }),
        }
    }

    /// The shape of an array of such elements.
    fn array_shape(&self, element: Shape) -> Shape {
        match element {
            Shape::Row(t) => match self.draft.find(&Row::Array(t)) {
                Some(array) => Shape::Row(array),
                None => Shape::List(Box::new(Shape::Row(t))),
            },
            other => Shape::List(Box::new(other)),
        }
    }

    /// A local that fits; two equal functions never meet, so none of those.
    fn known_local(&mut self, want: u16, fit: Fit) -> Option<Made> {
        if !self.draft.is_plain(want) && fit != Fit::Exact {
            return None;
        }
        let fits = |local: &&Local| local.shape.target(&self.draft) == Some(want) && fit.accepts(&local.shape, want);
        let found: Vec<Local> = self.locals.iter().filter(fits).cloned().collect();
        let local = self.random.maybe(&found)?;
        Some((self.local(local.node), local.shape))
    }

    fn arithmetic(&mut self, want: u16, fit: Fit, size: usize) -> Option<Made> {
        if !self.draft.is_plain(want) || !(is_int(want) || is_float(want) || self.random.chance(10)) {
            return None;
        }
        let (left, shape) = self.expr(want, fit, size / 2);
        let right = self.against(&shape, size / 2);
        let op = self.random.pick(&['a', 'a', 'a', 'c']);
        Some((self.emit(Node::Bin(op, left, right)), shape))
    }

    /// A comparison that gives Bool.
    fn logic(&mut self, want: u16, size: usize) -> Option<Made> {
        if want != BOOL {
            return None;
        }
        let of = self.plain();
        let (left, shape) = self.expr(of, Fit::Loose, size / 2);
        let right = self.against(&shape, size / 2);
        Some((self.emit(Node::Bin('b', left, right)), Shape::Row(BOOL)))
    }

    fn unary(&mut self, want: u16, fit: Fit, size: usize) -> Option<Made> {
        if is_signed(want) && self.random.chance(50) {
            let (operand, shape) = self.expr(want, fit, size);
            return Some((self.un('n', operand), shape));
        }
        if want == BOOL || is_int(want) {
            let (operand, shape) = self.expr(want, Fit::Exact, size);
            return Some((self.un('t', operand), shape));
        }
        None
    }

    /// `*&e`, or the deref of a local that holds a reference.
    fn there_and_back(&mut self, want: u16, fit: Fit, size: usize) -> Made {
        let inner = |local: &Local| match &local.shape {
            Shape::Ref(inner) if inner.target(&self.draft) == Some(want) && fit.accepts(inner, want) => {
                Some((local.node, (**inner).clone()))
            }
            _ => None,
        };
        let found: Vec<Made> = self.locals.iter().filter_map(inner).collect();
        if let Some((node, shape)) = self.random.maybe(&found) {
            let path = self.local(node);
            return (self.un('d', path), shape);
        }
        let (operand, shape) = self.deeper(|b| b.expr(want, fit, size));
        let reference = self.un('r', operand);
        (self.un('d', reference), shape)
    }

    /// A field of this type; the first of its name counts.
    fn field_of(&mut self, want: u16) -> Option<Made> {
        let mut found = Vec::new();
        for (inst, fields) in self.draft.insts.iter().enumerate() {
            for (position, (name, ty)) in fields.iter().enumerate() {
                let first = !fields[..position].iter().any(|field| field.0 == *name);
                if *ty == want && first {
                    found.push((inst, *name));
                }
            }
        }
        let (inst, name) = self.random.maybe(&found)?;
        let path = self.path(Res::Inst(inst));
        Some((self.emit(Node::Field(path, name)), Shape::Row(want)))
    }

    fn element_of(&mut self, want: u16, fit: Fit, size: usize) -> Option<Made> {
        let array = self.draft.find(&Row::Array(want))?;
        let (thing, shape) = self.expr(array, fit, size / 2);
        let index = self.against(&Shape::Row(U64), size / 2);
        let element = match shape {
            Shape::List(inner) => *inner,
            Shape::Row(_) => Shape::Row(want),
            // A variable cannot be indexed: an error, and nothing is known.
            _ => Shape::Unknown,
        };
        Some((self.emit(Node::Index(thing, index)), element))
    }

    fn choice_of(&mut self, want: u16, fit: Fit, size: usize) -> Made {
        let condition = self.expr(BOOL, Fit::Exact, size / 3).0;
        let (block, shape) = self.block_of(want, fit, size / 3);
        let other = self.against(&shape, size / 3);
        let node = self.emit(Node::If(condition, block, Some(other)));
        (node, shape)
    }

    /// A block with a tail of the wanted type.
    fn block_of(&mut self, want: u16, fit: Fit, size: usize) -> Made {
        let seen = self.locals.len();
        let statements = match size > 6 && self.level < 40 {
            true => self.deeper(|b| b.statements(2, size / 2)),
            false => Vec::new(),
        };
        let (tail, shape) = self.deeper(|b| b.expr(want, fit, size / 2));
        self.forget_locals(seen);
        (self.block(Some(tail), statements), shape)
    }

    /// Leaves a scope; now and then its locals stay in use.
    pub fn forget_locals(&mut self, seen: usize) {
        if self.random.chance(85) {
            self.locals.truncate(seen);
        }
    }

    fn list_of(&mut self, want: u16, fit: Fit, size: usize) -> Option<Made> {
        let Some(&Row::Array(element)) = self.draft.row_of(want) else {
            return None;
        };
        // Two lambdas never meet, so a list of them has one item.
        let most = if self.draft.is_plain(element) { 4 } else { 1 };
        let count = self.random.range(1, most);
        let (first, shape) = self.expr(element, fit, size / count);
        let mut items = vec![first];
        for _ in 1..count {
            items.push(self.against(&shape, size / count));
        }
        let shape = self.array_shape(shape);
        Some((self.list(items), shape))
    }

    /// Arguments that fit inputs of these shapes.
    pub fn arguments(&mut self, inputs: &[Shape], size: usize) -> Vec<usize> {
        let share = size / inputs.len().max(1);
        let one = |shape| self.against(shape, share);
        inputs.iter().map(one).collect()
    }

    fn call_of_def(&mut self, want: u16, size: usize) -> Option<Made> {
        let defs = self.draft.defs.iter().enumerate();
        let found: Vec<usize> = defs.filter(|(_, def)| def[0] == want).map(|(d, _)| d).collect();
        let def = self.random.maybe(&found)?;
        Some((self.call_def(def, size)?, Shape::Row(want)))
    }

    /// A call of a def, unless an input can be met by nothing.
    pub fn call_def(&mut self, def: usize, size: usize) -> Option<usize> {
        let inputs: Vec<u16> = self.draft.defs[def][1..].to_vec();
        if inputs.iter().any(|t| !self.can_be_met(*t)) {
            return None;
        }
        let res = self.random.pick(&[Res::Fun(def), Res::Ctor(def)]);
        let callee = self.path(res);
        let shapes: Vec<Shape> = inputs.into_iter().map(Shape::Row).collect();
        let args = self.arguments(&shapes, size);
        Some(self.call(callee, args))
    }

    /// True if some expression meets the type without error.
    pub fn can_be_met(&self, ty: u16) -> bool {
        match self.draft.row_of(ty) {
            None | Some(Row::Inst(_)) => true,
            Some(Row::Array(element)) => self.can_be_met(*element),
            Some(Row::Fun(_, output, inputs)) => self.can_be_met(*output) && inputs.iter().all(|t| self.can_be_met(*t)),
            Some(Row::Fn(_)) => false,
        }
    }

    /// A call of a local that holds a function.
    fn call_of_local(&mut self, want: u16, fit: Fit, size: usize) -> Option<Made> {
        let mut found = Vec::new();
        for local in &self.locals {
            if let Some((inputs, output)) = self.callable(&local.shape)
                && output.target(&self.draft) == Some(want)
                && fit.accepts(&output, want)
            {
                found.push((local.node, inputs, output));
            }
        }
        let (node, inputs, output) = self.random.maybe(&found)?;
        let callee = self.local(node);
        let args = self.arguments(&inputs, size);
        Some((self.call(callee, args), output))
    }

    /// Inputs and output of something that can be called.
    fn callable(&self, shape: &Shape) -> Option<(Vec<Shape>, Shape)> {
        let rows = |inputs: &[u16]| inputs.iter().map(|t| Shape::Row(*t)).collect();
        match shape {
            Shape::Lambda(inputs, output) => Some((inputs.clone(), (**output).clone())),
            Shape::Def(def) => {
                let def = &self.draft.defs[*def];
                Some((rows(&def[1..]), Shape::Row(def[0])))
            }
            Shape::Row(t) => {
                let (output, inputs) = self.fun_parts(*t)?;
                Some((rows(&inputs), Shape::Row(output)))
            }
            _ => None,
        }
    }

    fn call_of_method(&mut self, want: u16, size: usize) -> Option<Made> {
        let mut found = Vec::new();
        for (on, items) in &self.draft.binds {
            for (name, def) in items {
                let signature = &self.draft.defs[*def];
                let fits = signature.get(1) == Some(on) && signature[0] == want;
                if fits && self.draft.is_plain(*on) && self.draft.method(*on, *name) == Some(*def) {
                    found.push((*on, *name, *def));
                }
            }
        }
        let (on, name, def) = self.random.maybe(&found)?;
        let inputs: Vec<Shape> = self.draft.defs[def][2..].iter().map(|t| Shape::Row(*t)).collect();
        let receiver = self.expr(on, Fit::Exact, size / 2).0;
        let args = self.arguments(&inputs, size / 2);
        let node = self.emit(Node::Method(receiver, name, args));
        Some((node, Shape::Row(want)))
    }

    /// A lambda that meets a `fun` of this output and these inputs.
    pub fn lambda_for(&mut self, output: u16, inputs: &[u16], size: usize) -> Made {
        let seen = self.locals.len();
        let mut params = Vec::new();
        let mut shapes = Vec::new();
        for &input in inputs {
            let open = !self.draft.is_plain(input) || self.random.chance(50);
            let shape = if open { Shape::Any(input) } else { Shape::Row(input) };
            let node = self.emit(Node::Param((!open).then_some(input)));
            params.push(node);
            shapes.push(shape.clone());
            self.locals.push(Local { node, shape });
        }
        let (body, _) = self.deeper(|b| b.expr(output, Fit::Loose, size));
        self.locals.truncate(seen);
        let declares = self.draft.is_plain(output) && self.random.chance(30);
        let declared = declares.then_some(output);
        let node = self.emit(Node::Lambda(declared, body, params));
        let result = match declares {
            true => Shape::Row(output),
            false => Shape::Any(output),
        };
        (node, Shape::Lambda(shapes, Box::new(result)))
    }

    /// A type of the same list that is not this one.
    pub fn other_than(&mut self, ty: u16) -> u16 {
        match self.plain() {
            same if same == ty => self.random.pick(&[BOOL, I32, F64, NIL, U64]),
            other => other,
        }
    }
}
