//! Scripts as a player of an instrument would write them, of exactly a wanted number of nodes.
//!
//! Expressions are made for a wanted type, so that a body has no error, or few. Two variables meet only where the second is
//! a literal of its own: so no ring is reached, and the original judges every body.
use super::draft::{BOOL, Draft, F64, I32, NIL, Node, Res, Row, U64};
use generate::Random;

// The types of the instrument.
const VOICE: u16 = 14;
const ENVELOPE: u16 = 15;
const PATCH: u16 = 16;
const FLOATS: u16 = 17;
const INTS: u16 = 18;
const VOICES: u16 = 19;
const INT_TO_INT: u16 = 20;
const FLOAT_TO_FLOAT: u16 = 21;
const VOICE_TO_BOOL: u16 = 22;

/// What every script may name: 3 instances, 30 definitions, 15 of them methods of seven types.
fn instrument() -> Draft {
    let types = vec![
        Row::Inst(0),
        Row::Inst(1),
        Row::Inst(2),
        Row::Array(F64),
        Row::Array(I32),
        Row::Array(VOICE),
        Row::Fun(1, I32, vec![I32]),
        Row::Fun(2, F64, vec![F64]),
        Row::Fun(3, BOOL, vec![VOICE]),
    ];
    let insts = vec![
        // note, velocity, pitch, gain, held, envelope, partials
        vec![(901, I32), (902, I32), (903, F64), (904, F64), (905, BOOL), (906, ENVELOPE), (907, FLOATS)],
        // attack, decay, sustain, release, loops
        vec![(911, F64), (912, F64), (913, F64), (914, F64), (915, BOOL)],
        // voices, tempo, steps, channel, length
        vec![(921, VOICES), (922, F64), (923, INTS), (924, I32), (925, U64)],
    ];
    let defs = vec![
        vec![F64, F64],
        vec![F64, F64, F64, F64],
        vec![I32, I32, I32, I32],
        vec![F64],
        vec![U64],
        vec![VOICE, I32, I32],
        vec![NIL, I32],
        vec![VOICE],
        vec![PATCH],
        vec![FLOATS, F64, U64],
        vec![FLOATS, FLOATS, FLOATS],
        vec![INTS, INTS, INT_TO_INT],
        vec![FLOATS, FLOATS, FLOAT_TO_FLOAT],
        vec![NIL, I32, F64],
        vec![I32, I32, I32],
        // Methods: the first input is the receiver.
        vec![VOICE, VOICE, F64],
        vec![NIL, VOICE],
        vec![F64, VOICE],
        vec![BOOL, VOICE],
        vec![F64, FLOATS, F64],
        vec![F64, FLOATS],
        vec![U64, FLOATS],
        vec![I32, INTS],
        vec![I32, INTS, U64],
        vec![F64, ENVELOPE, F64],
        vec![I32, I32],
        vec![I32, F64],
        vec![F64, F64],
        vec![VOICE, PATCH, I32],
        vec![U64, PATCH, VOICE_TO_BOOL],
    ];
    let binds = vec![
        (VOICE, vec![(801, 15), (802, 16), (803, 17), (804, 18)]),
        (FLOATS, vec![(811, 19), (812, 20), (813, 21)]),
        (INTS, vec![(821, 22), (822, 23)]),
        (ENVELOPE, vec![(831, 24)]),
        (I32, vec![(841, 25)]),
        (F64, vec![(851, 26), (852, 27)]),
        (PATCH, vec![(861, 28), (862, 29)]),
    ];
    Draft { types, defs, insts, binds, ..Draft::default() }
}

/// What is known of an expression's type.
#[derive(Clone, Copy, PartialEq)]
enum Shape {
    /// The type itself.
    Exact,
    /// The variable of a literal that stands nowhere else.
    Literal,
    /// An integer or float variable.
    Number,
    /// A Regular variable.
    Any,
}

/// What may stand at a place.
#[derive(Clone, Copy, PartialEq)]
enum Fit {
    Exact,
    /// The type itself, or a literal.
    Settled,
    /// Any variable too.
    Free,
    /// Any variable, and a negated literal: it meets the type itself at once.
    Against,
}

impl Shape {
    fn fits(self, fit: Fit) -> bool {
        match fit {
            Fit::Exact => self == Shape::Exact,
            Fit::Settled => matches!(self, Shape::Exact | Shape::Literal),
            Fit::Free | Fit::Against => true,
        }
    }

    /// What may be set against it.
    fn other_side(self) -> Fit {
        match self {
            Shape::Exact => Fit::Against,
            _ => Fit::Settled,
        }
    }

    /// The shape of a local that holds it, and of an operation that gives it on.
    fn kept(self) -> Shape {
        match self {
            Shape::Literal => Shape::Number,
            other => other,
        }
    }
}

#[derive(Clone)]
enum Holds {
    Value(u16, Shape),
    /// Inputs and output of a lambda.
    Lambda(Vec<(u16, Shape)>, u16, Shape),
}

#[derive(Clone)]
struct Local {
    node: usize,
    holds: Holds,
}

type Made = Option<(usize, Shape)>;

struct Script {
    random: Random,
    draft: Draft,
    locals: Vec<Local>,
    level: usize,
    in_lambda: bool,
}

/// A script of exactly so many nodes, before it is written.
pub fn draft(seed: u64, nodes: usize) -> Draft {
    for attempt in 0.. {
        let mut s = Script {
            random: Random::new(seed, attempt),
            draft: instrument(),
            locals: Vec::new(),
            level: 2,
            in_lambda: false,
        };
        if s.whole(nodes).is_some() && s.draft.nodes.len() == nodes {
            s.draft.drop_unused();
            return s.draft;
        }
    }
    unreachable!()
}

impl Script {
    fn emit(&mut self, node: Node) -> usize {
        self.draft.emit(node)
    }

    fn whole(&mut self, nodes: usize) -> Option<()> {
        let most = (nodes / 6).clamp(1, 5);
        let count = self.random.range(usize::from(nodes > 8), most);
        for _ in 0..count {
            let ty = self.random.pick(&[I32, I32, F64, F64, BOOL, U64, VOICE, VOICE, PATCH, FLOATS, INTS]);
            let node = self.emit(Node::Param(Some(ty)));
            self.draft.params.push(node);
            self.locals.push(Local { node, holds: Holds::Value(ty, Shape::Exact) });
        }
        self.draft.result = self.random.pick(&[NIL, I32, F64, BOOL, VOICE]);
        let left = nodes - count - 1;
        let tail_nodes = match self.draft.result {
            NIL => 0,
            _ => self.random.range(1, (left / 3).clamp(1, 9)),
        };
        let statements = self.statements(left - tail_nodes, 60)?;
        let tail = match tail_nodes {
            0 => None,
            n => Some(self.expr(self.draft.result, Fit::Against, n)?.0),
        };
        self.emit(Node::Block(tail, statements));
        Some(())
    }

    /// Statements of so many nodes together, at most so many of them.
    fn statements(&mut self, nodes: usize, most: usize) -> Option<Vec<usize>> {
        let mut made = Vec::new();
        let mut left = nodes;
        while left > 0 {
            if left == 1 || made.len() + 2 >= most {
                return None;
            }
            // So many that the rest has room in the block.
            let share = left / (most - made.len() - 1).max(1);
            let mut size = self.random.range(3, 13).max(2 * share).max(self.random.below(3 * share + 1));
            if size + 2 > left {
                size = left;
            }
            left -= size;
            self.statement(&mut made, size)?;
        }
        Some(made)
    }

    /// One statement, or two that belong together.
    fn statement(&mut self, made: &mut Vec<usize>, size: usize) -> Option<()> {
        for _ in 0..6 {
            let (nodes, locals, count) = (self.draft.nodes.len(), self.locals.len(), made.len());
            let choice = match size {
                0..20 => self.random.below(20),
                _ => self.random.range(14, 19),
            };
            let done = match choice {
                0..3 => self.let_plain(made, size),
                3..6 => self.let_typed(made, size),
                6 => self.let_then_assign(made, size),
                7 | 8 => self.let_lambda(made, size),
                9..12 => self.assign_local(made, size),
                12 => self.expression(made, size),
                13 | 14 => self.call_for_effect(made, size),
                15..18 => self.if_statement(made, size),
                _ => self.loop_statement(made, size),
            };
            if done.is_some() {
                return done;
            }
            self.draft.nodes.truncate(nodes);
            self.locals.truncate(locals);
            made.truncate(count);
        }
        self.let_plain(made, size)
    }

    fn hold(&mut self, made: &mut Vec<usize>, node: usize, holds: Holds) -> Option<()> {
        made.push(node);
        self.locals.push(Local { node, holds });
        Some(())
    }

    fn value_type(&mut self) -> u16 {
        self.random.pick(&[I32, I32, I32, F64, F64, F64, BOOL, U64, VOICE, FLOATS, INTS, ENVELOPE])
    }

    fn let_plain(&mut self, made: &mut Vec<usize>, size: usize) -> Option<()> {
        let ty = self.value_type();
        let (init, shape) = self.expr(ty, Fit::Free, size.checked_sub(1)?)?;
        let node = self.emit(Node::Let(None, Some(init)));
        self.hold(made, node, Holds::Value(ty, shape.kept()))
    }

    fn let_typed(&mut self, made: &mut Vec<usize>, size: usize) -> Option<()> {
        let ty = self.value_type();
        let (init, _) = self.expr(ty, Fit::Against, size.checked_sub(1)?)?;
        let node = self.emit(Node::Let(Some(ty), Some(init)));
        self.hold(made, node, Holds::Value(ty, Shape::Exact))
    }

    /// `let x; x = e`.
    fn let_then_assign(&mut self, made: &mut Vec<usize>, size: usize) -> Option<()> {
        let ty = self.value_type();
        let node = self.emit(Node::Let(None, None));
        made.push(node);
        let variable = self.path(Res::Local(node));
        let (value, _) = self.expr(ty, Fit::Settled, size.checked_sub(3)?)?;
        made.push(self.emit(Node::Assign(variable, value)));
        self.locals.push(Local { node, holds: Holds::Value(ty, Shape::Any) });
        Some(())
    }

    fn let_lambda(&mut self, made: &mut Vec<usize>, size: usize) -> Option<()> {
        let output = self.random.pick(&[I32, F64, F64, BOOL]);
        let inputs: Vec<u16> = (0..self.random.range(1, 3)).map(|_| self.random.pick(&[I32, F64])).collect();
        let (lambda, inputs, shape) = self.lambda(output, &inputs, size.checked_sub(1)?)?;
        let node = self.emit(Node::Let(None, Some(lambda)));
        self.hold(made, node, Holds::Lambda(inputs, output, shape))
    }

    /// A lambda of so many nodes, its inputs, and the shape of its output.
    fn lambda(&mut self, output: u16, inputs: &[u16], size: usize) -> Option<(usize, Vec<(u16, Shape)>, Shape)> {
        let body_size = size.checked_sub(1 + inputs.len())?;
        let (seen, outside) = (self.locals.len(), self.in_lambda);
        let mut params = Vec::new();
        let mut shapes = Vec::new();
        for ty in inputs {
            let open = self.random.chance(50);
            let node = self.emit(Node::Param((!open).then_some(*ty)));
            let shape = if open { Shape::Any } else { Shape::Exact };
            params.push(node);
            shapes.push((*ty, shape));
            self.locals.push(Local { node, holds: Holds::Value(*ty, shape) });
        }
        self.in_lambda = true;
        let declared = self.random.chance(30);
        let fit = if declared { Fit::Against } else { Fit::Settled };
        let made = self.expr(output, fit, body_size);
        self.in_lambda = outside;
        self.locals.truncate(seen);
        let node = self.emit(Node::Lambda(declared.then_some(output), made?.0, params));
        let shape = if declared { Shape::Exact } else { Shape::Any };
        Some((node, shapes, shape))
    }

    fn assign_local(&mut self, made: &mut Vec<usize>, size: usize) -> Option<()> {
        let values: Vec<(usize, u16, Shape)> = self.values().collect();
        let (node, ty, shape) = self.random.maybe(&values)?;
        let variable = self.path(Res::Local(node));
        let (value, _) = self.expr(ty, shape.other_side(), size.checked_sub(2)?)?;
        let number = matches!(ty, I32 | U64 | F64);
        made.push(match number && self.random.chance(50) {
            true => self.emit(Node::OpAssign(variable, value)),
            false => self.emit(Node::Assign(variable, value)),
        });
        Some(())
    }

    fn expression(&mut self, made: &mut Vec<usize>, size: usize) -> Option<()> {
        let ty = self.value_type();
        made.push(self.expr(ty, Fit::Free, size)?.0);
        Some(())
    }

    fn call_for_effect(&mut self, made: &mut Vec<usize>, size: usize) -> Option<()> {
        let node = match self.random.chance(60) {
            true => self.call_def(NIL, size)?,
            false => self.call_method(NIL, size)?,
        };
        made.push(node);
        Some(())
    }

    fn if_statement(&mut self, made: &mut Vec<usize>, size: usize) -> Option<()> {
        let inner = size.checked_sub(2)?;
        let condition_size = self.random.range(1, (inner / 3).clamp(1, 7));
        let condition = self.condition(condition_size)?;
        let rest = inner.checked_sub(condition_size + 1)? + 1;
        let with_else = rest > 8 && self.random.chance(40);
        let node = if with_else {
            let first = self.random.range(2, rest - 3);
            let block = self.inner_block(first)?;
            let other = self.inner_block(rest - 1 - first)?;
            self.emit(Node::If(condition, block, Some(other)))
        } else {
            let block = self.inner_block(rest)?;
            self.emit(Node::If(condition, block, None))
        };
        made.push(node);
        Some(())
    }

    /// Bool itself; now and then an ordering comparison, which has the type of its left side: an error of the script.
    fn condition(&mut self, size: usize) -> Option<usize> {
        if size >= 3 && self.random.chance(4) {
            return Some(self.binary('c', I32, Fit::Free, size)?.0);
        }
        Some(self.expr(BOOL, Fit::Exact, size)?.0)
    }

    fn loop_statement(&mut self, made: &mut Vec<usize>, size: usize) -> Option<()> {
        let inner = size.checked_sub(5)? + 3;
        let block = self.inner_block(inner)?;
        made.push(self.emit(Node::Loop(block)));
        Some(())
    }

    /// A block of so many nodes, itself not counted: its statements, often ended by `break` or `return`.
    fn inner_block(&mut self, size: usize) -> Option<usize> {
        if self.level > 12 {
            return None;
        }
        self.level += 1;
        let seen = self.locals.len();
        let end_size = match self.random.below(10) {
            0..2 => 1,
            2 if !self.in_lambda && self.draft.result != NIL => self.random.range(2, 5),
            _ => 0,
        };
        let end_size = if size < end_size + 2 && size != end_size { 0 } else { end_size };
        let statements = self.statements(size - end_size, 60);
        let end = match end_size {
            0 => None,
            1 => Some(self.emit(Node::Break)),
            n => self.expr(self.draft.result, Fit::Against, n - 1).map(|v| self.emit(Node::Return(Some(v.0)))),
        };
        self.locals.truncate(seen);
        self.level -= 1;
        let mut statements = statements?;
        if end_size > 0 {
            statements.push(end?);
        }
        Some(self.emit(Node::Block(None, statements)))
    }

    /// The locals that hold a value: node, type, shape.
    fn values(&self) -> impl Iterator<Item = (usize, u16, Shape)> {
        self.locals.iter().filter_map(|l| match l.holds {
            Holds::Value(ty, shape) => Some((l.node, ty, shape)),
            Holds::Lambda(..) => None,
        })
    }

    fn path(&mut self, res: Res) -> usize {
        let name = match res {
            Res::Local(n) => n as u16,
            Res::Fun(d) => 2_000 + d as u16,
            Res::Inst(k) => 3_000 + k as u16,
        };
        self.emit(Node::Path(res, name))
    }

    /// An expression of the wanted type, of exactly so many nodes.
    fn expr(&mut self, ty: u16, fit: Fit, size: usize) -> Made {
        if size == 0 || self.level > 40 {
            return None;
        }
        self.level += 1;
        let made = self.expr_inside(ty, fit, size);
        self.level -= 1;
        made
    }

    fn expr_inside(&mut self, ty: u16, fit: Fit, size: usize) -> Made {
        if size == 1 {
            return self.leaf(ty, fit);
        }
        for _ in 0..40 {
            let (nodes, locals, lambda) = (self.draft.nodes.len(), self.locals.len(), self.in_lambda);
            let made = self.compound(ty, fit, size).filter(|made| made.1.fits(fit));
            if made.is_some() {
                return made;
            }
            self.draft.nodes.truncate(nodes);
            self.locals.truncate(locals);
            self.in_lambda = lambda;
        }
        // A block around it.
        let (tail, shape) = self.expr(ty, fit, size - 1)?;
        Some((self.emit(Node::Block(Some(tail), vec![])), shape))
    }

    fn leaf(&mut self, ty: u16, fit: Fit) -> Made {
        if self.random.chance(55) {
            let found: Vec<(usize, u16, Shape)> = self.values().filter(|v| v.1 == ty && v.2.fits(fit)).collect();
            // A local's variable may be met again: it is no literal of its own.
            if let Some((node, _, shape)) = self.random.maybe(&found) {
                return Some((self.path(Res::Local(node)), shape));
            }
        }
        match ty {
            BOOL => Some((self.emit(Node::Bool), Shape::Exact)),
            I32 | U64 if fit != Fit::Exact => Some((self.emit(Node::Int), Shape::Literal)),
            F64 if fit != Fit::Exact => Some((self.emit(Node::Float), Shape::Literal)),
            VOICE | ENVELOPE | PATCH => Some((self.path(Res::Inst(usize::from(ty - VOICE))), Shape::Exact)),
            FLOATS | INTS | VOICES if fit == Fit::Against => Some((self.emit(Node::List(vec![])), Shape::Any)),
            _ => {
                let found: Vec<(usize, u16, Shape)> = self.values().filter(|v| v.1 == ty && v.2.fits(fit)).collect();
                let (node, _, shape) = self.random.maybe(&found)?;
                Some((self.path(Res::Local(node)), shape))
            }
        }
    }

    fn compound(&mut self, ty: u16, fit: Fit, size: usize) -> Made {
        if let Some(Row::Fun(_, output, inputs)) = self.draft.row_of(ty) {
            let (output, inputs) = (*output, inputs.clone());
            return self.lambda(output, &inputs, size).map(|made| (made.0, Shape::Any));
        }
        let number = matches!(ty, I32 | U64 | F64);
        match self.random.below(20) {
            0..6 if number => self.binary('a', ty, fit, size),
            0..5 if ty == BOOL => {
                let of = self.random.pick(&[I32, I32, F64, BOOL, U64]);
                let made = self.binary('b', of, Fit::Free, size)?;
                Some((made.0, Shape::Exact))
            }
            6 => self.unary(ty, fit, size),
            7 | 8 => self.field(ty, size),
            9 | 10 => self.element(ty, size),
            11 => self.choice(ty, fit, size),
            12 if size > 5 => self.block(ty, fit, size),
            13 | 14 => Some((self.call_def(ty, size)?, Shape::Exact)),
            15 => self.call_lambda(ty, fit, size),
            16 | 17 => Some((self.call_method(ty, size)?, Shape::Exact)),
            _ => self.list(ty, fit, size),
        }
    }

    fn binary(&mut self, op: char, ty: u16, fit: Fit, size: usize) -> Made {
        let inner = size.checked_sub(3)? + 2;
        let left_size = self.random.range(1, inner - 1);
        let left_fit = if fit == Fit::Settled { Fit::Exact } else { fit };
        let left_fit = if left_fit == Fit::Against { Fit::Free } else { left_fit };
        let (left, shape) = self.expr(ty, left_fit, left_size)?;
        let (right, _) = self.expr(ty, shape.other_side(), inner - left_size)?;
        Some((self.emit(Node::Bin(op, left, right)), shape.kept()))
    }

    fn unary(&mut self, ty: u16, fit: Fit, size: usize) -> Made {
        match ty {
            BOOL => {
                let (operand, _) = self.expr(BOOL, Fit::Exact, size - 1)?;
                Some((self.emit(Node::Un('t', operand)), Shape::Exact))
            }
            I32 if fit == Fit::Against && size == 2 => {
                let operand = self.emit(Node::Int);
                Some((self.emit(Node::Un('n', operand)), Shape::Literal))
            }
            I32 => {
                let (operand, _) = self.expr(I32, Fit::Exact, size - 1)?;
                Some((self.emit(Node::Un('n', operand)), Shape::Exact))
            }
            _ => None,
        }
    }

    fn field(&mut self, ty: u16, size: usize) -> Made {
        let mut found = Vec::new();
        for (k, fields) in self.draft.insts.iter().enumerate() {
            found.extend(fields.iter().filter(|f| f.1 == ty).map(|f| (VOICE + k as u16, f.0)));
        }
        let (of, name) = self.random.maybe(&found)?;
        let (value, _) = self.expr(of, Fit::Exact, size - 1)?;
        Some((self.emit(Node::Field(value, name)), Shape::Exact))
    }

    fn element(&mut self, ty: u16, size: usize) -> Made {
        let array = self.draft.find(&Row::Array(ty))?;
        let inner = size.checked_sub(3)? + 2;
        let index_size = self.random.range(1, (inner - 1).min(4));
        let (thing, _) = self.expr(array, Fit::Exact, inner - index_size)?;
        let (index, _) = self.expr(U64, Fit::Against, index_size)?;
        Some((self.emit(Node::Index(thing, index)), Shape::Exact))
    }

    /// `if c { a } else { b }`.
    fn choice(&mut self, ty: u16, fit: Fit, size: usize) -> Made {
        let inner = size.checked_sub(5)? + 3;
        let sizes = self.parts(inner, 3);
        let (condition, _) = self.expr(BOOL, Fit::Exact, sizes[0])?;
        let (tail, shape) = self.expr(ty, if fit == Fit::Against { Fit::Free } else { fit }, sizes[1])?;
        let block = self.emit(Node::Block(Some(tail), vec![]));
        let (other, _) = self.expr(ty, shape.other_side(), sizes[2])?;
        Some((self.emit(Node::If(condition, block, Some(other))), shape.kept()))
    }

    fn block(&mut self, ty: u16, fit: Fit, size: usize) -> Made {
        let inner = size.checked_sub(1)?;
        let tail_size = self.random.range(1, (inner - 2).min(5));
        let seen = self.locals.len();
        let made = self.statements(inner - tail_size, 20).and_then(|statements| {
            let (tail, shape) = self.expr(ty, fit, tail_size)?;
            Some((self.emit(Node::Block(Some(tail), statements)), shape))
        });
        self.locals.truncate(seen);
        made
    }

    /// A number in so many parts, each at least 1.
    fn parts(&mut self, whole: usize, count: usize) -> Vec<usize> {
        let mut parts = vec![1; count];
        for _ in count..whole {
            let at = self.random.below(count);
            parts[at] += 1;
        }
        parts
    }

    fn args(&mut self, inputs: &[(u16, Shape)], size: usize) -> Option<Vec<usize>> {
        if inputs.is_empty() {
            return (size == 0).then(Vec::new);
        }
        if size < inputs.len() {
            return None;
        }
        let sizes = self.parts(size, inputs.len());
        let mut args = Vec::new();
        for ((ty, shape), size) in inputs.iter().zip(sizes) {
            args.push(self.expr(*ty, shape.other_side(), size)?.0);
        }
        Some(args)
    }

    /// A call of a definition that is no method.
    fn call_def(&mut self, ty: u16, size: usize) -> Option<usize> {
        let found: Vec<usize> = (0..15).filter(|d| self.draft.defs[*d][0] == ty).collect();
        let def = self.random.maybe(&found)?;
        let inputs: Vec<(u16, Shape)> = self.draft.defs[def][1..].iter().map(|t| (*t, Shape::Exact)).collect();
        let callee = self.path(Res::Fun(def));
        let args = self.args(&inputs, size.checked_sub(2)?)?;
        Some(self.emit(Node::Call(callee, args)))
    }

    fn call_lambda(&mut self, ty: u16, fit: Fit, size: usize) -> Made {
        let fits = |l: &Local| match &l.holds {
            Holds::Lambda(inputs, output, shape) if *output == ty && shape.fits(fit) => {
                Some((l.node, inputs.clone(), *shape))
            }
            _ => None,
        };
        let found: Vec<_> = self.locals.iter().filter_map(fits).collect();
        let (node, inputs, shape) = self.random.maybe(&found)?;
        let callee = self.path(Res::Local(node));
        let args = self.args(&inputs, size.checked_sub(2)?)?;
        Some((self.emit(Node::Call(callee, args)), shape))
    }

    fn call_method(&mut self, ty: u16, size: usize) -> Option<usize> {
        let mut found = Vec::new();
        for (_, methods) in &self.draft.binds {
            found.extend(methods.iter().filter(|m| self.draft.defs[m.1][0] == ty).copied());
        }
        let (name, def) = self.random.maybe(&found)?;
        let inputs: Vec<(u16, Shape)> = self.draft.defs[def][2..].iter().map(|t| (*t, Shape::Exact)).collect();
        let on = self.draft.defs[def][1];
        let inner = size.checked_sub(2 + inputs.len())? + 1 + inputs.len();
        let receiver_size = match inputs.is_empty() {
            true => inner,
            false => self.random.range(1, inner - inputs.len()),
        };
        let (receiver, _) = self.expr(on, Fit::Exact, receiver_size)?;
        let args = self.args(&inputs, inner - receiver_size)?;
        Some(self.emit(Node::Method(receiver, name, args)))
    }

    /// A list; where its items are variables, its type is an array of one.
    fn list(&mut self, ty: u16, fit: Fit, size: usize) -> Made {
        let Some(Row::Array(element)) = self.draft.row_of(ty) else {
            return None;
        };
        let element = *element;
        let inner = size.checked_sub(1)?;
        let count = self.random.range(1, inner.min(8));
        let sizes = self.parts(inner, count);
        let first_fit = match fit {
            Fit::Against | Fit::Free => Fit::Free,
            _ => Fit::Exact,
        };
        let (first, shape) = self.expr(element, first_fit, sizes[0])?;
        let mut items = vec![first];
        for size in &sizes[1..] {
            items.push(self.expr(element, shape.other_side(), *size)?.0);
        }
        let shape = if shape == Shape::Exact { Shape::Exact } else { Shape::Any };
        Some((self.emit(Node::List(items)), shape))
    }
}
