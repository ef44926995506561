//! Types by value and by number: 0 to 13, then the `type` rows of the body, then the types made.
use body::{Body, FIXED_TYPES};
use std::collections::HashMap;
use std::rc::Rc;

/// The fields of `Types` (session.rs) that the rules name.
pub const NIL: usize = 0;
pub const BOOL: usize = 1;
pub const U64: usize = 5;
pub const I64: usize = 9;
pub const F64: usize = 11;
pub const ERR: usize = 12;
pub const DIVERGES: usize = 13;

/// One type by value; the types it is made of by number.
#[derive(Debug, Clone, PartialEq, Eq, Hash)]
pub enum Type {
    Nil,
    Bool,
    /// Unsigned, by width.
    Uint(u8),
    /// Signed, by width: the only heads that a negation mark admits.
    Int(u8),
    Float,
    Double,
    Error,
    Diverges,
    Array(usize),
    Ref(usize),
    /// A function type of the body, `fun,SPAN,OUT,IN..`.
    Fun {
        span: u32,
        output: usize,
        inputs: Rc<[usize]>,
    },
    Inst(usize),
    Fn(usize),
    Var(usize),
    Lambda {
        node: usize,
        output: usize,
        inputs: Rc<[usize]>,
    },
}

/// "nil, bool, u8, u16, u32, u64, i8, i16, i32, i64, f32, f64, err, diverges", in this order.
const FIXED: [Type; FIXED_TYPES] = [
    Type::Nil,
    Type::Bool,
    Type::Uint(8),
    Type::Uint(16),
    Type::Uint(32),
    Type::Uint(64),
    Type::Int(8),
    Type::Int(16),
    Type::Int(32),
    Type::Int(64),
    Type::Float,
    Type::Double,
    Type::Error,
    Type::Diverges,
];

/// All types there are, each value once.
#[derive(Debug)]
pub struct Pool {
    rows: Vec<Type>,
    numbers: HashMap<Type, usize>,
    written: usize,
}

impl Pool {
    /// The 14 and the `type` rows; "types count from 14".
    pub fn new(body: &Body) -> Pool {
        let mut pool = Pool { rows: Vec::new(), numbers: HashMap::new(), written: 0 };
        let rows = body.types.iter().map(|row| match row {
            body::Type::Array(element) => Type::Array(*element),
            body::Type::Fun { span, output, inputs } => {
                Type::Fun { span: *span, output: *output, inputs: inputs.as_slice().into() }
            }
            body::Type::Inst(inst) => Type::Inst(*inst),
            body::Type::Fn(def) => Type::Fn(*def),
        });
        for ty in FIXED.into_iter().chain(rows) {
            pool.intern(ty);
        }
        pool.written = pool.rows.len();
        pool
    }

    /// "pooling by value": the number of an equal type, or the next free number.
    pub fn intern(&mut self, ty: Type) -> usize {
        let next = self.rows.len();
        let number = *self.numbers.entry(ty.clone()).or_insert(next);
        if number == next {
            self.rows.push(ty);
        }
        number
    }

    /// The type with this number.
    pub fn get(&self, number: usize) -> &Type {
        &self.rows[number]
    }

    /// The variable that this type is, if it is one.
    pub fn variable(&self, number: usize) -> Option<usize> {
        match self.get(number) {
            Type::Var(variable) => Some(*variable),
            _ => None,
        }
    }

    /// How many types there are; their numbers are those below.
    pub fn count(&self) -> usize {
        self.rows.len()
    }

    /// "one `type` per type made (first made first, from the next free number)".
    pub fn made(&self) -> &[Type] {
        &self.rows[self.written..]
    }
}
