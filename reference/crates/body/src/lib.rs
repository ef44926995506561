//! Body files: what one holds, and the reader that answers 1 and 3 to 6 with their places.
mod read;

pub use read::read;

/// Numbers below this one are the fields of `Types` in order; `type` rows count from here.
pub const FIXED_TYPES: usize = 14;

/// A `type` row.
#[derive(Debug, Clone, PartialEq, Eq, Hash)]
pub enum Type {
    Array(usize),
    Fun { span: u32, output: usize, inputs: Vec<usize> },
    Inst(usize),
    Fn(usize),
}

/// RES: what a path or a segment stands for.
#[derive(Debug, Clone, Copy, PartialEq, Eq)]
pub enum Res {
    Local(usize),
    Fun(usize),
    Ctor(usize),
    Inst(usize),
    Error,
    Other,
}

/// OP of `bin`, by class.
#[derive(Debug, Clone, Copy, PartialEq, Eq)]
pub enum Bin {
    /// `b`: the four that give Bool.
    Boolean,
    /// `c`: ordering comparisons.
    Ordering,
    /// `a`: others.
    Arithmetic,
}

/// OP of `un`.
#[derive(Debug, Clone, Copy, PartialEq, Eq)]
pub enum Un {
    Deref,
    Address,
    Negation,
    Not,
}

/// A `node` row. Numbers of children are rows of `node`, names are plain numbers.
#[derive(Debug, Clone, PartialEq, Eq)]
pub enum Node {
    Bool,
    Int,
    Float,
    Str,
    Bin(Bin, usize, usize),
    Un(Un, usize),
    Field(usize, u32),
    List(Vec<usize>),
    Index { thing: usize, index: usize },
    Assign(usize, usize),
    OpAssign(usize, usize),
    If { condition: usize, block: usize, otherwise: Option<usize> },
    Loop(usize),
    Break,
    Call(usize, Vec<usize>),
    MethodCall { receiver: usize, name: u32, args: Vec<usize> },
    Return(Option<usize>),
    Block { tail: Option<usize>, statements: Vec<usize> },
    Let { ty: Option<usize>, init: Option<usize> },
    Param(Option<usize>),
    Lambda { output: Option<usize>, body: usize, params: Vec<usize> },
    Path { res: Res, resolved: usize, segments: Vec<(u32, Res)> },
}

/// An accepted body.
#[derive(Debug, Default, Clone, PartialEq, Eq)]
pub struct Body {
    pub types: Vec<Type>,
    /// Output and inputs of each `def`.
    pub defs: Vec<(usize, Vec<usize>)>,
    /// Name and type of each field of each `inst`.
    pub insts: Vec<Vec<(u32, usize)>>,
    /// Type, and name and def of each method, of each `bind`.
    pub binds: Vec<(usize, Vec<(u32, usize)>)>,
    pub nodes: Vec<Node>,
    /// OUT, BODY and P of the `fn` line.
    pub output: usize,
    pub body: usize,
    pub params: Vec<usize>,
}

/// Why a body is declined before it is walked: document 01's number, and the line from 1 (none for 1).
#[derive(Debug, Clone, Copy, PartialEq, Eq)]
pub struct Refusal {
    pub answer: u8,
    pub line: Option<usize>,
}
