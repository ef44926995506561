//! Typed views of the rows of the tables.
//!
//! The library hands back the codes below and no others; a view of another code panics.
use crate::ErrorRow;
use std::ops::Deref;

const NODE: usize = 6;
const VAR: usize = 6;
const MADE: usize = 5;
pub(crate) const EQUATION: usize = 3;

/// The first cell of the inputs in the table of made types.
const INPUTS_FROM: usize = 20_480;

/// A node of the body.
#[derive(Clone, Copy, Debug, PartialEq, Eq)]
pub struct Node {
    /// The type that the rules gave, perhaps a variable's; none of a node that no rule typed.
    pub raw: Option<u16>,
    /// The final type, which memory is cut from. Only a bare variable or an array directly of one is resolved: the type of an array in an
    /// array, a reference or a lambda may still hold variables, bound or open.
    pub fin: Option<u16>,
    /// What else is known of the node.
    pub extra: Extra,
}

/// What is known of a node beside its type.
#[derive(Clone, Copy, Debug, PartialEq, Eq)]
pub enum Extra {
    /// Nothing.
    None,
    /// A path to the local of this node.
    Local(u16),
    /// A path to this definition as a function.
    Fn(u16),
    /// A path to this definition as a constructor.
    Constructor(u16),
    /// A path to this instance.
    Instance(u16),
    /// A path that failed.
    Error,
    /// A path to anything else.
    Other,
    /// Of a `let`: the type of its init as the rules gave it, else its declared type. It is not resolved and may differ from the type of
    /// the `let`: memory must not be cut by it, but by [`Node::fin`].
    Let(u16),
    /// The definition that a method call calls.
    Method(u16),
}

/// A type that typing made.
#[derive(Clone, Copy, Debug, PartialEq, Eq)]
pub enum Made<'a> {
    /// The type of this `inst` line.
    Instance(u16),
    /// The type of this definition.
    FnDef(u16),
    /// An array of this type.
    Array(u16),
    /// This variable.
    Var(u16),
    /// The type of a lambda.
    Lambda {
        /// Its node.
        node: u16,
        /// The type of its output.
        output: u16,
        /// The types of its inputs.
        inputs: &'a [u16],
    },
    /// A reference to this type.
    Ref(u16),
}

/// What a variable may become.
#[derive(Clone, Copy, Debug, PartialEq, Eq)]
pub enum Kind {
    /// Any type.
    Any,
    /// An integer type.
    Int,
    /// A float type.
    Float,
}

/// A variable.
#[derive(Clone, Copy, Debug, PartialEq, Eq)]
pub struct Var {
    /// What it may become.
    pub kind: Kind,
    /// The type that it is bound to; none while it is open.
    pub bound: Option<u16>,
    /// The node that drew it; none for a literal.
    pub origin: Option<u16>,
    /// Whether it was negated, or an equation passed the mark of another variable on to it.
    pub marked: bool,
}

/// Whether an equation raised an error.
#[derive(Clone, Copy, Debug, PartialEq, Eq)]
pub enum Cause {
    /// No equation raised it.
    NoEquation,
    /// An equation that failed raised it.
    Mismatch,
}

impl Cause {
    /// CAUSE of the report.
    pub const fn number(self) -> u16 {
        match self {
            Self::NoEquation => 0,
            Self::Mismatch => 1,
        }
    }
}

/// The kind of a type error, with its values in brackets.
#[derive(Clone, Copy, Debug, PartialEq, Eq)]
pub enum ErrorKind {
    /// Two types that do not meet (expected type, got type).
    TypeMismatch,
    /// An index into what is no array (type).
    NoIndexOp,
    /// An operator that the type does not have (type).
    NoUnaryOp,
    /// An operator that the two types do not have (left type, right type).
    NoBinaryOp,
    /// A call of what is no function (type).
    CallingNotFn,
    /// An argument of another type (expected type, got type, argument).
    WrongArgumentTy,
    /// Another number of arguments (given, required).
    WrongArgumentAmnt,
    /// A field that the instance does not have (type, name).
    NoField,
    /// A field of what is no instance (type).
    NotInstance,
    /// A method that the type does not have (type, name).
    MethodNotFound,
    /// A variable that nothing determines (no values).
    InferFail,
}

impl ErrorKind {
    /// All kinds, each at its number.
    pub const ALL: [Self; 11] = [
        Self::TypeMismatch,
        Self::NoIndexOp,
        Self::NoUnaryOp,
        Self::NoBinaryOp,
        Self::CallingNotFn,
        Self::WrongArgumentTy,
        Self::WrongArgumentAmnt,
        Self::NoField,
        Self::NotInstance,
        Self::MethodNotFound,
        Self::InferFail,
    ];

    /// KIND of the report.
    pub const fn number(self) -> u16 {
        self as u16
    }

    /// How many values an error of this kind has.
    pub const fn values(self) -> usize {
        match self {
            Self::InferFail => 0,
            Self::NoIndexOp | Self::NoUnaryOp | Self::CallingNotFn | Self::NotInstance => 1,
            Self::TypeMismatch | Self::NoBinaryOp | Self::WrongArgumentAmnt | Self::NoField | Self::MethodNotFound => 2,
            Self::WrongArgumentTy => 3,
        }
    }
}

/// Where a type error is.
#[derive(Clone, Copy, Debug, PartialEq, Eq)]
pub enum Span {
    /// This node.
    Node(u16),
    /// The bind item with this definition.
    BindItem(u16),
    /// The signature of the function.
    Signature,
}

/// The values of a type error, none to three numbers; [`ErrorKind`] says what they are.
#[derive(Clone, Copy, Debug, PartialEq, Eq)]
pub struct Values {
    numbers: [u16; 3],
    count: usize,
}

impl Values {
    /// The values as a slice.
    pub fn as_slice(&self) -> &[u16] {
        &self.numbers[..self.count]
    }
}

impl Deref for Values {
    type Target = [u16];

    fn deref(&self) -> &[u16] {
        self.as_slice()
    }
}

/// A type error.
#[derive(Clone, Copy, Debug, PartialEq, Eq)]
pub struct TypingError {
    /// Its kind.
    pub kind: ErrorKind,
    /// Whether an equation raised it.
    pub cause: Cause,
    /// Where it is, or from where on.
    pub span: Span,
    /// The node up to which it is.
    pub second: Option<u16>,
    /// Its values.
    pub values: Values,
}

/// How an equation ended. A refused one ends the check, and its body has no tables.
#[derive(Clone, Copy, Debug, PartialEq, Eq)]
pub enum Outcome {
    /// It succeeded.
    Success,
    /// It failed.
    Mismatch,
}

/// An equation of two types.
#[derive(Clone, Copy, Debug, PartialEq, Eq)]
pub struct Equation {
    /// The type that was expected.
    pub expected: u16,
    /// The type that was got.
    pub got: u16,
    /// How it ended.
    pub outcome: Outcome,
}

#[cold]
fn unknown(what: &str, code: u16) -> ! {
    panic!("{code} is no code of {what}")
}

/// The number behind a flag.
fn option(flag: u16, number: u16) -> Option<u16> {
    (flag == 1).then_some(number)
}

pub(crate) fn node(table: &[u16], i: usize) -> Node {
    let c = &table[NODE * i..NODE * (i + 1)];
    let extra = match c[2] {
        0 => Extra::None,
        1 => Extra::Local(c[3]),
        2 => Extra::Fn(c[3]),
        3 => Extra::Constructor(c[3]),
        4 => Extra::Instance(c[3]),
        5 => Extra::Error,
        6 => Extra::Other,
        7 => Extra::Let(c[3]),
        8 => Extra::Method(c[3]),
        other => unknown("what is known of a node", other),
    };
    Node { raw: option(c[0], c[1]), fin: option(c[4], c[5]), extra }
}

pub(crate) fn made(table: &[u16], i: usize) -> Made<'_> {
    let c = &table[MADE * i..MADE * (i + 1)];
    match c[0] {
        5 => Made::Instance(c[1]),
        7 => Made::FnDef(c[1]),
        8 => Made::Array(c[1]),
        12 => Made::Var(c[1]),
        13 => {
            let first = INPUTS_FROM + usize::from(c[3]);
            Made::Lambda { node: c[1], output: c[2], inputs: &table[first..first + usize::from(c[4])] }
        }
        14 => Made::Ref(c[1]),
        other => unknown("a made type", other),
    }
}

pub(crate) fn var(table: &[u16], i: usize) -> Var {
    let c = &table[VAR * i..VAR * (i + 1)];
    let kind = match c[0] {
        0 => Kind::Any,
        1 => Kind::Int,
        2 => Kind::Float,
        other => unknown("the kind of a variable", other),
    };
    Var { kind, bound: option(c[1], c[2]), origin: option(c[3], c[4]), marked: c[5] == 1 }
}

pub(crate) fn error(row: &ErrorRow) -> TypingError {
    let Some(&kind) = ErrorKind::ALL.get(usize::from(row.kind)) else { unknown("the kind of an error", row.kind) };
    let span = match row.span {
        0 => Span::Node(row.at),
        1 => Span::BindItem(row.at),
        2 => Span::Signature,
        other => unknown("the place of an error", other),
    };
    let cause = match row.cause {
        0 => Cause::NoEquation,
        1 => Cause::Mismatch,
        other => unknown("a cause", other),
    };
    TypingError {
        kind,
        cause,
        span,
        second: option(row.between, row.second),
        values: Values { numbers: [row.a, row.b, row.c], count: kind.values() },
    }
}

pub(crate) fn equation(table: &[u16], i: usize) -> Equation {
    let c = &table[EQUATION * i..EQUATION * (i + 1)];
    let outcome = match c[2] {
        0 => Outcome::Success,
        1 => Outcome::Mismatch,
        other => unknown("the outcome of an equation", other),
    };
    Equation { expected: c[0], got: c[1], outcome }
}
