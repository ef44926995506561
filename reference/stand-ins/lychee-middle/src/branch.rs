//! The branches of `unify`, told from both sides and the bindings and obligations at its entry.
use super::super::*;
use std::cell::RefCell;
use std::collections::HashSet;

#[derive(Clone, Copy, PartialEq, Eq, Hash, PartialOrd, Ord, Debug)]
pub enum Branch {
    Bool,
    Float,
    Double,
    Nil,
    GotDiverges,
    Instance,
    Uint,
    Int,
    Arrays,
    /// A variable, the expected side (true) or the got side, and what becomes of it.
    Variable(bool, Met),
    FunctionLambda,
    LambdaFunction,
    /// The outputs of a function and a lambda met and their lengths differ.
    Lengths,
    ExpectedError,
    GotError,
    Mismatch,
}

#[derive(Clone, Copy, PartialEq, Eq, Hash, PartialOrd, Ord, Debug)]
pub enum Met {
    /// An integer variable against what is not integer-like.
    NotInteger,
    /// A float variable against what is not float-like.
    NotFloat,
    Same,
    /// Marked, against a type that is not a signed integer.
    NotSigned,
    /// Bound, so its binding takes its place.
    Bound(Mark),
    /// Open, so it is bound.
    Open(Mark),
}

/// What the variable's mark does.
#[derive(Clone, Copy, PartialEq, Eq, Hash, PartialOrd, Ord, Debug)]
pub enum Mark {
    None,
    /// The other side is a variable and gets the mark.
    Passed,
    /// The other side is a signed integer.
    Signed,
}

impl Branch {
    /// All that can be taken. Where both sides are variables, the expected one is the variable that is looked at.
    pub fn all() -> Vec<Branch> {
        use Branch::*;
        let mut all = vec![
            Bool,
            Float,
            Double,
            Nil,
            GotDiverges,
            Instance,
            Uint,
            Int,
            Arrays,
            FunctionLambda,
            LambdaFunction,
            Lengths,
            ExpectedError,
            GotError,
            Mismatch,
        ];
        all.push(Variable(true, Met::Same));
        all.push(Variable(true, Met::Bound(Mark::Passed)));
        all.push(Variable(true, Met::Open(Mark::Passed)));
        for side in [true, false] {
            for met in [Met::NotInteger, Met::NotFloat, Met::NotSigned] {
                all.push(Variable(side, met));
            }
            for mark in [Mark::None, Mark::Signed] {
                all.push(Variable(side, Met::Bound(mark)));
                all.push(Variable(side, Met::Open(mark)));
            }
        }
        all.sort();
        all
    }

    /// Whether the call ends here in a mismatch.
    fn fails(self) -> bool {
        matches!(self, Branch::Mismatch | Branch::Variable(_, Met::NotInteger | Met::NotFloat))
    }
}

thread_local! {
    static TAKEN: RefCell<HashSet<Branch>> = RefCell::default();
}

pub(super) fn start() {
    TAKEN.with_borrow_mut(HashSet::clear);
}

pub(super) fn taken() -> HashSet<Branch> {
    TAKEN.take()
}

/// The branch of a call; whether it ends in a mismatch there.
pub(super) fn take<'ty>(cx: &FunCx<'ty>, expected: Ty<'ty>, got: Ty<'ty>) -> bool {
    let b = branch(cx, *expected.0.peek(), *got.0.peek());
    TAKEN.with_borrow_mut(|t| t.insert(b));
    b.fails()
}

/// An equation failed and the call entered last did not: the lengths differed.
pub(super) fn lengths_differed() {
    TAKEN.with_borrow_mut(|t| t.insert(Branch::Lengths));
}

/// The branch that the source's match takes.
fn branch<'ty>(cx: &FunCx<'ty>, expected: TyKind<'ty>, got: TyKind<'ty>) -> Branch {
    match (expected, got) {
        (TyKind::Bool, TyKind::Bool) => Branch::Bool,
        (TyKind::Float, TyKind::Float) => Branch::Float,
        (TyKind::Double, TyKind::Double) => Branch::Double,
        (TyKind::Nil, TyKind::Nil) => Branch::Nil,
        (_, TyKind::Diverges) => Branch::GotDiverges,
        (TyKind::Instance(l), TyKind::Instance(r)) if l == r => Branch::Instance,
        (TyKind::Uint(l), TyKind::Uint(r)) if l == r => Branch::Uint,
        (TyKind::Int(l), TyKind::Int(r)) if l == r => Branch::Int,
        (TyKind::Array(_), TyKind::Array(_)) => Branch::Arrays,
        (TyKind::InferTy(v), other) => Branch::Variable(true, met(cx, v, other)),
        (other, TyKind::InferTy(v)) => Branch::Variable(false, met(cx, v, other)),
        (TyKind::Param { kind: ParamTy::Fun { .. }, .. }, TyKind::Lambda(_)) => Branch::FunctionLambda,
        (TyKind::Lambda(_), TyKind::Param { kind: ParamTy::Fun { .. }, .. }) => Branch::LambdaFunction,
        (TyKind::Error, _) => Branch::ExpectedError,
        (_, TyKind::Error) => Branch::GotError,
        _ => Branch::Mismatch,
    }
}

fn met<'ty>(cx: &FunCx<'ty>, v: InferTy, other: TyKind<'ty>) -> Met {
    if v.is_integer() && !other.is_integer_like() {
        return Met::NotInteger;
    }
    if v.is_float() && !other.is_float_like() {
        return Met::NotFloat;
    }
    if matches!(other, TyKind::InferTy(o) if o.vid == v.vid) {
        return Met::Same;
    }
    let marked = cx.obligations.get(&v.vid).is_some_and(|o| !o.is_empty());
    let mark = match other {
        _ if !marked => Mark::None,
        TyKind::InferTy(_) => Mark::Passed,
        TyKind::Int(_) => Mark::Signed,
        _ => return Met::NotSigned,
    };
    if cx.ty_var_types.contains_key(&v.vid) { Met::Bound(mark) } else { Met::Open(mark) }
}
