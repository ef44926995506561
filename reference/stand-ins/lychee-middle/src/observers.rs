//! What is seen of a run: the node in progress, each entry of `unify`, and the first departure from the rules.
use super::super::*;
use super::{Branch, branch, report};
use lychee_util::recorder::{NOTE, Note, RECORDS};
use std::cell::{Cell, RefCell};
use std::collections::HashSet;

/// What the source does otherwise than the rules, and goes on: a binding that it makes and document 01 does not, or an equation
/// that it fails and document 02 e) does not.
#[derive(Clone, Copy, PartialEq, Eq, Debug)]
pub enum Departure {
    /// From the other side the bindings lead to the variable itself.
    Ring,
    /// The variable stands inside its binding.
    Inside,
    /// An integer or float variable is expected against a Regular one, and the roles are not exchanged.
    Roles,
}

/// Thrown at the first departure, where the walk is to end there.
pub struct Stopped;

/// One entry of `unify`, inner ones too.
#[derive(Clone, Copy, PartialEq, Eq, Debug)]
pub struct Entry {
    /// The node whose rule runs; none for the equation of declared and actual result.
    pub place: Option<u32>,
    pub expected: usize,
    pub got: usize,
}

#[derive(Clone, Copy)]
pub struct Wish {
    /// The walk ends at the first departure.
    pub stop: bool,
    /// Each entry of `unify` is kept.
    pub entries: bool,
    /// Steps that a run may take after it has bound a first cycle.
    pub steps_after: u64,
}

thread_local! {
    static WISH: Cell<Wish> = const { Cell::new(Wish { stop: true, entries: false, steps_after: 0 }) };
    /// The nodes whose rules run, the innermost last; those already typed are dropped late.
    static RUNNING: RefCell<Vec<AirId>> = const { RefCell::new(Vec::new()) };
    static FIRST_DEPARTURE: Cell<Option<Departure>> = const { Cell::new(None) };
    /// Whether a cycle was bound.
    static CYCLE: Cell<bool> = const { Cell::new(false) };
    static ENTRIES: RefCell<Vec<Entry>> = const { RefCell::new(Vec::new()) };
}

/// Before a run.
pub fn start(wish: Wish) {
    WISH.set(wish);
    RUNNING.with_borrow_mut(Vec::clear);
    FIRST_DEPARTURE.set(None);
    CYCLE.set(false);
    ENTRIES.with_borrow_mut(Vec::clear);
    RECORDS.with_borrow_mut(Vec::clear);
    NOTE.set(Note { cause: 0, fails: false });
    branch::start();
}

/// The first departure from the rules.
pub fn first_departure() -> Option<Departure> {
    FIRST_DEPARTURE.get()
}

/// The node whose rule ran last; none for the equation of declared and actual result.
pub fn place() -> Option<u32> {
    RUNNING.with_borrow(|r| r.last().map(|a| a.to_usize() as u32))
}

pub fn entries() -> Vec<Entry> {
    ENTRIES.take()
}

/// The branches of `unify` that the run took.
pub fn branches() -> HashSet<Branch> {
    branch::taken()
}

/// Drops the nodes whose rules have ended: they have a type.
fn settle(cx: &FunCx<'_>) {
    RUNNING.with_borrow_mut(|r| {
        while r.last().is_some_and(|top| cx.node_type.contains_key(top)) {
            r.pop();
        }
    });
}

/// At the start of the rule of a node.
pub fn enter(cx: &FunCx<'_>, id: AirId) {
    settle(cx);
    RUNNING.with_borrow_mut(|r| r.push(id));
}

/// At each entry of `unify`. A failed call returns through all its callers at once. So when an error is raised, the call
/// entered last is the one that failed, or the last of an output before unequal lengths. An integer or float variable against
/// a Regular one always fails, where the rules exchange the roles.
pub fn unify<'ty>(cx: &FunCx<'ty>, expected: Ty<'ty>, got: Ty<'ty>) {
    settle(cx);
    let fails = branch::take(cx, expected, got);
    NOTE.set(Note { cause: 1, fails });
    if WISH.get().entries {
        let number = report::numbers(cx.s);
        let entry = Entry { place: place(), expected: number(expected), got: number(got) };
        ENTRIES.with_borrow_mut(|e| e.push(entry));
    }
    if let (TyKind::InferTy(l), TyKind::InferTy(r)) = (*expected.0.peek(), *got.0.peek())
        && l.kind != InferKind::Regular
        && r.kind == InferKind::Regular
    {
        depart(Departure::Roles);
    }
}

/// The end of the bindings from a type on; none where they go round.
fn follow<'ty>(cx: &FunCx<'ty>, mut t: TyKind<'ty>) -> Option<TyKind<'ty>> {
    let mut seen = HashSet::new();
    while let TyKind::InferTy(i) = t {
        if !seen.insert(i.vid) {
            return None;
        }
        match cx.ty_var_types.get(&i.vid) {
            None => break,
            Some(n) => t = *n.0.peek(),
        }
    }
    Some(t)
}

/// Whether a variable stands in a type, through arrays, references, functions, lambdas and bindings.
fn stands_in<'ty>(cx: &FunCx<'ty>, v: InferId, t: Ty<'ty>) -> bool {
    let mut seen = HashSet::new();
    let mut todo = vec![t];
    while let Some(t) = todo.pop() {
        if !seen.insert(t.0.addr()) {
            continue;
        }
        match *t.0.peek() {
            TyKind::InferTy(i) if i.vid == v => return true,
            TyKind::InferTy(i) => todo.extend(cx.ty_var_types.get(&i.vid)),
            TyKind::Array(e) | TyKind::Ref(e) => todo.push(e),
            TyKind::Lambda(env) => {
                todo.push(env.output);
                todo.extend(env.all_inputs);
            }
            TyKind::Param { kind: ParamTy::Fun { inputs, output }, .. } => {
                todo.push(output);
                todo.extend(inputs);
            }
            _ => {}
        }
    }
    false
}

/// Just before a variable is bound.
pub fn bind<'ty>(cx: &FunCx<'ty>, infer: InferTy, concrete: TyKind<'ty>) {
    if CYCLE.get() {
        return;
    }
    let departure = match follow(cx, concrete) {
        Some(TyKind::InferTy(i)) if i.vid == infer.vid => Departure::Ring,
        // The caller has pooled `concrete`, so nothing is made here.
        _ if stands_in(cx, infer.vid, cx.s.intern_ty(concrete)) => Departure::Inside,
        _ => return,
    };
    CYCLE.set(true);
    depart(departure);
    // A run that does not end shows within far fewer steps from here on than a long one has.
    lychee_util::pooled::tighten_guard(WISH.get().steps_after);
}

/// The first departure ends the walk, if it is to end there.
fn depart(departure: Departure) {
    if FIRST_DEPARTURE.get().is_none() {
        FIRST_DEPARTURE.set(Some(departure));
    }
    if WISH.get().stop {
        std::panic::panic_any(Stopped);
    }
}
