//! The original checker on a body: its AIR is built, `FunCx` is set up and run as `typeck` does, and what came of it is told
//! in document 01's words.
mod air;

use body::{Body, FIXED_TYPES};
use lychee_middle::session::Session;
use lychee_middle::typing::fun_cx::observe::{self, Departure, Stopped, Wish};
use lychee_middle::typing::fun_cx::typeck_observed;
use lychee_util::arena::Arena;
use lychee_util::def::DefId;
use lychee_util::errors::DiagEmitter;
use lychee_util::flags::Flags;
use lychee_util::pooled::{Endless, arm_guard, disarm_guard};
use lychee_util::sources::Sources;
use std::any::Any;
use std::collections::HashSet;
use std::panic::{AssertUnwindSafe, catch_unwind};

pub use lychee_middle::typing::fun_cx::observe::{Branch, Entry};

/// Steps after which a run counts as endless: reads of pooled types, about a second.
const STEPS: u64 = 150_000_000;
/// The same for a run that has bound a cycle.
const STEPS_AFTER_CYCLE: u64 = 1_000_000;
/// Bytes of the stack after which a recursion counts as endless.
const STACK: usize = 16 << 20;
/// The stack that a thread which calls `run` needs.
pub const THREAD_STACK: usize = 64 << 20;

/// What the original gives.
#[derive(Clone, PartialEq, Eq, Debug)]
pub enum Outcome {
    /// It ended: the whole report.
    Report(String),
    /// It panicked where document 01 has a refusal: 10, 11 or 13, and the node whose rule ran.
    Refused(u8, usize),
    /// It does not judge this body.
    Outside(Outside),
    /// It panicked: by which macro or operation, or with this message.
    Panic(String),
}

#[derive(Clone, Copy, PartialEq, Eq, Debug)]
pub enum Outside {
    /// A ring was reached in the rule of this node; the source binds it.
    Ring(usize),
    /// A variable was to be bound inside itself in the rule of this node; the source does that.
    Inside(usize),
    /// An integer or float variable was expected against a Regular one in the rule of this node; the source fails.
    Roles(usize),
    /// The guard ended the run: marks that grow, or a walk that does not end.
    Endless,
}

impl Outcome {
    /// The text that is printed for it.
    pub fn text(&self) -> String {
        match self {
            Outcome::Report(text) => text.clone(),
            Outcome::Refused(answer, node) => format!("answer={answer},{node}\n"),
            Outcome::Outside(Outside::Ring(node)) => format!("outside=ring,{node}\n"),
            Outcome::Outside(Outside::Inside(node)) => format!("outside=inside,{node}\n"),
            Outcome::Outside(Outside::Roles(node)) => format!("outside=roles,{node}\n"),
            Outcome::Outside(Outside::Endless) => "outside=endless\n".to_string(),
            Outcome::Panic(message) => format!("panic: {message}\n"),
        }
    }
}

/// What is wanted of a run.
#[derive(Clone, Copy, Default)]
pub struct Want {
    /// The source goes on behind a ring, a variable inside itself or roles that it does not exchange, and a panic stays one.
    pub source: bool,
    /// Each entry of `unify` is kept.
    pub entries: bool,
}

pub struct Run {
    pub outcome: Outcome,
    /// The macro or operation by which the source panicked, where document 01 has a refusal.
    pub panicked: Option<&'static str>,
    pub branches: HashSet<Branch>,
    pub entries: Vec<Entry>,
}

/// The body through the original checker.
pub fn run(body: &Body, want: Want) -> Run {
    observe::start(Wish { stop: !want.source, entries: want.entries, steps_after: STEPS_AFTER_CYCLE });
    // The session and what it borrows have one lifetime, and live to the end of this function.
    let arena = Box::into_raw(Box::new(Arena::new()));
    let sources = Box::into_raw(Box::new(Sources::default()));
    let (a, s): (&'static Arena, &'static Sources) = unsafe { (&*arena, &*sources) };
    let diag = Box::into_raw(Box::new(DiagEmitter::new(s)));
    let (map, file) = air::build(a, body);
    let session = Session::new(unsafe { &*diag }, Flags, s, a, map);
    let session = Box::into_raw(Box::new(session));

    let (outcome, panicked) = walk(unsafe { &*session }, a, body, &file, want);
    let run = Run { outcome, panicked, branches: observe::branches(), entries: observe::entries() };

    unsafe {
        drop(Box::from_raw(session));
        drop(Box::from_raw(diag));
        drop(Box::from_raw(sources));
        drop(Box::from_raw(arena));
    }
    run
}

/// What came of it, and by what the source panicked.
fn walk(
    s: &'static Session<'static>,
    a: &'static Arena,
    body: &Body,
    file: &observe::File,
    want: Want,
) -> (Outcome, Option<&'static str>) {
    let mut text = String::new();
    let result = catch_unwind(AssertUnwindSafe(|| {
        arm_guard(STEPS, STACK);
        // The declared types by the source's own `lower_ty`, in row order, so that their numbers are those of the rows.
        let types = air::Types::new(a, body);
        for row in 0..body.types.len() {
            s.lower_ty(types.written(FIXED_TYPES + row));
            assert_eq!(observe::types_made(s), FIXED_TYPES + row + 1, "equal rows");
        }
        s.enter(|s| text = typeck_observed(s, DefId::new(air::FN), file));
    }));
    disarm_guard();
    let place = observe::place().map_or(body.body, |n| n as usize);
    let outcome = match result {
        Ok(()) => Outcome::Report(text),
        Err(thrown) if thrown.is::<Endless>() => Outcome::Outside(Outside::Endless),
        Err(thrown) if thrown.is::<Stopped>() => match observe::first_departure() {
            Some(Departure::Ring) => Outcome::Outside(Outside::Ring(place)),
            Some(Departure::Roles) => Outcome::Outside(Outside::Roles(place)),
            _ => Outcome::Outside(Outside::Inside(place)),
        },
        Err(thrown) => match told(&message(&*thrown)) {
            Some((answer, by)) if !want.source => return (Outcome::Refused(answer, place), Some(by)),
            Some((_, by)) => Outcome::Panic(by.to_string()),
            None => Outcome::Panic(message(&*thrown)),
        },
    };
    (outcome, None)
}

/// The first line of a panic's message.
fn message(thrown: &(dyn Any + Send)) -> String {
    let text = match (thrown.downcast_ref::<String>(), thrown.downcast_ref::<&str>()) {
        (Some(s), _) => s.as_str(),
        (_, Some(s)) => s,
        _ => "",
    };
    text.lines().next().unwrap_or("").to_string()
}

/// Document 01's number for a panic of the source, and what raised it; none for a panic that was not foreseen.
fn told(message: &str) -> Option<(u8, &'static str)> {
    let starts = |t: &str| message.starts_with(t);
    if message.contains("only signed ints can be neg") {
        Some((13, "todo!"))
    } else if starts("called `Option::unwrap()` on a `None`") {
        Some((11, "unwrap"))
    } else if starts("not yet implemented") {
        Some((10, "todo!"))
    } else if starts("internal error: entered unreachable code: what") {
        Some((10, "unreachable!"))
    } else if starts("index out of bounds") {
        Some((10, "index"))
    } else {
        None
    }
}
