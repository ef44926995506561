//! The original on a body, without any observation: the stand-ins are built without their feature `observe`.
#[path = "../../reference/crates/original/src/air.rs"]
mod air;

use crate::measure::{Clock, timed};
use body::{Body, FIXED_TYPES, Refusal};
use lychee_middle::session::Session;
use lychee_middle::typing::fun_cx::observe::{self, File, RESOLVE_ONLY};
use lychee_middle::typing::fun_cx::typeck_observed;
use lychee_util::arena::Arena;
use lychee_util::def::DefId;
use lychee_util::errors::DiagEmitter;
use lychee_util::flags::Flags;
use lychee_util::sources::Sources;
use std::time::{Duration, Instant};

/// The AIR of a body and a session on it, and what they borrow. Fields are freed in this order.
struct Prepared {
    session: Owned<Session<'static>>,
    _diag: Owned<DiagEmitter<'static>>,
    _sources: Owned<Sources>,
    _arena: Owned<Arena>,
    file: File,
}

/// A value with an address of its own, freed when this is dropped. Session, arena and AIR have one lifetime in the source.
struct Owned<T>(*mut T);

impl<T> Owned<T> {
    fn new(value: T) -> Self {
        Owned(Box::into_raw(Box::new(value)))
    }

    fn get<'a>(&self) -> &'a T {
        unsafe { &*self.0 }
    }
}

impl<T> Drop for Owned<T> {
    fn drop(&mut self) {
        drop(unsafe { Box::from_raw(self.0) });
    }
}

impl Prepared {
    fn new(body: &Body) -> Self {
        let arena = Owned::new(Arena::new());
        let (map, file) = air::build(arena.get(), body);
        let sources = Owned::new(Sources::default());
        let diag = Owned::new(DiagEmitter::new(sources.get()));
        let session = Owned::new(Session::new(diag.get(), Flags, sources.get(), arena.get(), map));
        // The declared types in row order, so that their numbers are those of the rows.
        let types = air::Types::new(arena.get(), body);
        for row in 0..body.types.len() {
            session.get().lower_ty(types.written(FIXED_TYPES + row));
        }
        observe::start();
        Prepared { session, _diag: diag, _sources: sources, _arena: arena, file }
    }

    /// What `typeck` does up to its visitor, then the final types; then the report, unless the types alone are wanted.
    #[inline]
    fn walk(&self, types_alone: bool) -> String {
        RESOLVE_ONLY.set(types_alone);
        let mut text = String::new();
        self.session.get().enter(|s| text = typeck_observed(s, DefId::new(air::FN), &self.file));
        text
    }
}

/// How long `FunCx` and resolution take; AIR and session are made before, and freed after.
pub fn timed_types(bytes: &[u8], clock: Clock) -> Result<Duration, Refusal> {
    let body = body::read(bytes)?;
    let prepared = Prepared::new(&body);
    Ok(timed(clock, || prepared.walk(true)))
}

/// From bytes to a report; everything is freed again.
pub fn report(bytes: &[u8]) -> Result<String, Refusal> {
    let body = body::read(bytes)?;
    Ok(Prepared::new(&body).walk(false))
}

/// The parts of `report`: their names and times.
pub fn stages(bytes: &[u8]) -> Result<[(&'static str, Duration); 5], Refusal> {
    let start = Instant::now();
    let body = body::read(bytes)?;
    let read = Instant::now();
    let prepared = Prepared::new(&body);
    let set_up = Instant::now();
    let text = prepared.walk(false);
    let walked = Instant::now();
    drop((text, prepared, body));
    let freed = Instant::now();
    let typed = timed_types(bytes, Clock::Monotonic)?;
    Ok([
        ("reading", read - start),
        ("AIR and session", set_up - read),
        ("typing and final types", typed),
        ("report", (walked - set_up).saturating_sub(typed)),
        ("freeing", freed - walked),
    ])
}
