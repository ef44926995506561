//! The guard: it ends a run that takes too many steps or too much of the stack.
use std::cell::Cell;

/// Thrown by the guard where a run takes too many steps or too much of the stack.
pub struct Endless;

thread_local! {
    static STEPS: Cell<u64> = const { Cell::new(0) };
    static STEP_LIMIT: Cell<u64> = const { Cell::new(u64::MAX) };
    static STACK_LOW: Cell<usize> = const { Cell::new(0) };
}

/// Arms the guard on this thread: `steps` reads, `stack` bytes below the caller.
pub fn arm_guard(steps: u64, stack: usize) {
    let here = 0u8;
    STEPS.set(0);
    STEP_LIMIT.set(steps);
    STACK_LOW.set((&raw const here as usize).saturating_sub(stack));
}

pub fn disarm_guard() {
    STEP_LIMIT.set(u64::MAX);
    STACK_LOW.set(0);
}

/// From here on at most `more` further reads (never raises the limit).
pub fn tighten_guard(more: u64) {
    if STEP_LIMIT.get() != u64::MAX {
        STEP_LIMIT.set(STEP_LIMIT.get().min(STEPS.get() + more));
    }
}

/// Counts a step.
#[inline]
pub(crate) fn guard() {
    let n = STEPS.get() + 1;
    STEPS.set(n);
    let here = 0u8;
    if n > STEP_LIMIT.get() || (&raw const here as usize) < STACK_LOW.get() {
        trip();
    }
}

#[cold]
fn trip() -> ! {
    disarm_guard();
    std::panic::panic_any(Endless)
}
