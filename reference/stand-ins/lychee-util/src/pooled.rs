//! Stand-in pool: by value, the order of creation kept. It carries the guard: whatever in the checker may not end reads a
//! pooled value at each turn, or pools one.
use crate::arena::Arena;
use crate::map::Map;
use std::cmp::Ordering;
use std::fmt::{self, Debug, Formatter};
use std::hash::{Hash, Hasher};
use std::ops::Deref;

#[cfg(feature = "observe")]
use crate::guard::guard;
#[cfg(feature = "observe")]
pub use crate::guard::{Endless, arm_guard, disarm_guard, tighten_guard};

/// Without observers nothing is counted.
#[cfg(not(feature = "observe"))]
#[inline(always)]
fn guard() {}

pub struct Pooled<'a, T>(&'a T);

impl<'a, T> Pooled<'a, T> {
    /// Address, for tables keyed by identity. Not counted by the guard.
    pub fn addr(self) -> usize {
        self.0 as *const T as usize
    }
    /// Read without counting a step.
    pub fn peek(self) -> &'a T {
        self.0
    }
}

impl<T> Clone for Pooled<'_, T> {
    fn clone(&self) -> Self {
        *self
    }
}
impl<T> Copy for Pooled<'_, T> {}
impl<T> Deref for Pooled<'_, T> {
    type Target = T;
    fn deref(&self) -> &T {
        guard();
        self.0
    }
}
// Equal values are pooled to one address, so identity is equality.
impl<T> PartialEq for Pooled<'_, T> {
    fn eq(&self, o: &Self) -> bool {
        std::ptr::eq(self.0, o.0)
    }
}
impl<T> Eq for Pooled<'_, T> {}
impl<T> PartialOrd for Pooled<'_, T> {
    fn partial_cmp(&self, o: &Self) -> Option<Ordering> {
        Some(self.cmp(o))
    }
}
impl<T> Ord for Pooled<'_, T> {
    fn cmp(&self, o: &Self) -> Ordering {
        self.addr().cmp(&o.addr())
    }
}
impl<T> Hash for Pooled<'_, T> {
    fn hash<H: Hasher>(&self, h: &mut H) {
        self.addr().hash(h);
    }
}
impl<T> Debug for Pooled<'_, T> {
    fn fmt(&self, f: &mut Formatter<'_>) -> fmt::Result {
        write!(f, "pooled@{:x}", self.addr())
    }
}

pub struct Pool<'a, T> {
    map: Map<&'a T, Pooled<'a, T>>,
    order: Vec<Pooled<'a, T>>,
}

impl<'a, T: Hash + Eq> Pool<'a, T> {
    pub fn new() -> Self {
        Pool { map: Map::default(), order: Vec::new() }
    }

    pub fn pool(&mut self, v: T, arena: &'a Arena) -> Pooled<'a, T> {
        guard();
        if let Some(p) = self.map.get(&v) {
            return *p;
        }
        let r: &'a T = arena.alloc(v);
        let p = Pooled(r);
        self.map.insert(r, p);
        self.order.push(p);
        p
    }

    /// All pooled values, first made first.
    pub fn order(&self) -> &[Pooled<'a, T>] {
        &self.order
    }
}
