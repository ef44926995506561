//! Observers of `FunCx`, as a module below fun_cx.rs, so that they see its private fields. They only read. Without the feature
//! `observe` the report alone is left, with CAUSE 0 throughout.
use super::*;
use std::collections::HashSet;

#[cfg(feature = "observe")]
#[path = "branch.rs"]
mod branch;
#[cfg(feature = "observe")]
#[path = "observers.rs"]
mod observers;
#[path = "report.rs"]
mod report;

#[cfg(feature = "observe")]
pub use branch::Branch;
#[cfg(feature = "observe")]
pub use observers::*;
pub(super) use report::finish;
pub use report::types_made;
#[cfg(not(feature = "observe"))]
pub use report::{RESOLVE_ONLY, start};

/// What the report needs to know of the body file.
pub struct File {
    pub nodes: usize,
    /// The first number of a made type: 14 and the `type` rows.
    pub declared: usize,
    /// The nodes that are the condition of an `if`.
    pub conditions: HashSet<u32>,
    /// The number in the series of definitions of a lambda at node 0.
    pub lambda_base: usize,
    /// The names of the `inst` rows, in order.
    pub inst_names: Vec<SymbolId>,
}

/// What `Span::line` says of the place that a span names.
pub const SPAN_NODE: u32 = 0;
pub const SPAN_SIGNATURE: u32 = 1;
pub const SPAN_BIND_ITEM: u32 = 2;
pub const SPAN_TYPE: u32 = 3;
