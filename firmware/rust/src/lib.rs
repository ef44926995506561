//! The type checker of a synthesizer's scripts, called from Rust.
//!
//! [`Checker`] owns the tables that the library is lent. [`Checker::check`] types a body file and gives [`Checked`]: the answer, its
//! place, and the tables as typed views. [`Checker::report`] writes the text of the report too, [`Checker::quarrel`] the minimal conflict
//! among the equations of the body, [`Checker::shortest`] a shorter one if a search finds it.
//!
//! ```
//! let mut checker = nunthila::Checker::new();
//! let checked = checker.check(b"node=int\nfn=8,0\n");
//! assert_eq!(checked.answer(), nunthila::answer::CHECKED);
//! assert_eq!(checked.nodes().next().unwrap().fin, Some(8));
//! ```
//!
//! Numbers of types: 0 to 13 are nil, bool, u8, u16, u32, u64, i8, i16, i32, i64, f32, f64, err, diverges; then come the `type` lines
//! of the body from 14 on, then the made types.
//!
//! A call takes at most 103,048 bytes of stack, as measured (docs/TABLES.md); the tables are on the heap.
#![deny(missing_docs)]
#![deny(unsafe_code)]

pub mod answer;
mod checker;
mod conflict;
mod lengths;
#[allow(unsafe_code)]
mod library;
mod views;

pub use checker::{Checked, Checker, Counts, Quarreled, Reported, Searched, Tables, TOLD};
pub use conflict::{Conflicting, Lines, Place};
pub use lengths::Lengths;
pub use library::ErrorRow;
pub use views::{Cause, Equation, ErrorKind, Extra, Kind, Made, Node, Outcome, Span, TypingError, Values, Var};
