//! lychee_util: def, errors, id, span and symbols are the source; the rest are stand-ins.
#![allow(dead_code, clippy::all)]
#[path = "../../../source/util/def.rs"]
pub mod def;
#[path = "../../../source/util/errors.rs"]
pub mod errors;
#[path = "../../../source/util/id.rs"]
pub mod id;
#[path = "../../../source/util/span.rs"]
pub mod span;
#[path = "../../../source/util/symbols.rs"]
pub mod symbols;

pub mod arena;
pub mod flags;
#[cfg(feature = "observe")]
mod guard;
pub mod map;
pub mod pooled;
pub mod recorder;
pub mod sources;

/// Stand-in for the `cache!` macro: one memo table per query, no borrow held
/// while the query runs.
#[macro_export]
macro_rules! cache {
    ([lock: $lock:path] $( $(#[$m:meta])* $vis:vis fn $name:ident (& $lf:lifetime ! self, $arg:ident : $argty:ty) -> $ret:ty { $body:path } )*) => {
        pub struct Cache<'cx> {
            $( $name: ::std::cell::RefCell<$crate::map::Map<$argty, $ret>>, )*
        }
        impl<'cx> Cache<'cx> {
            pub fn new() -> Self {
                Self { $( $name: ::std::cell::RefCell::default(), )* }
            }
        }
        impl<'cx> Session<'cx> {
            $(
                $(#[$m])*
                $vis fn $name(&'cx self, $arg: $argty) -> $ret {
                    let hit = self.cache.$name.borrow().get(&$arg).copied();
                    if let Some(v) = hit {
                        return v;
                    }
                    let v = $body(self, $arg);
                    self.cache.$name.borrow_mut().insert($arg, v);
                    v
                }
            )*
        }
    };
}
