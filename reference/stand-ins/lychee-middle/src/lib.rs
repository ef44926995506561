//! lychee_middle: session.rs, typing/ty.rs and typing/fun_cx.rs are the source; the rest are stand-ins.
#![allow(dead_code, unused, clippy::all)]

// Shadows std's `dbg!` for the one use in fun_cx.rs: same value, no noise.
macro_rules! dbg {
    ($e:expr $(,)?) => {
        $e
    };
}

#[path = "../../../source/middle/session.rs"]
pub mod session;

pub mod typing;

/// Stand-in; eair/mod.rs is unused.
pub mod eair {
    use crate::session::Session;
    use lychee_util::def::DefId;
    pub struct Eair<'a>(std::marker::PhantomData<&'a ()>);
    pub fn build_eair<'cx>(_cx: &'cx Session<'cx>, _did: DefId) -> &'cx Eair<'cx> {
        unimplemented!()
    }
}

/// Stand-in.
pub mod pill {
    pub mod body {
        use crate::session::Session;
        use lychee_util::def::DefId;
        pub struct Pill<'a>(std::marker::PhantomData<&'a ()>);
        pub fn build_pill<'cx>(_cx: &'cx Session<'cx>, _did: DefId) -> &'cx Pill<'cx> {
            unimplemented!()
        }
    }
}

/// Stand-in.
pub mod passes {
    pub mod upvar_analysis {
        use crate::session::Session;
        use lychee_air::lowering_ast::AirId;
        use lychee_util::def::DefId;
        use std::collections::HashSet;
        pub fn analyze_upvars<'cx>(_cx: &'cx Session<'cx>, _did: DefId) -> &'cx HashSet<AirId> {
            unimplemented!()
        }
    }
}
