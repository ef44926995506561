#[path = "../../../../source/middle/typing/fun_cx.rs"]
pub mod fun_cx;
#[path = "../../../../source/middle/typing/ty.rs"]
pub mod ty;
