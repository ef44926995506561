//! lychee_air: node.rs is the source; AirId, AirMap and the visitor are stand-ins.
#![allow(dead_code, clippy::all)]
pub mod lowering_ast;
#[path = "../../../source/air/node.rs"]
pub mod node;
pub mod visitor;
