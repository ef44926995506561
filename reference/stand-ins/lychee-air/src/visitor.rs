//! Stand-in: only what `impl AirVisitor for TyCollector` needs to compile.
//! The collector's walk is never run here.
use crate::node::{Expr, Local, Stmt};

pub trait AirVisitor<'v> {
    type Result;
    fn visit_local(&mut self, local: &'v Local<'v>) -> Self::Result;
    fn visit_stmt(&mut self, stmt: &'v Stmt<'v>) -> Self::Result;
    fn visit_expr(&mut self, expr: &'v Expr<'v>) -> Self::Result;
}

pub fn walk_expr<'v, V: AirVisitor<'v>>(_v: &mut V, _e: &'v Expr<'v>) {
    unimplemented!("stand-in: the visitor is out of scope")
}
