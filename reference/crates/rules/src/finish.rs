//! After the body: the equation of declared and actual result, then the final types.
use crate::types::{ERR, F64, I64, Type};
use crate::unify::Kind;
use crate::walk::{ErrorKind, Refused, Spanned, Walk};

/// Walks the body and finishes it: the FINAL type of each node, or the refusal.
pub fn run(walk: &mut Walk<'_>) -> Result<Vec<Option<usize>>, Refused> {
    let actual = walk.type_of(walk.body.body)?;
    result_equation(walk, actual)?;
    // "Then each typed node, in number order, gets a final type by `resolve_type_variable`".
    let mut finals = Vec::new();
    for node in 0..walk.node_type.len() {
        finals.push(walk.node_type[node].map(|raw| resolve(walk, raw)));
    }
    Ok(finals)
}

/// "After the body, the equation of declared and actual result is raised", at BODY; its error spans the signature.
fn result_equation(walk: &mut Walk<'_>, actual: usize) -> Result<(), Refused> {
    let declared = walk.body.output;
    if let Some(cause) = walk.equation(walk.body.body, declared, actual)? {
        walk.error(ErrorKind::TypeMismatch, cause, Spanned::Signature, None, &[declared, actual]);
    }
    Ok(())
}

/// "Only a bare variable or an array directly of one is resolved."
fn resolve(walk: &mut Walk<'_>, raw: usize) -> usize {
    match *walk.pool.get(raw) {
        Type::Var(_) => resolve_variable(walk, raw),
        Type::Array(element) if walk.pool.variable(element).is_some() => {
            let element = resolve_variable(walk, element);
            walk.pool.intern(Type::Array(element))
        }
        _ => raw,
    }
}

/// "open integers i64, open floats f64, open Regular gives InferFail and err", P the open variable's ORIGIN.
fn resolve_variable(walk: &mut Walk<'_>, raw: usize) -> usize {
    let end = walk.variables.end(&walk.pool, raw);
    let Some(open) = walk.pool.variable(end) else {
        return end;
    };
    let variable = &walk.variables.rows[open];
    match (variable.kind, variable.origin) {
        (Kind::Int, _) => I64,
        (Kind::Float, _) => F64,
        (Kind::Any, origin) => {
            // A Regular variable always has an ORIGIN.
            let p = Spanned::Node(origin.unwrap_or_default());
            walk.error(ErrorKind::InferFail, 0, p, None, &[]);
            ERR
        }
    }
}
