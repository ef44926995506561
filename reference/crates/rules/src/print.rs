//! The printed report.
use crate::types::Type;
use crate::unify::{Kind, Variable};
use crate::walk::{ErrorRow, Extra, Spanned, Walk};
use body::Res;
use std::fmt::Display;

/// "`answer=N,PLACE`", the whole text of a declined body.
pub fn answer(answer: u8, place: Option<usize>) -> String {
    format!("answer={answer},{}\n", or_absent(place))
}

/// "`answer=N,PLACE`, `types=`, ..., `vars=`, ..., one `node=RAW,FINAL,EXTRA` per node, `errors=`, one `error` each".
pub fn report(walk: &Walk<'_>, finals: &[Option<usize>]) -> String {
    let mut text = answer(0, None);
    text += &format!("types={}\n", walk.pool.made().len());
    for ty in walk.pool.made() {
        text += &format!("type={}\n", made(ty));
    }
    text += &format!("vars={}\n", walk.variables.rows.len());
    for row in &walk.variables.rows {
        text += &format!("var={}\n", variable(row));
    }
    for ((raw, fin), of) in walk.node_type.iter().zip(finals).zip(&walk.extra) {
        text += &format!("node={},{},{}\n", or_absent(*raw), or_absent(*fin), extra(*of));
    }
    text += &format!("errors={}\n", walk.errors.len());
    for row in &walk.errors {
        text += &format!("error={}\n", error(row));
    }
    text
}

/// A value, or `-` for none.
fn or_absent(value: Option<impl Display>) -> String {
    value.map_or("-".to_string(), |value| value.to_string())
}

/// `,X` for each.
fn list(values: &[usize]) -> String {
    values.iter().map(|value| format!(",{value}")).collect()
}

/// "New types: `var,V`, `array,E`, `ref,E`, `fn,D`, `inst,K`, `lambda,NODE,OUT,IN..`."
fn made(ty: &Type) -> String {
    match ty {
        Type::Var(variable) => format!("var,{variable}"),
        Type::Array(element) => format!("array,{element}"),
        Type::Ref(inner) => format!("ref,{inner}"),
        Type::Fn(def) => format!("fn,{def}"),
        Type::Inst(inst) => format!("inst,{inst}"),
        Type::Lambda { node, output, inputs } => format!("lambda,{node},{output}{}", list(inputs)),
        // The rest stands before the walk and is never made.
        _ => String::new(),
    }
}

/// "`var=KIND,BOUND,ORIGIN` ... KIND is int, float or any."
fn variable(row: &Variable) -> String {
    let kind = match row.kind {
        Kind::Int => "int",
        Kind::Float => "float",
        Kind::Any => "any",
    };
    format!("{kind},{},{}", or_absent(row.bound), or_absent(row.origin))
}

/// EXTRA.
fn extra(extra: Extra) -> String {
    match extra {
        Extra::Absent => "-".to_string(),
        Extra::LocalType(number) | Extra::Method(number) => number.to_string(),
        Extra::Resolved(res) => resolved(res),
    }
}

/// RES as a body writes it.
fn resolved(res: Res) -> String {
    match res {
        Res::Local(node) => format!("l{node}"),
        Res::Fun(def) => format!("f{def}"),
        Res::Ctor(def) => format!("c{def}"),
        Res::Inst(inst) => format!("i{inst}"),
        Res::Error => "e".to_string(),
        Res::Other => "o".to_string(),
    }
}

/// "`error=KIND,CAUSE,P,Q,values` ... each after a comma; InferFail has none and its line ends at Q."
fn error(row: &ErrorRow) -> String {
    let p = match row.p {
        Spanned::Node(node) => node.to_string(),
        Spanned::BindItem(def) => format!("d{def}"),
        Spanned::Signature => "sig".to_string(),
    };
    let (kind, cause) = (row.kind as u8, row.cause);
    format!("{kind},{cause},{p},{}{}", or_absent(row.q), list(&row.values))
}
