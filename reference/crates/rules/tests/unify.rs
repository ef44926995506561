//! "Proved of the rules, in one table: with v, w Regular, i Integer, all unbound".
use body::Body;
use rules::Outcome;
use rules::types::{BOOL, DIVERGES, ERR, Pool, Type, U64};
use rules::unify::{Kind, Variables};

/// v, w and i with their type numbers.
fn start() -> (Pool, Variables, [usize; 3]) {
    let mut pool = Pool::new(&Body::default());
    let mut variables = Variables::default();
    let types = [Kind::Any, Kind::Any, Kind::Int].map(|kind| {
        let variable = variables.draw(kind, None);
        pool.intern(Type::Var(variable))
    });
    (pool, variables, types)
}

fn bound(variables: &Variables) -> Vec<Option<usize>> {
    variables.rows.iter().map(|row| row.bound).collect()
}

#[test]
fn the_table() {
    let (_, _, [v, w, i]) = start();
    let mismatch = Outcome::Mismatch;
    let (i32_, u32_) = (8, 4);
    let rows = [
        (v, DIVERGES, Outcome::Success, [None, None, None]),
        (DIVERGES, BOOL, mismatch, [None, None, None]),
        (DIVERGES, ERR, Outcome::Success, [None, None, None]),
        (i, v, Outcome::Success, [Some(i), None, None]),
        (v, i, Outcome::Success, [Some(i), None, None]),
        (i, ERR, mismatch, [None, None, None]),
        (v, v, Outcome::Success, [None, None, None]),
        (v, w, Outcome::Success, [Some(w), None, None]),
        (i32_, u32_, mismatch, [None, None, None]),
    ];
    for (expected, got, outcome, bindings) in rows {
        let (pool, mut variables, _) = start();
        assert_eq!(variables.unify(&pool, expected, got), outcome);
        assert_eq!(bound(&variables), bindings);
    }
}

#[test]
fn v_bound_to_w_then_w_against_v() {
    let (pool, mut variables, [v, w, _]) = start();
    assert_eq!(variables.unify(&pool, v, w), Outcome::Success);
    assert_eq!(variables.unify(&pool, w, v), Outcome::Success);
    assert_eq!(bound(&variables), [Some(w), None, None]);
    assert_eq!(variables.rings, 1);
}

#[test]
fn v_against_array_v() {
    let (mut pool, mut variables, [v, _, _]) = start();
    let array = pool.intern(Type::Array(v));
    assert_eq!(variables.unify(&pool, v, array), Outcome::Refused12);
    assert_eq!(bound(&variables), [None, None, None]);
}

#[test]
fn marked_i_with_u64() {
    let (pool, mut variables, [_, _, i]) = start();
    variables.rows[2].marked = true;
    assert_eq!(variables.unify(&pool, i, U64), Outcome::Refused13);
}

#[test]
fn array_i_against_array_i16() {
    let (mut pool, mut variables, [_, _, i]) = start();
    let i16_ = 7;
    let left = pool.intern(Type::Array(i));
    let right = pool.intern(Type::Array(i16_));
    assert_eq!(variables.unify(&pool, left, right), Outcome::Success);
    assert_eq!(bound(&variables), [None, None, Some(i16_)]);
}

#[test]
fn equal_ref() {
    let (mut pool, mut variables, _) = start();
    let reference = pool.intern(Type::Ref(BOOL));
    let outcome = variables.unify(&pool, reference, reference);
    assert_eq!(outcome, Outcome::Mismatch);
}
