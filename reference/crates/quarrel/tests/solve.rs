//! The solver: the meetings of kinds and leaves, classes inside themselves, and random systems against another way to decide them.
mod common;

use common::{KINDS, LEAVES, random_system, system};
use generate::Random;
use quarrel::solve::{Closed, Kind, Leaf, System, Term};
use quarrel::{depths, minimal_conflict, not_minimal};

/// Whether all equations of a system have a common solution.
fn solvable(system: &System) -> bool {
    system.solvable(&(0..system.equations.len()).collect::<Vec<_>>())
}

/// "integer variables sized integers and float variables f32 or f64".
fn admitted(kind: Kind, leaf: Leaf) -> bool {
    match kind {
        Kind::Any => true,
        Kind::Integer => [Leaf::Uint(8), Leaf::Uint(16), Leaf::Int(8), Leaf::Int(64)].contains(&leaf),
        Kind::Float => [Leaf::Float, Leaf::Double].contains(&leaf),
    }
}

#[test]
fn a_variable_against_a_leaf() {
    for kind in KINDS {
        for leaf in LEAVES {
            let terms = [Term::Variable(kind), Term::Leaf(leaf)];
            assert_eq!(solvable(&system(&terms, &[(0, 1)])), admitted(kind, leaf), "{kind:?} {leaf:?}");
            assert_eq!(solvable(&system(&terms, &[(1, 0)])), admitted(kind, leaf), "{leaf:?} {kind:?}");
        }
    }
}

#[test]
fn two_variables_and_two_leaves() {
    for left in KINDS {
        for right in KINDS {
            let alike = left == right || left == Kind::Any || right == Kind::Any;
            assert_eq!(solvable(&system(&[Term::Variable(left), Term::Variable(right)], &[(0, 1)])), alike);
        }
    }
    for left in LEAVES {
        for right in LEAVES {
            assert_eq!(solvable(&system(&[Term::Leaf(left), Term::Leaf(right)], &[(0, 1)])), left == right);
        }
    }
}

#[test]
fn an_array_is_no_leaf_and_no_number() {
    let element = Term::Variable(Kind::Any);
    for kind in KINDS {
        let terms = [element, Term::Array(0), Term::Variable(kind)];
        assert_eq!(solvable(&system(&terms, &[(1, 2)])), kind == Kind::Any);
    }
    for leaf in LEAVES {
        assert!(!solvable(&system(&[element, Term::Array(0), Term::Leaf(leaf)], &[(1, 2)])));
    }
}

#[test]
fn a_kind_is_kept_through_a_chain() {
    // i = a, a = b, b = f: solvable without any one of them.
    let kinds = [Kind::Integer, Kind::Any, Kind::Any, Kind::Float];
    let chain = system(&kinds.map(Term::Variable), &[(0, 1), (1, 2), (2, 3)]);
    assert!(!solvable(&chain));
    assert_eq!(minimal_conflict(&chain), [0, 1, 2]);
    assert_eq!(not_minimal(&chain, &[0, 1, 2]), None);
}

#[test]
fn a_class_inside_itself_is_unsolvable() {
    // 0 is a, 1 is [a], 2 is [[a]].
    let terms = [Term::Variable(Kind::Any), Term::Array(0), Term::Array(1)];
    for equations in [&[(0, 2), (0, 1)][..], &[(0, 1)], &[(0, 2)], &[(1, 2)], &[(2, 0), (1, 0)]] {
        assert!(!solvable(&system(&terms, equations)), "{equations:?}");
    }
    // a = [b], b = [a]
    let terms = [Term::Variable(Kind::Any), Term::Variable(Kind::Any), Term::Array(0), Term::Array(1)];
    assert!(!solvable(&system(&terms, &[(0, 3), (1, 2)])));
    // a = [b], [a] = [b]; and [a] = [b], a = b
    assert!(!solvable(&system(&terms, &[(0, 3), (2, 3)])));
    assert!(solvable(&system(&terms, &[(2, 3), (0, 1)])));
}

#[test]
fn every_way_meets_an_equation_with_got_diverges() {
    let mut with_none = system(&[Term::Leaf(Leaf::Nil), Term::Leaf(Leaf::Bool)], &[(0, 1)]);
    with_none.equations.insert(0, None);
    assert!(with_none.solvable(&[0]) && !with_none.solvable(&[0, 1]));
    assert_eq!(minimal_conflict(&with_none), [1]);
}

#[test]
fn what_is_not_minimal_is_told() {
    // nil = bool, a = bool, a = nil
    let terms = [Term::Leaf(Leaf::Nil), Term::Leaf(Leaf::Bool), Term::Variable(Kind::Any)];
    let three = system(&terms, &[(0, 1), (2, 1), (2, 0)]);
    assert_eq!(not_minimal(&three, &[0]), None);
    assert_eq!(not_minimal(&three, &[1, 2]), None);
    assert!(not_minimal(&three, &[1]).is_some_and(|why| why.contains("have a common solution")));
    assert!(not_minimal(&three, &[]).is_some_and(|why| why.contains("have a common solution")));
    assert!(not_minimal(&three, &[0, 1]).is_some_and(|why| why.contains("without equation 1 ")));
    // From number 0 up: 0 is dropped because 1 and 2 conflict without it.
    assert_eq!(minimal_conflict(&three), [1, 2]);
}

/// Whether the types are a solution: arrays of their elements' types, leaves themselves, variables by their kinds, sides the same.
fn is_solution(system: &System, types: &[Closed]) -> bool {
    let each = system.terms.iter().zip(types).all(|(term, ty)| match term {
        Term::Array(element) => types[*element].depth + 1 == ty.depth && types[*element].leaf == ty.leaf,
        Term::Leaf(leaf) => *ty == Closed { depth: 0, leaf: *leaf },
        Term::Variable(Kind::Any) => true,
        Term::Variable(kind) => ty.depth == 0 && admitted(*kind, ty.leaf),
    });
    each && system.equations.iter().flatten().all(|(left, right)| types[*left] == types[*right])
}

#[test]
fn random_systems_are_decided_as_by_depths() {
    let mut random = Random::new(1, 0);
    let mut counts = [0, 0];
    for _ in 0..200_000 {
        let system = random_system(&mut random);
        let all: Vec<usize> = (0..system.equations.len()).collect();
        let solution = system.solution(&all);
        assert_eq!(solution.is_some(), depths::solvable(&system, &all), "{system:?}");
        match solution {
            Some(types) => assert!(is_solution(&system, &types), "{system:?} {types:?}"),
            None => assert_eq!(not_minimal(&system, &minimal_conflict(&system)), None, "{system:?}"),
        }
        counts[usize::from(system.solvable(&all))] += 1;
    }
    assert!(counts.iter().all(|count| *count > 40_000), "{counts:?}");
}
