//! Whether equations have a common solution, decided in another way than `solve` does: by the depths of arrays along the equations.
//!
//! A plain closed type is a leaf inside so many arrays, so an equation says that two leaves are the same and how far two depths are apart.
//! Depths spread from one base over the equations; they must agree, be 0 at a leaf and at a number variable, and nowhere be negative.
use crate::solve::{Kind, Leaf, System, Term};

/// An equation of two bases: variables or leaves, and how much deeper the arrays around the first side's are.
type Edge = (usize, usize, i64);

/// Whether the chosen equations have a common solution. A term that stands in none of them has some type.
pub fn solvable(system: &System, chosen: &[usize]) -> bool {
    let edge = |(left, right): (usize, usize)| {
        let ((left, outer), (right, inner)) = (peeled(&system.terms, left), peeled(&system.terms, right));
        (left, right, outer - inner)
    };
    let edges: Vec<Edge> = chosen.iter().filter_map(|number| system.equations[*number].map(edge)).collect();
    let mut depths: Vec<Option<i64>> = vec![None; system.terms.len()];
    edges.iter().all(|(start, ..)| depths[*start].is_some() || component(system, &edges, *start, &mut depths))
}

/// A term as a variable or leaf inside so many arrays.
fn peeled(terms: &[Term], term: usize) -> (usize, i64) {
    match terms[term] {
        Term::Array(element) => {
            let (base, depth) = peeled(terms, element);
            (base, depth + 1)
        }
        _ => (term, 0),
    }
}

/// Whether the bases that the equations link with this one have types.
fn component(system: &System, edges: &[Edge], start: usize, depths: &mut [Option<i64>]) -> bool {
    depths[start] = Some(0);
    let mut members = vec![(start, 0)];
    let mut at = 0;
    while let Some(&(base, depth)) = members.get(at) {
        at += 1;
        let both = |&(left, right, apart): &Edge| [(left, right, apart), (right, left, -apart)];
        for (_, other, apart) in edges.iter().flat_map(both).filter(|(from, ..)| *from == base) {
            match depths[other] {
                None => {
                    depths[other] = Some(depth + apart);
                    members.push((other, depth + apart));
                }
                Some(known) if known != depth + apart => return false,
                Some(_) => {}
            }
        }
    }
    has_types(system, &members)
}

/// Whether one leaf and one depth of the outermost array fit all members.
fn has_types(system: &System, members: &[(usize, i64)]) -> bool {
    let at_zero = |term: Term| term != Term::Variable(Kind::Any);
    let lowest = members.iter().map(|(_, depth)| *depth).min();
    let grounds = members.iter().filter(|(member, _)| at_zero(system.terms[*member]));
    let depths_fit = grounds.into_iter().all(|(_, ground)| Some(*ground) == lowest);
    let leaf =
        |(member, _): &(usize, i64)| if let Term::Leaf(leaf) = system.terms[*member] { Some(leaf) } else { None };
    let some = [Leaf::Nil, Leaf::Int(64), Leaf::Double];
    depths_fit && members.iter().filter_map(leaf).chain(some).any(|leaf| fits(system, members, leaf))
}

/// Whether all members can be this leaf.
fn fits(system: &System, members: &[(usize, i64)], leaf: Leaf) -> bool {
    members.iter().all(|(member, _)| match (system.terms[*member], leaf) {
        (Term::Leaf(other), leaf) => other == leaf,
        (Term::Variable(Kind::Integer), leaf) => matches!(leaf, Leaf::Uint(_) | Leaf::Int(_)),
        (Term::Variable(Kind::Float), leaf) => matches!(leaf, Leaf::Float | Leaf::Double),
        (Term::Variable(Kind::Any) | Term::Array(_), _) => true,
    })
}
