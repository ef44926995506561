//! The search on systems, also on those that no body has: an equation that is unsolvable by itself before the last one.
mod common;

use common::{random_system, system};
use generate::Random;
use quarrel::minimal_conflict;
use quarrel::shortest::{Searched, search};
use quarrel::solve::{Kind, Leaf, System, Term};

fn searched(set: &[usize], below: usize, tests: u64) -> Searched {
    Searched { set: set.to_vec(), below, tests }
}

/// nil = bool, a = bool, a = nil: f) drops 0 first, and 0 is unsolvable by itself.
#[test]
fn one_is_found_at_size_1() {
    let terms = [Term::Leaf(Leaf::Nil), Term::Leaf(Leaf::Bool), Term::Variable(Kind::Any)];
    let three = system(&terms, &[(0, 1), (2, 1), (2, 0)]);
    let conflict = minimal_conflict(&three);
    assert_eq!(conflict, [1, 2]);
    assert_eq!(search(&three, &conflict, 0), searched(&[1, 2], 1, 0));
    assert_eq!(search(&three, &conflict, 1), searched(&[0], 1, 1));
    assert_eq!(search(&three, &conflict, u64::MAX), searched(&[0], 1, 1));
}

/// Behind the first unsolvable one nothing is tested, also where another of its size would be.
#[test]
fn the_first_of_its_size_ends_the_search() {
    // a = bool, b = bool, a = nil, b = nil, c = bool, c = d, d = nil: 0 with 2, 1 with 3, and the set of f).
    let mut terms = vec![Term::Leaf(Leaf::Nil), Term::Leaf(Leaf::Bool)];
    terms.extend([Term::Variable(Kind::Any); 4]);
    let seven = system(&terms, &[(2, 1), (3, 1), (2, 0), (3, 0), (4, 1), (4, 5), (5, 0)]);
    let conflict = minimal_conflict(&seven);
    assert_eq!(conflict, [4, 5, 6]);
    assert_eq!(search(&seven, &conflict, 6), searched(&[4, 5, 6], 1, 6));
    assert_eq!(search(&seven, &conflict, 7), searched(&[4, 5, 6], 2, 7));
    assert_eq!(search(&seven, &conflict, 8), searched(&[4, 5, 6], 2, 8));
    assert_eq!(search(&seven, &conflict, 9), searched(&[0, 2], 2, 9));
    assert_eq!(search(&seven, &conflict, 16), searched(&[0, 2], 2, 9));
}

/// The numbers whose bits are set.
fn numbers(bits: u32) -> Vec<usize> {
    (0..u32::BITS as usize).filter(|number| bits >> number & 1 == 1).collect()
}

/// All subsets as sets of bits, sorted; the search takes as many of them as the number says, or up to the first that is unsolvable.
fn by_sorting(system: &System, conflict: &[usize], number: u64) -> Searched {
    let mut all: Vec<Vec<usize>> = (1..1 << system.equations.len()).map(numbers).collect();
    all.retain(|subset| subset.len() < conflict.len());
    all.sort_by(|one, other| one.len().cmp(&other.len()).then(one.cmp(other)));
    let may = all.len().min(usize::try_from(number).unwrap_or(usize::MAX));
    if let Some(at) = all[..may].iter().position(|subset| !system.solvable(subset)) {
        return searched(&all[at], all[at].len(), at as u64 + 1);
    }
    let left = all.get(may).map_or(conflict.len(), Vec::len);
    searched(conflict, left, may as u64)
}

#[test]
fn random_systems_are_searched_as_by_sorting() {
    let mut random = Random::new(2, 0);
    let mut counts = [0, 0, 0, 0];
    while counts.iter().any(|count| *count < 30) {
        let system = random_system(&mut random);
        let all: Vec<usize> = (0..system.equations.len()).collect();
        if system.solvable(&all) {
            continue;
        }
        let conflict = minimal_conflict(&system);
        for number in (0..64).chain([u64::MAX]) {
            assert_eq!(
                search(&system, &conflict, number),
                by_sorting(&system, &conflict, number),
                "{system:?} {number}"
            );
        }
        let found = search(&system, &conflict, u64::MAX).set;
        match (conflict.len(), found.len()) {
            (1, _) => counts[0] += 1,
            (_, 1) => counts[1] += 1,
            (whole, part) if part < whole => counts[2] += 1,
            _ => counts[3] += 1,
        }
    }
}
