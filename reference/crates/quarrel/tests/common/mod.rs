//! Systems for the tests: from their sides, and at random.
use generate::Random;
use quarrel::solve::{Kind, Leaf, System, Term};

pub const LEAVES: [Leaf; 10] = [
    Leaf::Nil,
    Leaf::Bool,
    Leaf::Uint(8),
    Leaf::Uint(16),
    Leaf::Int(8),
    Leaf::Int(64),
    Leaf::Float,
    Leaf::Double,
    Leaf::Inst(0),
    Leaf::Inst(1),
];
pub const KINDS: [Kind; 3] = [Kind::Any, Kind::Integer, Kind::Float];

/// A system over these terms, every equation with both sides.
pub fn system(terms: &[Term], equations: &[(usize, usize)]) -> System {
    System { terms: terms.to_vec(), equations: equations.iter().copied().map(Some).collect() }
}

/// A small random system: variables of every kind, leaves, and arrays of them.
pub fn random_system(random: &mut Random) -> System {
    let mut terms: Vec<Term> = (0..random.range(1, 5)).map(|_| Term::Variable(random.pick(&KINDS))).collect();
    if random.chance(70) {
        terms.iter_mut().for_each(|term| *term = Term::Variable(Kind::Any));
    }
    for _ in 0..random.below(3) {
        terms.push(Term::Leaf(random.pick(&LEAVES)));
    }
    for _ in 0..random.below(6) {
        terms.push(Term::Array(random.below(terms.len())));
    }
    let count = random.range(1, 6);
    let equations = (0..count).map(|_| (random.below(terms.len()), random.below(terms.len()))).collect::<Vec<_>>();
    system(&terms, &equations)
}
