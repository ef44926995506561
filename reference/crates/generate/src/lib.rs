//! Body files by seed and index: the same pair always gives the same bytes.
//!
//! A family steers what its bodies are about; [`describe`] says it in words.

mod builder;
mod conflicts;
mod costly;
mod damage;
mod draft;
mod equations;
mod lambdas;
mod limits;
mod long_report;
mod marks;
mod methods;
mod mistakes;
mod paths;
mod random;
mod rings;
mod script;
mod sizes;
mod tables;
mod themes;
mod typed;
mod wild;

use builder::Builder;
pub use random::Random;

/// What a body is about.
#[derive(Clone, Copy, Debug, PartialEq, Eq, Hash)]
pub enum Family {
    Typed,
    Mixed,
    Wild,
    Equations,
    Lambdas,
    Methods,
    Paths,
    Marks,
    Kinds,
    Rings,
    Inside,
    Odd,
    Pairs,
    Small,
    Nested,
    Large,
    Costly,
    Damaged,
}

/// Every family, in the order of their numbers.
pub const FAMILIES: [Family; 18] = [
    Family::Typed,
    Family::Mixed,
    Family::Wild,
    Family::Equations,
    Family::Lambdas,
    Family::Methods,
    Family::Paths,
    Family::Marks,
    Family::Kinds,
    Family::Rings,
    Family::Inside,
    Family::Odd,
    Family::Pairs,
    Family::Small,
    Family::Nested,
    Family::Large,
    Family::Costly,
    Family::Damaged,
];

impl Family {
    /// The family's name, in lower case.
    pub fn name(self) -> &'static str {
        self.facts().0
    }

    /// How many of 100 bodies in a row are of this family.
    pub fn weight(self) -> u64 {
        self.facts().1
    }

    fn facts(self) -> (&'static str, u64, &'static str) {
        match self {
            Family::Typed => ("typed", 21, "scripts made for their types: no error, all bindings used"),
            Family::Mixed => ("mixed", 12, "the same scripts with a mistake now and then, of every kind of error"),
            Family::Wild => ("wild", 5, "any node in any place, any type in any declaration"),
            Family::Equations => ("equations", 6, "few variables, many equations between small terms"),
            Family::Lambdas => ("lambdas", 5, "lambdas against functions both ways round, with flaws; calls of both"),
            Family::Methods => ("methods", 5, "method calls on every kind of receiver, several binds on a type"),
            Family::Paths => ("paths", 8, "paths with failed segments, locals not yet typed, str, hidden refusals"),
            Family::Marks => ("marks", 5, "negated variables: marks kept, passed on, refused by each kind of type"),
            Family::Kinds => ("kinds", 3, "integer and float variables against Regular ones, open or bound"),
            Family::Rings => ("rings", 3, "variables in chains and diamonds, closed to rings or nearly so"),
            Family::Inside => ("inside", 2, "variables that would stand inside their own binding, and near misses"),
            Family::Odd => ("odd", 3, "Diverges and Error in every position"),
            Family::Pairs => ("pairs", 4, "equations between any two kinds of type"),
            Family::Small => ("small", 4, "bodies of one node to a few"),
            Family::Nested => ("nested", 2, "up to 64 levels of nodes, arrays in arrays, four levels of functions"),
            Family::Large => ("large", 3, "hundreds of nodes, often exactly 1,024; 64 items; full tables"),
            Family::Costly => ("costly", 1, "shared parts, wide functions and long chains that take long without care"),
            Family::Damaged => ("damaged", 8, "bodies with one or two faults, or with a count at its limit or past it"),
        }
    }
}

/// The family of a body: fixed shares, spread over the indexes.
fn family_at(index: u64) -> Family {
    let mut slot = (index % 100) * 37 % 100;
    for family in FAMILIES {
        if slot < family.weight() {
            return family;
        }
        slot -= family.weight();
    }
    Family::Typed
}

/// Body `index` of a seed, and its family.
pub fn body(seed: u64, index: u64) -> (Family, Vec<u8>) {
    let family = family_at(index);
    (family, of_family(family, seed, index))
}

/// Sets the bodies of [`conflict_or_other`] apart from those of the same seed and index.
const CONFLICTS: u64 = 0x636f_6e66_6c69_6374;

/// Body `index` of a seed for the tool of request f), and the name of its family: an odd index has a chain of variables with ends that
/// clash, an even one the body of half that index.
pub fn conflict_or_other(seed: u64, index: u64) -> (&'static str, Vec<u8>) {
    if index % 2 == 1 {
        return ("conflict", Builder::new(Random::new(seed ^ CONFLICTS, index)).conflict_body());
    }
    let (family, bytes) = body(seed, index / 2);
    (family.name(), bytes)
}

/// Sets the bodies of [`shortcut_or_conflict`] apart in the same way.
const SHORTCUTS: u64 = 0x7368_6f72_7463_7574;

/// Body `index` of a seed for the search of request n), and the name of its family: an odd index has a chain of variables behind equations
/// that shorten it, an even one the body of [`conflict_or_other`] of half that index.
pub fn shortcut_or_conflict(seed: u64, index: u64) -> (&'static str, Vec<u8>) {
    match index % 2 {
        1 => ("shortcut", Builder::new(Random::new(seed ^ SHORTCUTS, index)).shortcut_body()),
        _ => conflict_or_other(seed, index / 2),
    }
}

/// Body `index` of a seed, of the family that is asked for.
pub fn of_family(family: Family, seed: u64, index: u64) -> Vec<u8> {
    made(family, Random::new(seed, index))
}

fn made(family: Family, random: Random) -> Vec<u8> {
    let mut builder = Builder::new(random);
    match family {
        Family::Typed => script(builder, 0),
        Family::Mixed => {
            let slips = builder.random.pick(&[10, 20, 40, 80]);
            script(builder, slips)
        }
        Family::Wild => {
            let count = builder.random.pick(&[1, 2, 4, 8]);
            builder.wild_body(count, count * 6)
        }
        Family::Equations => builder.equations_body(),
        Family::Lambdas => builder.lambdas_body(),
        Family::Methods => builder.methods_body(),
        Family::Paths => builder.paths_body(),
        Family::Marks => builder.marks_body(),
        Family::Kinds => builder.kinds_body(),
        Family::Rings => builder.rings_body(),
        Family::Inside => builder.inside_body(),
        Family::Odd => builder.odd_body(),
        Family::Pairs => builder.pairs_body(),
        Family::Small => builder.small_body(),
        Family::Nested => builder.nested_body(),
        Family::Large => builder.large_body(),
        Family::Costly => builder.costly_body(),
        Family::Damaged => damaged(builder.random),
    }
}

/// A script of a few statements or many.
fn script(mut builder: Builder, slips: usize) -> Vec<u8> {
    builder.slips = slips;
    builder.tidy_tables();
    let count = builder.random.pick(&[1, 2, 3, 4, 6, 9]);
    let share = builder.random.pick(&[3, 4, 6]);
    builder.script(count, count * share)
}

/// A damaged body of another family, or one at a limit.
fn damaged(mut random: Random) -> Vec<u8> {
    if random.chance(30) {
        let body = limits::at_a_limit(&mut random);
        let again = random.chance(30);
        return match again {
            true => damage::damage(&mut random, body),
            false => body,
        };
    }
    let family = random.pick(&[
        Family::Small,
        Family::Small,
        Family::Typed,
        Family::Methods,
        Family::Paths,
        Family::Lambdas,
        Family::Wild,
        Family::Equations,
    ]);
    let body = made(family, Random::new(random.bits(), 0));
    damage::damage(&mut random, body)
}

/// One line per family, in plain words.
pub fn describe() -> String {
    let line = |family: Family| {
        let (name, weight, words) = family.facts();
        format!("- `{name}` ({weight} of 100): {words}.\n")
    };
    FAMILIES.map(line).concat()
}
