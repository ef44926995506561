//! Bodies of 200 equations up to and including the first that fails, whose shortest conflict has 2 to 5 of them and whose minimal one by
//! the rule of request f has 10; each of exactly 1,024 nodes.
//!
//! The last equation is `l0 = true`. Before it `l0` is an integer along a short way of equations and along a longer one behind that. The
//! rule drops from number 0 up, so it is the longer one that stays.
use super::draft::{I32, Node};
use super::statements::{ITEMS, Statements};

/// The equations up to and including the first that fails.
pub const EQUATIONS: usize = 200;
/// Equations of the longer way, and how many the rule leaves with the last one.
const LONGER: usize = 9;
pub const LEFT: usize = LONGER + 1;
/// Sizes of the shortest conflict.
pub const SIZES: [usize; 4] = [2, 3, 4, 5];

/// Where the short way stands.
#[derive(Clone, Copy, PartialEq)]
pub enum Place {
    /// Before the harmless equations: of its size the shortest conflict is among the first.
    Early,
    /// Behind them: of its size it is among the last.
    Late,
}

pub const PLACES: [Place; 2] = [Place::Early, Place::Late];

impl Place {
    pub fn name(self) -> &'static str {
        match self {
            Place::Early => "early",
            Place::Late => "late",
        }
    }
}

/// What the harmless equations are.
#[derive(Clone, Copy)]
enum Kind {
    Lets,
    Chain,
    Lists,
    Nested,
    Settled,
}

/// Bodies with the same harmless equations.
#[derive(Clone, Copy)]
pub struct Family {
    pub name: &'static str,
    pub what: &'static str,
    kind: Kind,
}

pub const FAMILIES: [Family; 5] = [
    Family {
        name: "lets",
        what: "a literal assigned to a let of its own: two variables for an equation",
        kind: Kind::Lets,
    },
    Family {
        name: "chain",
        what: "variables assigned one to the next, and to every third a literal too: one variable for an equation",
        kind: Kind::Chain,
    },
    Family {
        name: "lists",
        what: "literals in lists of sixteen: about one variable for an equation",
        kind: Kind::Lists,
    },
    Family {
        name: "nested",
        what: "lists of lists of one literal, in lists of sixteen: arrays two deep, about one variable for an equation",
        kind: Kind::Nested,
    },
    Family { name: "settled", what: "values of type i32 in lists of such: no variable", kind: Kind::Settled },
];

pub struct Shortcut {
    pub family: Family,
    pub place: Place,
    /// The numbers of the shortest conflict that the search meets first, rising.
    pub best: Vec<usize>,
    pub bytes: Vec<u8>,
}

impl Shortcut {
    pub fn new(family: Family, size: usize, place: Place) -> Shortcut {
        let last = EQUATIONS - 1;
        let first = match place {
            Place::Early => 0,
            Place::Late => last - LONGER - (size - 1),
        };
        let best = (first..first + size - 1).chain([last]).collect();
        Shortcut { family, place, best, bytes: body(family.kind, size, place) }
    }

    pub fn name(&self) -> String {
        format!("{}-{}-{}", self.family.name, self.best.len(), self.place.name())
    }

    /// How many subsets a search tests until it finds the shortest conflict: those of lesser sizes, and those of its size up to it.
    pub fn tests(&self) -> u64 {
        let size = self.best.len();
        let lesser: u64 = (1..size).map(|size| subsets(EQUATIONS, size)).sum();
        // With its first numbers the same, those whose next number is less.
        let mut from = 0;
        let mut before = 0;
        for (at, number) in self.best.iter().enumerate() {
            before += (from..*number).map(|less| subsets(EQUATIONS - 1 - less, size - 1 - at)).sum::<u64>();
            from = number + 1;
        }
        lesser + before + 1
    }
}

/// How many subsets of a size there are.
pub fn subsets(of: usize, size: usize) -> u64 {
    (0..size).fold(1, |count, taken| count * (of - taken.min(of)) as u64 / (taken + 1) as u64)
}

/// All of them.
pub fn all() -> Vec<Shortcut> {
    let of_family = |family| {
        SIZES.iter().flat_map(move |size| PLACES.iter().map(move |place| Shortcut::new(family, *size, *place)))
    };
    FAMILIES.into_iter().flat_map(of_family).collect()
}

fn body(kind: Kind, size: usize, place: Place) -> Vec<u8> {
    let mut s = Statements::new();
    let value = s.param(I32);
    let start = s.variable();
    let harmless = EQUATIONS - 1 - (size - 1) - LONGER;
    if place == Place::Late {
        s.harmless(kind, value, harmless);
    }
    s.way(start, size - 1);
    if place == Place::Early {
        s.harmless(kind, value, harmless);
    }
    s.way(start, LONGER);
    s.assign(start, Node::Bool);
    s.finish()
}

impl Statements {
    /// `start = a; a = b; ..; z = 1`: so many equations.
    fn way(&mut self, start: usize, equations: usize) {
        let mut end = start;
        for _ in 1..equations {
            let next = self.variable();
            self.join(end, next);
            end = next;
        }
        self.assign(end, Node::Int);
    }

    /// So many equations that are met whatever the others are.
    fn harmless(&mut self, kind: Kind, value: usize, equations: usize) {
        match kind {
            Kind::Lets => {
                for _ in 0..equations {
                    let local = self.variable();
                    self.assign(local, Node::Int);
                }
            }
            Kind::Chain => self.chain(equations),
            Kind::Lists => self.lists_of(16, equations, |s| s.emit(Node::Int)),
            Kind::Nested => self.lists_of(16, equations, |s| {
                let literal = s.emit(Node::Int);
                let inner = s.emit(Node::List(vec![literal]));
                s.emit(Node::List(vec![inner]))
            }),
            Kind::Settled => self.lists_of(ITEMS, equations, |s| s.emit(Node::Local(value))),
        }
    }

    /// `a = b; b = c; c = d; d = 1; d = e; ..`.
    fn chain(&mut self, equations: usize) {
        let mut end = self.variable();
        for number in 0..equations {
            if number % 4 == 3 {
                self.assign(end, Node::Int);
            } else {
                let next = self.variable();
                self.join(end, next);
                end = next;
            }
        }
    }

    /// Lists of at most so many of these items: each but the first of a list raises an equation.
    fn lists_of(&mut self, most: usize, equations: usize, item: impl Fn(&mut Statements) -> usize) {
        let mut left = equations;
        while left > 0 {
            let others = left.min(most - 1);
            let items = (0..=others).map(|_| item(self)).collect();
            self.state(Node::List(items));
            left -= others;
        }
    }
}
