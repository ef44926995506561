//! Whether equations between plain terms have a common solution among plain closed types: union-find over the terms, then a test that
//! no class stands inside itself. Nothing here is shared with the rules' unification.

/// A plain closed type without parts.
#[derive(Debug, Clone, Copy, PartialEq, Eq)]
pub enum Leaf {
    Nil,
    Bool,
    Uint(u8),
    Int(u8),
    Float,
    Double,
    Inst(usize),
}

/// What a variable may be given: "integer variables sized integers and float variables f32 or f64", a Regular one any type.
#[derive(Debug, Clone, Copy, PartialEq, Eq)]
pub enum Kind {
    Any,
    Integer,
    Float,
}

impl Kind {
    /// The kind of a class with variables of both kinds; none where no type is of both.
    fn meet(self, other: Kind) -> Option<Kind> {
        match (self, other) {
            (Kind::Any, kind) | (kind, Kind::Any) => Some(kind),
            _ => (self == other).then_some(self),
        }
    }

    /// Whether a variable of this kind may be given this type.
    fn admits(self, leaf: Leaf) -> bool {
        match self {
            Kind::Any => true,
            Kind::Integer => matches!(leaf, Leaf::Uint(_) | Leaf::Int(_)),
            Kind::Float => matches!(leaf, Leaf::Float | Leaf::Double),
        }
    }

    /// A type for a class without another term.
    fn some_leaf(self) -> Leaf {
        match self {
            Kind::Any => Leaf::Nil,
            Kind::Integer => Leaf::Int(64),
            Kind::Float => Leaf::Double,
        }
    }
}

/// A plain term; the element of an array by its number in the table of terms.
#[derive(Debug, Clone, Copy, PartialEq, Eq)]
pub enum Term {
    Variable(Kind),
    Array(usize),
    Leaf(Leaf),
}

/// A plain closed type: a leaf inside so many arrays.
#[derive(Debug, Clone, Copy, PartialEq, Eq)]
pub struct Closed {
    pub depth: usize,
    pub leaf: Leaf,
}

/// Equations by number, their sides by the numbers of terms. One with got Diverges has no sides, as every way meets it.
#[derive(Debug, Clone, Default)]
pub struct System {
    pub terms: Vec<Term>,
    pub equations: Vec<Option<(usize, usize)>>,
}

impl System {
    /// Whether the chosen equations have a common solution.
    pub fn solvable(&self, chosen: &[usize]) -> bool {
        self.solution(chosen).is_some()
    }

    /// A common solution of the chosen equations, as the type of each term.
    pub fn solution(&self, chosen: &[usize]) -> Option<Vec<Closed>> {
        let mut classes = Classes::new(&self.terms);
        for (left, right) in chosen.iter().filter_map(|number| self.equations[*number]) {
            classes.unite(left, right)?;
        }
        classes.close()
    }
}

/// Terms that have to be the same type stand in one class.
struct Classes<'a> {
    terms: &'a [Term],
    /// The next term on the way to the class's root; the root's is itself.
    parent: Vec<usize>,
    /// Of a root: what the variables of its class demand together.
    kind: Vec<Kind>,
    /// Of a root: a term of its class that is no variable.
    structure: Vec<Option<usize>>,
}

impl Classes<'_> {
    /// Each term in a class of its own.
    fn new(terms: &[Term]) -> Classes<'_> {
        let kind = |term: &Term| if let Term::Variable(kind) = term { *kind } else { Kind::Any };
        let structure = |(number, term): (usize, &Term)| (!matches!(term, Term::Variable(_))).then_some(number);
        Classes {
            terms,
            parent: (0..terms.len()).collect(),
            kind: terms.iter().map(kind).collect(),
            structure: terms.iter().enumerate().map(structure).collect(),
        }
    }

    /// The root of a term's class; the way to it is halved.
    fn root(&mut self, term: usize) -> usize {
        let mut term = term;
        while self.parent[term] != term {
            self.parent[term] = self.parent[self.parent[term]];
            term = self.parent[term];
        }
        term
    }

    /// Puts two terms into one class, and of two arrays the elements; none where no type is both.
    fn unite(&mut self, left: usize, right: usize) -> Option<()> {
        let mut pairs = vec![(left, right)];
        while let Some((left, right)) = pairs.pop() {
            let (left, right) = (self.root(left), self.root(right));
            if left == right {
                continue;
            }
            pairs.extend(self.elements(left, right)?);
            self.kind[right] = self.kind[left].meet(self.kind[right])?;
            self.structure[right] = self.structure[right].or(self.structure[left]);
            self.parent[left] = right;
        }
        Some(())
    }

    /// The elements to unite with two classes: those of two arrays; none where their structures differ.
    fn elements(&self, left: usize, right: usize) -> Option<Option<(usize, usize)>> {
        let (Some(left), Some(right)) = (self.structure[left], self.structure[right]) else {
            return Some(None);
        };
        match (self.terms[left], self.terms[right]) {
            (Term::Array(left), Term::Array(right)) => Some(Some((left, right))),
            (Term::Leaf(left), Term::Leaf(right)) if left == right => Some(None),
            _ => None,
        }
    }

    /// A closed type for each term; none where a kind does not admit its class's structure, or a class stands inside itself.
    fn close(mut self) -> Option<Vec<Closed>> {
        let mut types = vec![None; self.terms.len()];
        for term in 0..self.terms.len() {
            // The classes from this one inwards, to one whose type is known.
            let mut way = Vec::new();
            let mut class = self.root(term);
            while types[class].is_none() {
                let Some(Term::Array(element)) = self.structure[class].map(|term| self.terms[term]) else {
                    types[class] = Some(self.leaf(class)?);
                    break;
                };
                if self.kind[class] != Kind::Any || way.len() == self.terms.len() {
                    return None;
                }
                way.push(class);
                class = self.root(element);
            }
            let mut inner = types[class]?;
            for class in way.into_iter().rev() {
                inner.depth += 1;
                types[class] = Some(inner);
            }
        }
        (0..self.terms.len()).map(|term| types[self.root(term)]).collect()
    }

    /// The type of a class without an array.
    fn leaf(&self, class: usize) -> Option<Closed> {
        let kind = self.kind[class];
        let leaf = match self.structure[class].map(|term| self.terms[term]) {
            Some(Term::Leaf(leaf)) => leaf,
            _ => kind.some_leaf(),
        };
        kind.admits(leaf).then_some(Closed { depth: 0, leaf })
    }
}
