//! Request f) of document 02, "Which lines quarrel", to the letter: of the equations up to and including the first that failed or was
//! refused 12, a minimal conflict. Request n) is beside it: `shortest`.
pub mod depths;
pub mod shortest;
pub mod solve;
pub mod tally;

use rules::types::{DIVERGES, Pool, Type};
use rules::unify::Variables;
use rules::walk::{Refused, Walk};
use rules::{Equation, Outcome};
use solve::{Kind, Leaf, System, Term};
use std::collections::HashMap;

/// How a line of the text is written.
#[derive(Debug, Clone, Copy, PartialEq, Eq)]
pub enum Form {
    /// `equation=N`.
    Number,
    /// `equation=N,NODE,EXPECTED,GOT`, for people.
    Where,
}

/// What the tool answers: 0 and the text, or a refusal and none.
#[derive(Debug, Clone, PartialEq, Eq)]
pub struct Given {
    pub answer: u8,
    pub place: Option<usize>,
    pub text: String,
}

impl Given {
    /// A text in a lent output of so many bytes or in one that is long enough, "9 last"; or the refusal.
    pub fn of(text: Result<String, Refusal>, room: Option<usize>) -> Given {
        match text {
            Ok(text) if room.is_none_or(|room| text.len() <= room) => Given { answer: 0, place: None, text },
            Ok(_) => Given { answer: 9, place: None, text: String::new() },
            Err(Refusal { answer, place }) => Given { answer, place, text: String::new() },
        }
    }

    /// The answer line and the text.
    pub fn lines(&self) -> String {
        rules::print::answer(self.answer, self.place) + &self.text
    }
}

/// A refusal: its number, and PLACE.
#[derive(Debug, Clone, Copy, PartialEq, Eq)]
pub struct Refusal {
    pub answer: u8,
    pub place: Option<usize>,
}

/// "Refusal 14 is given, after the checker's own refusals other than 12", PLACE `-`.
const NOTHING_TO_TELL: Refusal = Refusal { answer: 14, place: None };

/// The equations that the tool works on, and those left of them.
#[derive(Debug, Clone)]
pub struct Found {
    /// "the equations up to and including the first that failed with cause 1 or was refused 12".
    pub equations: Vec<Equation>,
    pub system: System,
    /// The numbers of those left, rising.
    pub conflict: Vec<usize>,
}

/// What the tool gives for a body, in a lent output of so many bytes or in one that is long enough.
pub fn give(bytes: &[u8], form: Form, room: Option<usize>) -> Given {
    Given::of(find(bytes).map(|found| found.lines(&found.conflict, form)), room)
}

/// The minimal conflict of a body, or the refusal.
pub fn find(bytes: &[u8]) -> Result<Found, Refusal> {
    let body = body::read(bytes).map_err(|refusal| Refusal { answer: refusal.answer, place: refusal.line })?;
    let mut walk = Walk::new(&body);
    match rules::finish::run(&mut walk) {
        Err(Refused { answer, place }) if answer != 12 => return Err(Refusal { answer, place: Some(place) }),
        _ => {}
    }
    let equations = to_the_first_failure(&walk.equations).ok_or(NOTHING_TO_TELL)?.to_vec();
    let system = system(&walk.pool, &walk.variables, &equations).ok_or(NOTHING_TO_TELL)?;
    let conflict = minimal_conflict(&system);
    Ok(Found { equations, system, conflict })
}

/// Whether an equation of the body failed or was refused 12.
pub fn has_failed_equation(bytes: &[u8]) -> bool {
    body::read(bytes).is_ok_and(|body| to_the_first_failure(&rules::equations(&body)).is_some())
}

/// "up to and including the first that failed with cause 1 or was refused 12"; none where there is no such equation.
fn to_the_first_failure(equations: &[Equation]) -> Option<&[Equation]> {
    let first = equations.iter().position(|e| matches!(e.outcome, Outcome::Mismatch | Outcome::Refused12))?;
    Some(&equations[..=first])
}

/// The equations as a system of terms; none where one "has a side that is not plain, Diverges as got side excepted".
fn system(pool: &Pool, variables: &Variables, equations: &[Equation]) -> Option<System> {
    let mut terms = Terms { pool, variables, table: Vec::new(), numbers: HashMap::new() };
    let mut sides = |equation: &Equation| {
        let expected = terms.plain(equation.expected)?;
        if equation.got == DIVERGES {
            return Some(None);
        }
        Some(Some((expected, terms.plain(equation.got)?)))
    };
    let equations = equations.iter().map(&mut sides).collect::<Option<Vec<_>>>()?;
    Some(System { terms: terms.table, equations })
}

/// Plain types as terms, each once.
struct Terms<'a> {
    pool: &'a Pool,
    variables: &'a Variables,
    table: Vec<Term>,
    /// The term of a type, by its number.
    numbers: HashMap<usize, usize>,
}

impl Terms<'_> {
    /// The term of a type; none where it is not plain. "Plain types are Bool, integers, Float, Double, Nil, instances, variables, and
    /// arrays of plain types"; bindings and marks are disregarded.
    fn plain(&mut self, ty: usize) -> Option<usize> {
        if let Some(term) = self.numbers.get(&ty) {
            return Some(*term);
        }
        let term = match self.pool.get(ty) {
            Type::Nil => Term::Leaf(Leaf::Nil),
            Type::Bool => Term::Leaf(Leaf::Bool),
            Type::Uint(width) => Term::Leaf(Leaf::Uint(*width)),
            Type::Int(width) => Term::Leaf(Leaf::Int(*width)),
            Type::Float => Term::Leaf(Leaf::Float),
            Type::Double => Term::Leaf(Leaf::Double),
            Type::Inst(inst) => Term::Leaf(Leaf::Inst(*inst)),
            Type::Var(variable) => Term::Variable(kind(self.variables, *variable)),
            Type::Array(element) => Term::Array(self.plain(*element)?),
            Type::Error | Type::Diverges | Type::Ref(_) | Type::Fun { .. } | Type::Fn(_) | Type::Lambda { .. } => {
                return None;
            }
        };
        self.table.push(term);
        self.numbers.insert(ty, self.table.len() - 1);
        Some(self.table.len() - 1)
    }
}

/// The kind that a variable was drawn with.
fn kind(variables: &Variables, variable: usize) -> Kind {
    match variables.rows[variable].kind {
        rules::unify::Kind::Any => Kind::Any,
        rules::unify::Kind::Int => Kind::Integer,
        rules::unify::Kind::Float => Kind::Float,
    }
}

/// "drops from number 0 up each one whose removal leaves the rest unsolvable".
pub fn minimal_conflict(system: &System) -> Vec<usize> {
    left_by_dropping(system, 0..system.equations.len())
}

/// Drops in this order each equation whose removal leaves the rest unsolvable.
pub fn left_by_dropping(system: &System, order: impl Iterator<Item = usize>) -> Vec<usize> {
    let mut left: Vec<usize> = (0..system.equations.len()).collect();
    for number in order {
        let rest = without(&left, number);
        if !system.solvable(&rest) {
            left = rest;
        }
    }
    left
}

/// All but one.
fn without(numbers: &[usize], one: usize) -> Vec<usize> {
    numbers.iter().copied().filter(|number| *number != one).collect()
}

/// What keeps equations from being a minimal conflict: they "already have no common solution", and "removing any single one of them
/// must leave the others solvable".
pub fn not_minimal(system: &System, conflict: &[usize]) -> Option<String> {
    if system.solvable(conflict) {
        return Some("the equations left have a common solution".to_string());
    }
    let spare = conflict.iter().find(|number| !system.solvable(&without(conflict, **number)))?;
    Some(format!("without equation {spare} the others are still unsolvable"))
}

impl Found {
    /// "its text is an `equation=` line for each one": for those of these numbers.
    pub fn lines(&self, numbers: &[usize], form: Form) -> String {
        let line = |number: &usize| match (form, &self.equations[*number]) {
            (Form::Number, _) => format!("equation={number}\n"),
            (Form::Where, Equation { place, expected, got, .. }) => {
                format!("equation={number},{place},{expected},{got}\n")
            }
        };
        numbers.iter().map(line).collect()
    }
}
