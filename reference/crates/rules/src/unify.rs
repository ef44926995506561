//! Unification: the five steps of document 01, "Types and errors, and the rules behind them".
use crate::types::{Pool, Type};

/// KIND of a variable.
#[derive(Debug, Clone, Copy, PartialEq, Eq)]
pub enum Kind {
    Int,
    Float,
    /// Regular.
    Any,
}

/// A variable: KIND, BOUND, ORIGIN, and its negation mark, which is one bit.
#[derive(Debug, Clone)]
pub struct Variable {
    pub kind: Kind,
    pub bound: Option<usize>,
    pub origin: Option<usize>,
    pub marked: bool,
}

/// How an equation ends.
#[derive(Debug, Clone, Copy, PartialEq, Eq)]
pub enum Outcome {
    Success,
    /// CAUSE 1.
    Mismatch,
    /// 12: the variable would stand inside its own binding.
    Refused12,
    /// 13: a marked variable against a type that is not Int.
    Refused13,
}

/// What a step that applies says: the end, or that another equation takes this one's place.
enum Next {
    End(Outcome),
    /// Expected, got.
    Against(usize, usize),
}

const SUCCESS: Option<Next> = Some(Next::End(Outcome::Success));

/// What the rules do and the source does not, and the walk goes on.
#[derive(Debug, Clone, Copy, PartialEq, Eq)]
pub enum Departure {
    /// The ring rule gave success.
    Ring,
    /// The roles of an integer or float variable and a Regular one were exchanged, document 02 e).
    Roles,
}

/// All variables drawn so far, how often the ring rule gave success, and the first departure.
#[derive(Debug, Default)]
pub struct Variables {
    pub rows: Vec<Variable>,
    pub rings: usize,
    pub first_departure: Option<Departure>,
}

impl Variables {
    /// The number of a new open variable.
    pub fn draw(&mut self, kind: Kind, origin: Option<usize>) -> usize {
        self.rows.push(Variable { kind, bound: None, origin, marked: false });
        self.rows.len() - 1
    }

    /// "`unify(expected, got)` ... Its steps, in order". Steps 2 and 3 may hand on to another equation.
    pub fn unify(&mut self, pool: &Pool, expected: usize, got: usize) -> Outcome {
        let (mut expected, mut got) = (expected, got);
        loop {
            let next = step_1(pool, expected, got)
                .or_else(|| step_2(pool, expected, got))
                .or_else(|| self.step_3(pool, expected, got))
                .or_else(|| self.step_4(pool, expected, got))
                .unwrap_or_else(|| step_5(pool, expected, got));
            match next {
                Next::End(outcome) => return outcome,
                Next::Against(left, right) => (expected, got) = (left, right),
            }
        }
    }

    /// "3. A variable on either side, the expected one first." Document 02 e): where an integer or float variable meets a Regular
    /// variable, on either side, "the Regular one is treated as the variable of that step".
    fn step_3(&mut self, pool: &Pool, expected: usize, got: usize) -> Option<Next> {
        let (this, other) = match (pool.variable(expected), pool.variable(got)) {
            (Some(number), Some(this)) if self.rows[number].kind != Kind::Any && self.rows[this].kind == Kind::Any => {
                self.first_departure.get_or_insert(Departure::Roles);
                (this, expected)
            }
            (Some(this), _) => (this, got),
            (None, Some(this)) => (this, expected),
            (None, None) => return None,
        };
        // "Integer against not integer-like ..., or float against not float-like ...: mismatch."
        if !self.kind_admits(pool, self.rows[this].kind, other) {
            return Some(Next::End(Outcome::Mismatch));
        }
        // "The same variable: success."
        if pool.variable(other) == Some(this) {
            return SUCCESS;
        }
        // "If this variable is marked ...".
        if self.rows[this].marked && !self.mark_admits(pool, other) {
            return Some(Next::End(Outcome::Refused13));
        }
        // "A bound variable: its binding as expected against the other side as got."
        if let Some(binding) = self.rows[this].bound {
            return Some(Next::Against(binding, other));
        }
        // "If following bindings from the other side ends at this variable (a ring): success, nothing bound".
        if pool.variable(self.end(pool, other)) == Some(this) {
            self.rings += 1;
            self.first_departure.get_or_insert(Departure::Ring);
            return SUCCESS;
        }
        // "If it would stand inside its own binding ...: refused 12".
        if self.stands_inside(pool, this, other) {
            return Some(Next::End(Outcome::Refused12));
        }
        // "Else it is bound."
        self.rows[this].bound = Some(other);
        SUCCESS
    }

    /// "(integers and integer variables are [integer-like])", "(Float, Double and float variables are)".
    fn kind_admits(&self, pool: &Pool, kind: Kind, other: usize) -> bool {
        match (kind, pool.get(other)) {
            (Kind::Any, _) => true,
            (kind, Type::Var(variable)) => self.rows[*variable].kind == kind,
            (Kind::Int, ty) => matches!(ty, Type::Int(_) | Type::Uint(_)),
            (Kind::Float, ty) => matches!(ty, Type::Float | Type::Double),
        }
    }

    /// "it passes its negation mark to a variable on the other side, and another type there that is not Int is refused 13".
    fn mark_admits(&mut self, pool: &Pool, other: usize) -> bool {
        match pool.get(other) {
            Type::Var(variable) => {
                self.rows[*variable].marked = true;
                true
            }
            ty => matches!(ty, Type::Int(_)),
        }
    }

    /// Following bindings from a type: the first open variable or type that is no variable.
    pub fn end(&self, pool: &Pool, ty: usize) -> usize {
        let mut ty = ty;
        while let Some(binding) = pool.variable(ty).and_then(|v| self.rows[v].bound) {
            ty = binding;
        }
        ty
    }

    /// "inside its own binding, through arrays, references, functions, lambdas or bindings": each type is seen once.
    fn stands_inside(&self, pool: &Pool, this: usize, binding: usize) -> bool {
        let mut seen = vec![false; pool.count()];
        let mut to_see = vec![binding];
        while let Some(ty) = to_see.pop() {
            if std::mem::replace(&mut seen[ty], true) {
                continue;
            }
            match pool.get(ty) {
                Type::Var(variable) if *variable == this => return true,
                Type::Var(variable) => to_see.extend(self.rows[*variable].bound),
                Type::Array(inner) | Type::Ref(inner) => to_see.push(*inner),
                Type::Fun { output, inputs, .. } | Type::Lambda { output, inputs, .. } => {
                    to_see.push(*output);
                    to_see.extend(inputs.iter());
                }
                _ => {}
            }
        }
        false
    }

    /// "4. A function type and a lambda, either way: outputs, then lengths, then inputs in order, the function's side expected."
    /// Each entry goes one level down the function type, which has at most 4 of fun in fun.
    fn step_4(&mut self, pool: &Pool, expected: usize, got: usize) -> Option<Next> {
        let (function, lambda) = match (pool.get(expected), pool.get(got)) {
            (function @ Type::Fun { .. }, lambda @ Type::Lambda { .. }) => (function, lambda),
            (lambda @ Type::Lambda { .. }, function @ Type::Fun { .. }) => (function, lambda),
            _ => return None,
        };
        let (Type::Fun { output, inputs, .. }, Type::Lambda { output: lambda_output, inputs: lambda_inputs, .. }) =
            (function, lambda)
        else {
            return None;
        };
        let outputs = self.unify(pool, *output, *lambda_output);
        if outputs != Outcome::Success {
            return Some(Next::End(outputs));
        }
        if inputs.len() != lambda_inputs.len() {
            return Some(Next::End(Outcome::Mismatch));
        }
        for (input, lambda_input) in inputs.iter().zip(lambda_inputs.iter()) {
            let outcome = self.unify(pool, *input, *lambda_input);
            if outcome != Outcome::Success {
                return Some(Next::End(outcome));
            }
        }
        SUCCESS
    }
}

/// "1. Equal Bool, Float, Double, Nil, Instance, or integers of one sign and width: success. Got Diverges: success."
fn step_1(pool: &Pool, expected: usize, got: usize) -> Option<Next> {
    match (pool.get(expected), pool.get(got)) {
        (_, Type::Diverges) => SUCCESS,
        (Type::Bool, Type::Bool) => SUCCESS,
        (Type::Float, Type::Float) => SUCCESS,
        (Type::Double, Type::Double) => SUCCESS,
        (Type::Nil, Type::Nil) => SUCCESS,
        (Type::Inst(left), Type::Inst(right)) if left == right => SUCCESS,
        (Type::Uint(left), Type::Uint(right)) if left == right => SUCCESS,
        (Type::Int(left), Type::Int(right)) if left == right => SUCCESS,
        _ => None,
    }
}

/// "2. Two arrays: their elements."
fn step_2(pool: &Pool, expected: usize, got: usize) -> Option<Next> {
    match (pool.get(expected), pool.get(got)) {
        (Type::Array(left), Type::Array(right)) => Some(Next::Against(*left, *right)),
        _ => None,
    }
}

/// "5. Error on either side: success. Anything else: mismatch."
fn step_5(pool: &Pool, expected: usize, got: usize) -> Next {
    Next::End(match (pool.get(expected), pool.get(got)) {
        (Type::Error, _) | (_, Type::Error) => Outcome::Success,
        _ => Outcome::Mismatch,
    })
}
