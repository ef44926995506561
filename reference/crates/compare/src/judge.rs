//! What a body has to be answered, who says so, and whether the library answers so.
use crate::ours::Given;
use crate::reader::Reading;
use crate::tables::Hidden;
use original::{Outcome, Outside, Want};
use rules::Departure;
use rules::walk::{Equation, Walk};
use std::cell::Cell;

/// An intended difference: a section of docs/DIFFERENCES.md.
#[derive(Clone, Copy, PartialEq, Eq, PartialOrd, Ord, Debug)]
pub enum Named {
    Rings,
    Refusal10,
    Refusal11,
    Refusal12,
    Refusal13,
    Marks,
    /// A number variable that meets a Regular one, document 02 e).
    Roles,
}

pub const NAMED: [Named; 7] =
    [Named::Rings, Named::Refusal10, Named::Refusal11, Named::Refusal12, Named::Refusal13, Named::Marks, Named::Roles];

impl Named {
    /// The section's title.
    pub fn title(self) -> &'static str {
        match self {
            Named::Rings => "Rings",
            Named::Refusal10 => "Refusal 10: what the rules do not type",
            Named::Refusal11 => "Refusal 11: a local without a type",
            Named::Refusal12 => "Refusal 12: a variable inside its own binding",
            Named::Refusal13 => "Refusal 13: a negated variable that is no signed integer",
            Named::Marks => "Marks of one bit",
            Named::Roles => "Roles exchanged",
        }
    }
}

/// Who says what a body has to be answered.
#[derive(Clone, Copy, PartialEq, Eq, Debug)]
pub enum Judge {
    /// The original ended: its report.
    Original,
    /// The original panicked where document 01 has this refusal: its place, and by what it panicked.
    Panic(Named, &'static str),
    /// The original cannot tell: document 01's rules as a program.
    Rules(Named),
    /// The body is declined: the reader in the second process.
    Reader,
    /// The second process gave nothing: the body has to be declined, and more is not known.
    Nobody,
}

#[derive(Clone, PartialEq, Eq, Debug)]
pub struct Expected {
    pub judge: Judge,
    /// The whole text, unless the judge is nobody.
    pub text: String,
    /// What a report does not show, by document 01's rules as a program; empty unless the answer is 0.
    pub hidden: Hidden,
}

/// What document 01's rules give for an accepted body.
pub struct Rules {
    pub answer: u8,
    pub text: String,
    /// The first departure from the source, and the node in whose rule it is.
    pub first_departure: Option<(Departure, usize)>,
    /// What the walk leaves, also where it is refused.
    pub hidden: Hidden,
}

#[derive(Clone, PartialEq, Eq, Debug)]
pub enum Verdict {
    Alike(Judge),
    Different(Difference),
}

/// A difference without an explanation.
#[derive(Clone, PartialEq, Eq, Debug)]
pub struct Difference {
    pub what: String,
    pub expected: String,
    pub got: String,
}

thread_local! {
    /// Whether the source runs on this thread.
    static IN_SOURCE: Cell<bool> = const { Cell::new(false) };
}

/// From here on a panic of the source is told in the verdict and nowhere else.
pub fn hide_panics_of_the_source() {
    let shown = std::panic::take_hook();
    std::panic::set_hook(Box::new(move |panic| {
        if !IN_SOURCE.get() {
            shown(panic);
        }
    }));
}

/// What is expected of a body that the second process has read; or why nothing explains what the source does with it.
pub fn expected(bytes: &[u8], read: Reading) -> Result<Expected, String> {
    IN_SOURCE.set(false);
    let alone = |judge, text| Ok(Expected { judge, text, hidden: Hidden::default() });
    match read {
        Reading::Failed => alone(Judge::Nobody, String::new()),
        Reading::Declined(refusal) => alone(Judge::Reader, rules::print::answer(refusal.answer, refusal.line)),
        Reading::Accepted => {
            let body =
                body::read(bytes).map_err(|r| format!("the reader declines here what it accepts there: {r:?}"))?;
            IN_SOURCE.set(true);
            let run = original::run(&body, Want::default());
            IN_SOURCE.set(false);
            explain(run.outcome, run.panicked, by_the_rules(&body))
        }
    }
}

fn by_the_rules(body: &body::Body) -> Rules {
    let mut walk = Walk::new(body);
    let (answer, text) = match rules::finish::run(&mut walk) {
        Ok(finals) => (0, rules::print::report(&walk, &finals)),
        Err(refused) => (refused.answer, rules::print::answer(refused.answer, Some(refused.place))),
    };
    let equation = |e: &Equation| {
        let ended = match e.outcome {
            rules::Outcome::Success => 0,
            rules::Outcome::Mismatch => 1,
            rules::Outcome::Refused12 => 12,
            rules::Outcome::Refused13 => 13,
        };
        [e.expected, e.got, ended]
    };
    let marked = walk.variables.rows.iter().enumerate().filter(|(_, row)| row.marked);
    let hidden = Hidden {
        equations: walk.equations.iter().map(equation).collect(),
        marked: marked.map(|(number, _)| number).collect(),
    };
    Rules { answer, text, first_departure: walk.first_departure, hidden }
}

/// What is expected where the original has this outcome, and document 01's rules give that.
pub fn explain(outcome: Outcome, panicked: Option<&'static str>, rules: Rules) -> Result<Expected, String> {
    let Rules { answer: by_rules, text: rules_text, first_departure, hidden } = rules;
    let marked = hidden.marked.len();
    let hidden = if by_rules == 0 { hidden } else { Hidden::default() };
    let (judge, text) = match outcome {
        Outcome::Report(text) => (Judge::Original, text),
        Outcome::Refused(answer, node) => {
            let named = match (answer, panicked) {
                (10, Some("todo!" | "unreachable!" | "index")) => Named::Refusal10,
                (11, Some("unwrap")) => Named::Refusal11,
                (13, Some("todo!")) => Named::Refusal13,
                _ => return Err(format!("the source panics by {panicked:?}, taken for {answer}")),
            };
            (Judge::Panic(named, panicked.unwrap_or_default()), format!("answer={answer},{node}\n"))
        }
        Outcome::Outside(Outside::Ring(node)) => {
            if first_departure != Some((Departure::Ring, node)) {
                return Err(format!("the source reaches a ring at node {node}, the rules: {first_departure:?}"));
            }
            (Judge::Rules(Named::Rings), rules_text)
        }
        Outcome::Outside(Outside::Roles(node)) => {
            if first_departure != Some((Departure::Roles, node)) {
                return Err(format!(
                    "the source sets a number variable against a Regular one at node {node}, the rules: {first_departure:?}"
                ));
            }
            (Judge::Rules(Named::Roles), rules_text)
        }
        Outcome::Outside(Outside::Inside(node)) => {
            if first_departure.is_some() || rules_text != format!("answer=12,{node}\n") {
                return Err(format!(
                    "the source binds a variable inside itself at node {node}, the rules: {rules_text}"
                ));
            }
            (Judge::Rules(Named::Refusal12), rules_text)
        }
        Outcome::Outside(Outside::Endless) => {
            // A list of marks grows by those that another variable passes on, so two variables have marks.
            if marked < 2 {
                return Err(format!("the source does not end, and {marked} variables have marks"));
            }
            (Judge::Rules(Named::Marks), rules_text)
        }
        Outcome::Panic(message) => return Err(format!("the source panics: {message}")),
    };
    Ok(Expected { judge, text, hidden })
}

/// Whether what the library gave is what is expected.
pub fn compare(expected: Result<Expected, String>, given: &Given) -> Verdict {
    let got = given.text.clone();
    let expected = match expected {
        Ok(expected) => expected,
        Err(what) => return Verdict::Different(Difference { what, expected: String::new(), got }),
    };
    let mut what = Vec::new();
    if expected.judge == Judge::Nobody {
        if !matches!(given.answer, 1 | 3..=6) {
            what.push("the reader gives no answer, and the library does not decline the body".to_string());
        }
    } else if expected.text != got {
        what.push(first_difference(&expected.text, &got));
    } else if expected.hidden != given.hidden {
        what.push(hidden_difference(&expected.hidden, &given.hidden));
    }
    let place = given.place.map_or("-".to_string(), |place| place.to_string());
    let told = format!("answer={},{place}", given.answer);
    if got.lines().next() != Some(&told) || (given.answer != 0 && got.len() != told.len() + 1) {
        what.push(format!("{told} is told, and the text is another"));
    }
    what.extend(given.faults.iter().cloned());
    match what.is_empty() {
        true => Verdict::Alike(expected.judge),
        false => Verdict::Different(Difference { what: what.join("; "), expected: expected.text, got }),
    }
}

/// The first line in which two different texts differ.
fn first_difference(expected: &str, got: &str) -> String {
    let (mut left, mut right) = (expected.split_inclusive('\n'), got.split_inclusive('\n'));
    let mut number = 0;
    loop {
        number += 1;
        let (l, r) = (left.next(), right.next());
        if l != r || l.is_none() {
            let shown = |line: Option<&str>| line.map_or("the end of the text".to_string(), |l| format!("{l:?}"));
            return format!("line {number}: expected {}, got {}", shown(l), shown(r));
        }
    }
}

/// Where equations or marks differ.
fn hidden_difference(expected: &Hidden, got: &Hidden) -> String {
    let (left, right) = (&expected.equations, &got.equations);
    match (0..left.len().max(right.len())).find(|i| left.get(*i) != right.get(*i)) {
        Some(i) => format!("equation {i}: expected {:?}, got {:?}", left.get(i), right.get(i)),
        None => format!("marks: expected {:?}, got {:?}", expected.marked, got.marked),
    }
}

#[cfg(test)]
mod tests;
