//! What `typereport` prints, as an executable reading of document 01: `check` walks an accepted body, `report` reads any bytes. What a
//! recorded sample has is more: `tables::Left`.
pub mod finish;
pub mod print;
pub mod tables;
pub mod types;
pub mod unify;
pub mod walk;

pub use unify::{Departure, Outcome};
pub use walk::Equation;

use body::Body;
use walk::{Refused, Walk};

/// "`typereport` lends 65,536 bytes of output".
const MOST_OUTPUT: usize = 65_536;

/// What the rules say of a body that `body::read` accepts.
#[derive(Debug, Clone, PartialEq, Eq)]
pub struct Checked {
    /// 0, or 10 to 13.
    pub answer: u8,
    /// The node whose rule ran, for 10 to 13.
    pub place: Option<usize>,
    /// The whole report, however long, or the answer line alone.
    pub text: String,
    /// How many equations, or steps of them, succeeded by the ring rule.
    pub rings: usize,
    /// The first departure from the source, and the node in whose rule it was.
    pub first_departure: Option<(Departure, usize)>,
    /// The equations of the body, in order, a refused one included.
    pub equations: Vec<Equation>,
}

/// The walk, the final equation, the resolution and the report.
pub fn check(body: &Body) -> Checked {
    let mut walk = Walk::new(body);
    let (answer, place, text) = match finish::run(&mut walk) {
        Ok(finals) => (0, None, print::report(&walk, &finals)),
        Err(Refused { answer, place }) => (answer, Some(place), print::answer(answer, Some(place))),
    };
    Checked {
        answer,
        place,
        text,
        rings: walk.variables.rings,
        first_departure: walk.first_departure,
        equations: walk.equations,
    }
}

/// "A body's equations are those its walk raises under these rules, in order".
pub fn equations(body: &Body) -> Vec<Equation> {
    check(body).equations
}

/// "The program `typereport` reads a body on standard input and prints ..."; "prints `answer=9,-` on 9".
pub fn report(bytes: &[u8]) -> String {
    let text = match body::read(bytes) {
        Ok(body) => check(&body).text,
        Err(refusal) => print::answer(refusal.answer, refusal.line),
    };
    if text.len() > MOST_OUTPUT {
        return print::answer(9, None);
    }
    text
}
