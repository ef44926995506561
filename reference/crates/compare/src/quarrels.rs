//! The library's tool of request f) against `crates/quarrel`, body by body.
mod lent;
mod run;
pub mod tables;

pub use lent::Lent;
pub use run::{file, generated};

use nunthila::TOLD;
use quarrel::Given;

/// What stands in each cell, byte and told number before a call.
pub const BEFORE: u8 = 7;

/// What a call of the tool leaves.
#[derive(Clone, Debug)]
pub struct Called {
    pub returned: usize,
    pub told: [usize; TOLD],
    pub out: Vec<u8>,
}

/// What is wrong with a call, beside what the tool has to give and the counts that `nunthila_check` tells of the body.
pub fn faults(wanted: &Given, counts: &[usize], called: &Called) -> Vec<String> {
    let mut faults = Vec::new();
    let mut fault = |good: bool, what: String| {
        if !good {
            faults.push(what);
        }
    };
    let (answer, told) = (usize::from(wanted.answer), &called.told);
    fault(called.returned == answer, format!("{} is returned, not {answer}", called.returned));
    fault(told[0] == answer, format!("the answer {} is told, not {answer}", told[0]));
    let place = [usize::from(wanted.place.is_some()), wanted.place.unwrap_or(0)];
    fault(told[1..3] == place, format!("the place {:?} is told, not {place:?}", &told[1..3]));
    fault(told[3..TOLD - 1] == *counts, format!("{:?} is told, check {counts:?}", &told[3..TOLD - 1]));
    let length = wanted.text.len();
    fault(told[TOLD - 1] == length, format!("{} bytes of text are told, not {length}", told[TOLD - 1]));
    if answer != 0 {
        fault(called.out.iter().all(|byte| *byte == 0), "the output is not zero throughout".to_string());
        return faults;
    }
    let (text, behind) = called.out.split_at(length.min(called.out.len()));
    fault(text == wanted.text.as_bytes(), format!("another text: {:?}", String::from_utf8_lossy(text)));
    fault(behind.iter().all(|byte| *byte == BEFORE), "a byte behind the text was changed".to_string());
    faults
}

#[cfg(test)]
mod tests;
