//! What came of bodies with a failed equation, counted, and whether each conflict is minimal.
use crate::{Found, find, left_by_dropping, not_minimal};
use rules::Outcome;
use std::collections::BTreeMap;

/// What came of generated bodies with a failed equation.
#[derive(Default)]
pub struct Tally {
    bodies: u64,
    /// By family, then by answer.
    answers: BTreeMap<&'static str, BTreeMap<u8, u64>>,
    /// How many minimal conflicts are of a size.
    sizes: BTreeMap<usize, u64>,
    /// How often so many equations were worked on, in ranges by their first number.
    worked_on: BTreeMap<usize, u64>,
    most_worked_on: usize,
    /// Of those answered 0: how many end with 12, in how many something was dropped, and how many have a second minimal conflict,
    /// found by dropping from the last down.
    ended_with_12: u64,
    dropped: u64,
    second: u64,
    not_minimal: Vec<String>,
}

impl Tally {
    /// How many have this answer.
    pub fn answered(&self, answer: u8) -> u64 {
        self.answers.values().filter_map(|answers| answers.get(&answer)).sum()
    }

    /// How many there are.
    pub fn bodies(&self) -> u64 {
        self.bodies
    }

    /// Whether no set was found that is not minimal.
    pub fn all_minimal(&self) -> bool {
        self.not_minimal.is_empty()
    }

    /// Counts a body with a failed equation.
    pub fn count(&mut self, index: u64, family: &'static str, bytes: &[u8]) {
        self.bodies += 1;
        let found = find(bytes);
        let answer = found.as_ref().map_or_else(|refusal| refusal.answer, |_| 0);
        *self.answers.entry(family).or_default().entry(answer).or_default() += 1;
        if let Ok(found) = found {
            self.count_found(index, &found);
        }
    }

    fn count_found(&mut self, index: u64, found: &Found) {
        let worked_on = found.equations.len();
        *self.sizes.entry(found.conflict.len()).or_default() += 1;
        *self.worked_on.entry(range_of(worked_on)).or_default() += 1;
        self.most_worked_on = self.most_worked_on.max(worked_on);
        let last = found.equations.last().map(|equation| equation.outcome);
        self.ended_with_12 += u64::from(last == Some(Outcome::Refused12));
        self.dropped += u64::from(found.conflict.len() < worked_on);
        self.second += u64::from(left_by_dropping(&found.system, (0..worked_on).rev()) != found.conflict);
        if let Some(why) = not_minimal(&found.system, &found.conflict).or_else(|| fails_too_late(found)) {
            self.not_minimal.push(format!("body {index}: {why}"));
        }
    }

    /// The counts, in lines.
    pub fn text(&self) -> String {
        let mut text = format!("with a failed equation {}\n", self.bodies);
        for (family, answers) in &self.answers {
            text += &format!("{family:<10} {}\n", joined(answers));
        }
        let mut all: BTreeMap<u8, u64> = BTreeMap::new();
        for (answer, count) in self.answers.values().flatten() {
            *all.entry(*answer).or_default() += count;
        }
        text += &format!("answers: {}\nsizes of the sets: {}\n", joined(&all), joined(&self.sizes));
        text += &format!("equations worked on, from: {}; at most {}\n", joined(&self.worked_on), self.most_worked_on);
        text += &format!("last refused 12: {}, something dropped: {}", self.ended_with_12, self.dropped);
        text += &format!(", another minimal set beside: {}\n", self.second);
        for why in self.not_minimal.iter().take(5) {
            text += &format!("{why}\n");
        }
        let not = self.not_minimal.len() as u64;
        text + &format!("{} sets minimal, {not} not\n", self.answered(0) - not)
    }
}

/// The walk and the solver agree on where it fails: the equations before the failed one have a common solution, so it is in the set.
fn fails_too_late(found: &Found) -> Option<String> {
    let failed = found.equations.len() - 1;
    let agree = found.system.solvable(&(0..failed).collect::<Vec<_>>()) && found.conflict.last() == Some(&failed);
    (!agree).then(|| "the equations before the failed one have no common solution".to_string())
}

/// The first number of the range that a number of equations counts in.
fn range_of(number: usize) -> usize {
    [1, 2, 3, 5, 9, 17, 33, 65, 129, 257, 513].into_iter().rev().find(|first| *first <= number).unwrap_or(0)
}

/// `KEY: COUNT` for each.
pub(crate) fn joined<K: std::fmt::Display>(counts: &BTreeMap<K, u64>) -> String {
    counts.iter().map(|(key, count)| format!("{key}: {count}")).collect::<Vec<_>>().join(", ")
}
