//! What came of the bodies, counted, and the table of it.
use crate::judge::{Difference, Judge, NAMED, Named, Verdict};
use crate::ours::{Given, TYPEREPORT};
use generate::{FAMILIES, Family};
use std::collections::BTreeMap;

/// The answers of `typereport`, 2 left out: every table is long enough.
const ANSWERS: [usize; 11] = [0, 1, 3, 4, 5, 6, 9, 10, 11, 12, 13];
/// How many differences are kept.
const KEPT: usize = 20;
/// Of how many of them the texts are shown.
const SHOWN: usize = 3;

/// A difference and the body that shows it.
pub struct Found {
    pub index: u64,
    pub family: Option<Family>,
    pub bytes: Vec<u8>,
    pub difference: Difference,
}

#[derive(Default)]
pub struct Tally {
    /// By family, or none for a body of a file, and by the answer of `typereport`.
    answers: BTreeMap<(Option<usize>, usize), u64>,
    reports: u64,
    long: u64,
    /// By section, and by what the source panicked by or the answer.
    named: BTreeMap<(Named, String), u64>,
    /// By answer.
    declined: BTreeMap<usize, u64>,
    nobody: u64,
    different: u64,
    first_different: Option<u64>,
    /// The smallest bodies that differ.
    found: Vec<Found>,
}

fn add<K: Ord>(counts: &mut BTreeMap<K, u64>, key: K, count: u64) {
    *counts.entry(key).or_default() += count;
}

impl Tally {
    /// Counts a body; what the library gave is absent where nothing was given.
    pub fn count(&mut self, index: u64, family: Option<Family>, bytes: &[u8], given: Option<&Given>, verdict: Verdict) {
        let number = family.and_then(|family| FAMILIES.iter().position(|f| *f == family));
        let answer = given.map_or(usize::MAX, |g| if g.text.len() > TYPEREPORT { 9 } else { g.answer });
        add(&mut self.answers, (number, answer), 1);
        match verdict {
            Verdict::Alike(Judge::Original) => {
                self.reports += 1;
                self.long += u64::from(answer == 9);
            }
            Verdict::Alike(Judge::Panic(named, by)) => add(&mut self.named, (named, format!("the source's {by}")), 1),
            Verdict::Alike(Judge::Rules(named)) => add(&mut self.named, (named, format!("answer {answer}")), 1),
            Verdict::Alike(Judge::Reader) => add(&mut self.declined, answer, 1),
            Verdict::Alike(Judge::Nobody) => self.nobody += 1,
            Verdict::Different(difference) => {
                self.different += 1;
                self.first_different = Some(self.first_different.map_or(index, |first| first.min(index)));
                self.keep(Found { index, family, bytes: bytes.to_vec(), difference });
            }
        }
    }

    fn keep(&mut self, found: Found) {
        self.found.push(found);
        self.found.sort_by_key(|f| (f.bytes.len(), f.index));
        self.found.truncate(KEPT);
    }

    /// Both together.
    pub fn merge(&mut self, other: Tally) {
        other.answers.into_iter().for_each(|(key, count)| add(&mut self.answers, key, count));
        other.named.into_iter().for_each(|(key, count)| add(&mut self.named, key, count));
        other.declined.into_iter().for_each(|(key, count)| add(&mut self.declined, key, count));
        self.reports += other.reports;
        self.long += other.long;
        self.nobody += other.nobody;
        self.different += other.different;
        self.first_different = [self.first_different, other.first_different].into_iter().flatten().min();
        other.found.into_iter().for_each(|found| self.keep(found));
    }

    pub fn bodies(&self) -> u64 {
        self.answers.values().sum()
    }

    pub fn different(&self) -> u64 {
        self.different
    }

    /// The bodies that differ, the smallest first.
    pub fn found(&self) -> &[Found] {
        &self.found
    }

    /// The answers by family.
    pub fn families(&self) -> String {
        let heads: String = ANSWERS.iter().map(|answer| format!("{answer:>8}")).collect();
        let mut text = format!("{:<10}{:>8}{heads}\n", "family", "bodies");
        let mut line = |name: &str, of: &dyn Fn(Option<usize>) -> bool| {
            let count = |answer: Option<usize>| -> u64 {
                let fits = |a: usize| answer.is_none_or(|answer| answer == a);
                self.answers.iter().filter(|((f, a), _)| of(*f) && fits(*a)).map(|(_, count)| count).sum()
            };
            let each: String = ANSWERS.iter().map(|answer| format!("{:>8}", count(Some(*answer)))).collect();
            text += &format!("{name:<10}{:>8}{each}\n", count(None));
        };
        for (number, family) in FAMILIES.iter().enumerate() {
            line(family.name(), &|f| f == Some(number));
        }
        line("all", &|_| true);
        text
    }

    /// How many bodies were judged by whom; the last line says all.
    pub fn judged(&self) -> String {
        let row = |name: &str, count: u64, details: String| {
            let details = if details.is_empty() { details } else { format!("   {details}") };
            format!("{name:<64}{count:>8}{details}\n")
        };
        let details = |counts: Vec<(String, u64)>| -> String {
            counts.iter().map(|(name, count)| format!("{name}: {count}")).collect::<Vec<_>>().join(", ")
        };
        let long = vec![("longer than 65,536 bytes".to_string(), self.long)];
        let mut text = row("the original answers, equal report", self.reports, details(long));
        for named in NAMED {
            let of: Vec<(String, u64)> = self
                .named
                .iter()
                .filter(|((n, _), _)| *n == named)
                .map(|((_, by), count)| (by.clone(), *count))
                .collect();
            text += &row(named.title(), of.iter().map(|(_, count)| count).sum(), details(of));
        }
        let declined: Vec<(String, u64)> =
            self.declined.iter().map(|(a, count)| (format!("answer {a}"), *count)).collect();
        text += &row(
            "declined, equal answer and place in the reader's process",
            self.declined.values().sum(),
            details(declined),
        );
        text += &row("declined, the reader's process gives no answer", self.nobody, String::new());
        let first = self.first_different.map_or(String::new(), |index| format!("the first: body {index}"));
        text += &row("unexplained", self.different, first);
        text + &format!("{} bodies, {} unexplained differences\n", self.bodies(), self.different)
    }

    /// The differences that are kept, the smallest body first.
    pub fn differences(&self, seed: Option<u64>) -> String {
        let mut text = String::new();
        for (number, found) in self.found.iter().enumerate() {
            let name = name(seed, found.index, found.family);
            text += &match number < SHOWN {
                true => format!("{name}, {}", shown(&found.bytes, &found.difference)),
                false => format!("{name}, {} bytes: {}\n", found.bytes.len(), found.difference.what),
            };
        }
        text
    }
}

/// Which body it is.
pub fn name(seed: Option<u64>, index: u64, family: Option<Family>) -> String {
    match (seed, family) {
        (Some(seed), Some(family)) => format!("body {index} of seed {seed}, {}", family.name()),
        _ => "the body".to_string(),
    }
}

/// A difference with the body and both texts.
pub fn shown(bytes: &[u8], difference: &Difference) -> String {
    let ended =
        |text: &str| if text.is_empty() || text.ends_with('\n') { text.to_string() } else { format!("{text}\n") };
    let Difference { what, expected, got } = difference;
    let (body, expected, got) = (ended(&String::from_utf8_lossy(bytes)), ended(expected), ended(got));
    format!("{} bytes: {what}\n-- body\n{body}-- expected\n{expected}-- got\n{got}--\n", bytes.len())
}

#[cfg(test)]
mod tests {
    use super::*;

    fn given(answer: usize, length: usize) -> Given {
        Given { answer, place: None, text: "x".repeat(length), hidden: Default::default(), faults: Vec::new() }
    }

    fn different() -> Verdict {
        Verdict::Different(Difference { what: "line 1".to_string(), expected: String::new(), got: String::new() })
    }

    #[test]
    fn every_body_is_counted_once() {
        let (mut left, mut right) = (Tally::default(), Tally::default());
        left.count(0, Some(Family::Typed), b"", Some(&given(0, 1)), Verdict::Alike(Judge::Original));
        left.count(1, Some(Family::Typed), b"", Some(&given(0, 65_537)), Verdict::Alike(Judge::Original));
        left.count(
            2,
            Some(Family::Paths),
            b"",
            Some(&given(10, 1)),
            Verdict::Alike(Judge::Panic(Named::Refusal10, "index")),
        );
        right.count(3, Some(Family::Rings), b"", Some(&given(0, 1)), Verdict::Alike(Judge::Rules(Named::Rings)));
        right.count(4, Some(Family::Damaged), b"", Some(&given(3, 1)), Verdict::Alike(Judge::Reader));
        right.count(5, Some(Family::Damaged), b"", Some(&given(4, 1)), Verdict::Alike(Judge::Nobody));
        right.count(7, Some(Family::Damaged), b"12", None, different());
        right.count(8, Some(Family::Damaged), b"1", Some(&given(0, 1)), different());
        left.merge(right);
        assert_eq!((left.bodies(), left.different()), (8, 2));
        let row = |name: &str| {
            let text = left.judged();
            let line = text.lines().find(|line| line.starts_with(name)).unwrap().to_string();
            line[64..72].trim().parse::<u64>().unwrap()
        };
        assert_eq!(row("the original answers"), 2);
        assert_eq!(row(Named::Refusal10.title()), 1);
        assert_eq!(row(Named::Rings.title()), 1);
        assert_eq!(row(Named::Marks.title()), 0);
        assert_eq!(row("declined, equal"), 1);
        assert_eq!(row("declined, the reader"), 1);
        assert_eq!(row("unexplained"), 2);
        assert!(left.judged().contains("the first: body 7\n"));
        assert!(left.judged().ends_with("8 bodies, 2 unexplained differences\n"));
        assert!(
            left.families().contains("\ntyped            2       1       0       0       0       0       0       1")
        );
        // The smallest body first.
        assert_eq!(left.found().iter().map(|f| f.index).collect::<Vec<_>>(), [8, 7]);
    }
}
