//! What came of searches on bodies whose minimal conflict has two equations or more, counted, and whether each is right by other means.
use super::{Searched, ends, numbers};
use crate::tally::joined;
use crate::{Found, depths};
use std::collections::BTreeMap;

/// Up to how many subsets a search is run, and up to how many it is gone through by the other means.
const LIMIT: u64 = 5_000;

/// What came of the searches.
#[derive(Default)]
pub struct Tally {
    bodies: u64,
    searches: u64,
    /// How many bodies have a set of f) of this size.
    sizes: BTreeMap<usize, u64>,
    /// In how many of them a smaller one was found, by its size, and by how many equations fewer it has.
    found: BTreeMap<usize, u64>,
    fewer: BTreeMap<usize, u64>,
    /// Bodies whose search does not end within the limit, so that none is run with 2^32 and 2^64-1.
    not_ended: u64,
    /// Searches whose whole outcome was compared with that of the other means.
    compared: u64,
    wrong: Vec<String>,
}

impl Tally {
    /// How many bodies were searched.
    pub fn bodies(&self) -> u64 {
        self.bodies
    }

    /// Whether nothing was found wrong.
    pub fn all_right(&self) -> bool {
        self.wrong.is_empty()
    }

    /// Searches a body with each of its numbers.
    pub fn count(&mut self, index: u64, found: &Found) {
        self.bodies += 1;
        *self.sizes.entry(found.conflict.len()).or_default() += 1;
        let known = Known::of(found);
        let mut before: Option<Searched> = None;
        for number in numbers(found, LIMIT) {
            let searched = found.search(number);
            self.searches += 1;
            if let Some(why) = not_an_answer(found, number, &searched).or_else(|| not_after(before.as_ref(), &searched))
            {
                self.wrong.push(format!("body {index}, number {number}: {why}"));
            }
            if let Some(expected) = known.searched(found, number) {
                self.compared += 1;
                if searched != expected {
                    self.wrong
                        .push(format!("body {index}, number {number}: {searched:?}, by other means {expected:?}"));
                }
            }
            before = Some(searched);
        }
        if let Some(last) = before {
            self.not_ended += u64::from(!last.ended());
            if last.set != found.conflict {
                *self.found.entry(last.set.len()).or_default() += 1;
                *self.fewer.entry(found.conflict.len() - last.set.len()).or_default() += 1;
            }
        }
    }

    /// The counts, in lines.
    pub fn text(&self) -> String {
        let mut text = format!("searched {}, {} searches\n", self.bodies, self.searches);
        text += &format!("sizes of the sets of f: {}\n", joined(&self.sizes));
        let found: u64 = self.found.values().sum();
        text += &format!("a smaller one found: {found}, by size: {}\n", joined(&self.found));
        text += &format!("equations fewer: {}\n", joined(&self.fewer));
        text += &format!("left out with 2^32 and 2^64-1, as {LIMIT} tests do not end the search: {}\n", self.not_ended);
        for why in self.wrong.iter().take(5) {
            text += &format!("{why}\n");
        }
        text + &format!("{} searches by other means as well, {} wrong\n", self.compared, self.wrong.len())
    }
}

/// What keeps a search from being an answer at all: its set has to be unsolvable, no larger than f)'s, and `below` no larger than it.
fn not_an_answer(found: &Found, number: u64, searched: &Searched) -> Option<String> {
    let Searched { set, below, tests } = searched;
    let why = match () {
        _ if *tests > number => "more subsets were tested than may be",
        _ if found.system.solvable(set) || depths::solvable(&found.system, set) => {
            "the equations have a common solution"
        }
        _ if set.len() > found.conflict.len() => "the set is larger than that of f",
        _ if *below > set.len() || *below == 0 => "below is 0 or larger than the set",
        _ if number == u64::MAX && *below != set.len() => "all may be tested, and below is not the size of the set",
        _ => return None,
    };
    Some(format!("{why}: {searched:?}"))
}

/// With a greater number no set is larger and `below` not less, and a subset that is found stays.
fn not_after(before: Option<&Searched>, searched: &Searched) -> Option<String> {
    let before = before?;
    let later = searched.set.len() <= before.set.len() && searched.below >= before.below;
    let stays = !before.ended() || before == searched;
    (!later || !stays).then(|| format!("{searched:?} behind {before:?}"))
}

/// What is known by other means: the subsets of each size are built from the last number down, decided by the depths of arrays, and the
/// first of those that are unsolvable is the least of them; how many come before it is counted and not gone through.
struct Known {
    /// How many subsets there are up to each size that was gone through.
    ends: Vec<u64>,
    /// The first unsolvable one, and how many tests it takes to find it.
    first: Option<(Vec<usize>, u64)>,
}

impl Known {
    fn of(found: &Found) -> Known {
        let count = found.equations.len();
        let mut known = Known { ends: ends(count, found.conflict.len(), LIMIT), first: None };
        for size in 1..=known.ends.len() {
            let mut unsolvable = Vec::new();
            each(count, size, &mut Vec::new(), &mut |subset| {
                if !depths::solvable(&found.system, subset) {
                    unsolvable.push(subset.to_vec());
                }
            });
            if let Some(first) = unsolvable.into_iter().min() {
                let smaller = if size == 1 { 0 } else { known.ends[size - 2] };
                let tests = smaller + before(&first, count) + 1;
                known.ends.truncate(size);
                known.first = Some((first, tests));
                break;
            }
        }
        known
    }

    /// What a search with this number has to come to; none where that rests on sizes that were not gone through.
    fn searched(&self, found: &Found, number: u64) -> Option<Searched> {
        if let Some((set, tests)) = self.first.as_ref().filter(|(_, tests)| *tests <= number) {
            return Some(Searched { set: set.clone(), below: set.len(), tests: *tests });
        }
        let tested = self.ends.iter().filter(|end| **end <= number).count();
        let all = self.first.is_none() && self.ends.len() + 1 == found.conflict.len();
        let most = self.ends.last().copied().unwrap_or(0);
        if !all && number > most {
            return None;
        }
        Some(Searched { set: found.conflict.clone(), below: tested + 1, tests: number.min(most) })
    }
}

/// Each subset of this size of the numbers below `count`, those with greater numbers first; `chosen` holds the numbers taken, falling.
fn each(count: usize, size: usize, chosen: &mut Vec<usize>, see: &mut dyn FnMut(&[usize])) {
    if size == 0 {
        let rising: Vec<usize> = chosen.iter().rev().copied().collect();
        return see(&rising);
    }
    for greatest in (size - 1..count).rev() {
        chosen.push(greatest);
        each(greatest, size - 1, chosen, see);
        chosen.pop();
    }
}

/// How many lists of the same size come before a rising list of numbers below `count`: for each of its numbers, those that begin alike and
/// have a less number in its place.
fn before(list: &[usize], count: usize) -> u64 {
    let mut least = 0;
    let mut all = 0;
    for (at, number) in list.iter().enumerate() {
        let less = least..*number;
        all += less.map(|less| choose(count - 1 - less, list.len() - 1 - at)).sum::<u64>();
        least = number + 1;
    }
    all
}

/// How many subsets of this size so many numbers have.
fn choose(count: usize, size: usize) -> u64 {
    if size > count { 0 } else { (0..size as u64).fold(1, |all, at| all * (count as u64 - at) / (at + 1)) }
}

#[cfg(test)]
mod tests {
    use super::*;

    #[test]
    fn lists_before_a_list() {
        for (list, count) in
            [(&[0, 3][..], 4), (&[2, 11], 12), (&[0, 3, 4], 5), (&[0, 5, 6], 7), (&[6], 7), (&[4, 5, 6], 7)]
        {
            let mut less = 0;
            each(count, list.len(), &mut Vec::new(), &mut |other| less += u64::from(other < list));
            assert_eq!(before(list, count), less, "{list:?} of {count}");
        }
        assert_eq!(before(&[0, 5, 6], 7), 14);
        assert_eq!(before(&[2, 11], 12), 29);
        assert_eq!(choose(7, 3), 35);
        assert_eq!(choose(2, 3), 0);
    }
}
