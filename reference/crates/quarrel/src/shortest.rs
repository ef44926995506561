//! Request n) of document 02, "The shortest quarrel", to the letter: of the subsets of f)'s equations that are smaller than f)'s set, the
//! first that is unsolvable. Each is decided by itself, from nothing.
pub mod tally;

use crate::solve::System;
use crate::{Form, Found, Given, find};

/// What a search comes to.
#[derive(Debug, Clone, PartialEq, Eq)]
pub struct Searched {
    /// "the first unsolvable one, else f)'s set": numbers of equations, rising.
    pub set: Vec<usize>,
    /// "the greatest size below which every non-empty subset was tested and solvable".
    pub below: usize,
    /// How many subsets were tested, an unsolvable one too.
    pub tests: u64,
}

/// What the search gives for a body, with this number of subsets that it may test, in a lent output of so many bytes or in one that is
/// long enough.
pub fn give(bytes: &[u8], number: u64, form: Form, room: Option<usize>) -> Given {
    Given::of(find(bytes).map(|found| found.search(number).text(&found, form)), room)
}

impl Found {
    /// The search among the equations that f) works on.
    pub fn search(&self, number: u64) -> Searched {
        search(&self.system, &self.conflict, number)
    }
}

/// "A search takes a 64-bit number of subsets it may test, goes through those of the equations f) works on that are smaller than f)'s set,
/// by size from 1 and then by first differing number".
pub fn search(system: &System, conflict: &[usize], number: u64) -> Searched {
    let mut tests = 0;
    for size in 1..conflict.len() {
        for subset in Subsets::new(system.equations.len(), size) {
            if tests == number {
                return Searched { set: conflict.to_vec(), below: size, tests };
            }
            tests += 1;
            if !system.solvable(&subset) {
                return Searched { set: subset, below: size, tests };
            }
        }
    }
    Searched { set: conflict.to_vec(), below: conflict.len(), tests }
}

impl Searched {
    /// "answers in f)'s text"; "a line `below=` ends it".
    pub fn text(&self, found: &Found, form: Form) -> String {
        found.lines(&self.set, form) + &format!("below={}\n", self.below)
    }

    /// Whether no subset was left for a greater number: one was found, or all were tested.
    pub fn ended(&self) -> bool {
        self.below == self.set.len()
    }
}

/// The subsets of one size of the numbers from 0 to below `count`, as rising lists, the one with the less first differing number first.
struct Subsets {
    count: usize,
    next: Option<Vec<usize>>,
}

impl Subsets {
    fn new(count: usize, size: usize) -> Subsets {
        Subsets { count, next: (size <= count).then(|| (0..size).collect()) }
    }
}

impl Iterator for Subsets {
    type Item = Vec<usize>;

    fn next(&mut self) -> Option<Vec<usize>> {
        let subset = self.next.take()?;
        self.next = following(&subset, self.count);
        Some(subset)
    }
}

/// The next list: the last number that can grow does so by 1, and those behind it follow one by one.
fn following(list: &[usize], count: usize) -> Option<Vec<usize>> {
    let grows = (0..list.len()).rev().find(|at| list[*at] + (list.len() - at) < count)?;
    let behind = list[grows] + 1..=list[grows] + (list.len() - grows);
    Some(list[..grows].iter().copied().chain(behind).collect())
}

/// How many subsets there are up to each size from 1 to below `sizes`, as far as that is at most `limit`.
pub fn ends(count: usize, sizes: usize, limit: u64) -> Vec<u64> {
    let (mut of_size, mut all) = (1, 0);
    let mut ends = Vec::new();
    for size in 1..sizes.min(count + 1) {
        of_size = of_size * (count + 1 - size) as u128 / size as u128;
        all += of_size;
        if all > u128::from(limit) {
            break;
        }
        ends.push(all as u64);
    }
    ends
}

/// Numbers to search a body with, rising: 0, 1, each size's end up to the limit with one less and one more; if the search ends within the
/// limit, what it takes and one less, 2^32 and 2^64-1.
pub fn numbers(found: &Found, limit: u64) -> Vec<u64> {
    let mut numbers = vec![0, 1];
    for end in ends(found.equations.len(), found.conflict.len(), limit) {
        numbers.extend([end - 1, end, end + 1]);
    }
    let searched = found.search(limit);
    if searched.ended() {
        numbers.retain(|number| *number <= searched.tests + 1);
        numbers.extend([searched.tests.saturating_sub(1), searched.tests, 1 << 32, u64::MAX]);
    }
    numbers.sort_unstable();
    numbers.dedup();
    numbers
}

#[cfg(test)]
mod tests {
    use super::*;

    #[test]
    fn subsets_in_order() {
        let of = |count, size| Subsets::new(count, size).collect::<Vec<_>>();
        assert_eq!(of(4, 1), [[0], [1], [2], [3]]);
        assert_eq!(of(4, 2), [[0, 1], [0, 2], [0, 3], [1, 2], [1, 3], [2, 3]]);
        assert_eq!(of(4, 3), [[0, 1, 2], [0, 1, 3], [0, 2, 3], [1, 2, 3]]);
        assert_eq!(of(3, 3), [[0, 1, 2]]);
        assert!(of(2, 3).is_empty());
    }

    /// Each order of rising lists is the one by first differing number, and each set of bits is met once.
    #[test]
    fn subsets_are_all_there_once_and_rise() {
        for count in 1..=10 {
            for size in 1..=count {
                let lists: Vec<_> = Subsets::new(count, size).collect();
                let less = |one: &[usize], other: &[usize]| {
                    let differing = one.iter().zip(other).find(|(a, b)| a != b);
                    differing.is_some_and(|(a, b)| a < b)
                };
                assert!(lists.windows(2).all(|pair| less(&pair[0], &pair[1])), "{count} {size}");
                assert!(lists.iter().all(|list| list.windows(2).all(|pair| pair[0] < pair[1])));
                let bits = (0..1u32 << count).filter(|set| set.count_ones() as usize == size).count();
                assert_eq!(lists.len(), bits, "{count} {size}");
            }
        }
    }

    #[test]
    fn ends_of_the_sizes() {
        assert_eq!(ends(10, 10, 2_000), [10, 55, 175, 385, 637, 847, 967, 1_012, 1_022]);
        assert_eq!(ends(10, 10, 967), [10, 55, 175, 385, 637, 847, 967]);
        assert_eq!(ends(10, 10, 966), [10, 55, 175, 385, 637, 847]);
        assert_eq!(ends(5, 3, u64::MAX), [5, 15]);
        assert!(ends(5, 1, u64::MAX).is_empty());
        assert_eq!(ends(2_000, 3, u64::MAX), [2_000, 2_001_000]);
        // Up to size 7 there are more than 64 bits have.
        assert_eq!(ends(2_000, 2_000, u64::MAX).len(), 6);
    }
}
