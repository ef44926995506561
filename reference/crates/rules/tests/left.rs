//! What `report` leaves: the text and the output's length, the hash and the counts.
use rules::tables::{Left, Lent};

const BODY: &[u8] = b"node=bool\nfn=1,0\n";
const TEXT: &str = "answer=0,-/types=0/vars=0/node=1,1,-/errors=0/";

/// The second line of a sample, by the marks of its name.
fn line(bytes: &[u8], name: &str) -> String {
    Left::of(bytes, &Lent::of(name)).line()
}

/// The cells of the five tables that are not zero, by their place, as a hash over all of them.
fn hash(longer: usize, log: usize, cells: &[(usize, usize, u64)]) -> u64 {
    let lengths = [6_144 + longer, 6_144 + longer, 21_504 + longer, 36_864 + longer, log];
    let mut hash = 1_u64;
    for (table, length) in lengths.into_iter().enumerate() {
        for place in 0..length {
            let cell = cells.iter().find(|(t, p, _)| (*t, *p) == (table, place)).map_or(0, |(_, _, cell)| *cell);
            hash = (hash * 31 + cell) % 4_294_967_291;
        }
    }
    hash
}

#[test]
fn the_text_fits_or_not() {
    let length = TEXT.len();
    assert_eq!(length, 46);
    for (output, fits) in [(0, false), (45, false), (46, true), (47, true), (65_536, true)] {
        let left = line(BODY, &format!("x@{output}"));
        let expected = if fits { TEXT } else { "answer=9,-/answer=0,-/" };
        assert_eq!(left.split_once(' ').unwrap().1, expected, "{output} bytes");
    }
    assert_eq!(line(b"", "x@10"), "- answer=9,-/answer=3,1/");
    assert_eq!(line(b"", "x@11"), "- answer=3,1/");
    assert_eq!(line(BODY, "x!T@11"), "- answer=2,-/");
    assert_eq!(line(BODY, "x!T@10"), "- answer=9,-/answer=2,-/");
}

#[test]
fn the_hash_is_that_of_all_cells() {
    // RAW 1 and FINAL 1 of the one node; the equation (1, 1) and its answer 0.
    let node = [(0, 0, 1), (0, 1, 1), (0, 4, 1), (0, 5, 1)];
    let all = [&node[..], &[(4, 0, 1), (4, 1, 1)]].concat();
    let (whole, longer) = (hash(0, 6_144, &all), hash(9, 6_153, &all));
    let (none, two) = (hash(0, 0, &node), hash(0, 2, &node));
    for (name, hash) in [("x", whole), ("x!L", longer), ("x!0", none), ("x!2", two), ("x!3", self::hash(0, 3, &all))] {
        assert_eq!(line(BODY, name), format!("{hash},0,0,0,0,1,1 {TEXT}"), "{name}");
    }
}
