//! What holds of every body: it can be made again, and it keeps the limits.

use generate::{FAMILIES, Family, body, conflict_or_other, describe, of_family, shortcut_or_conflict};

const COUNT: u64 = 300;

/// The well-formed families.
fn well_formed() -> impl Iterator<Item = Family> {
    FAMILIES.into_iter().filter(|f| *f != Family::Damaged)
}

fn lines(bytes: &[u8]) -> Vec<String> {
    let text = String::from_utf8(bytes.to_vec()).expect("a body is ASCII");
    text.lines().map(str::to_string).collect()
}

/// The fields of each line with this key.
fn rows(lines: &[String], key: &str) -> Vec<Vec<String>> {
    let values = lines.iter().filter_map(|line| line.strip_prefix(key));
    let split = |value: &str| value.split(',').map(str::to_string).collect();
    values.map(split).collect()
}

/// The children of a node row: fields that are numbers, names and types left out.
fn children(row: &[String]) -> Vec<usize> {
    let skipped: &[usize] = match row[0].as_str() {
        "path" | "param" => return Vec::new(),
        "bin" | "un" | "let" | "lambda" => &[1],
        "field" | "mcall" => &[2],
        _ => &[],
    };
    let fields = row.iter().enumerate().skip(1);
    fields.filter(|(place, _)| !skipped.contains(place)).filter_map(|(_, field)| field.parse().ok()).collect()
}

/// The deepest level; a node without parent has level 1.
fn levels(nodes: &[Vec<String>]) -> usize {
    let mut level = vec![1; nodes.len()];
    for node in (0..nodes.len()).rev() {
        for child in children(&nodes[node]) {
            assert!(child < node, "a child comes before its parent");
            level[child] = level[node] + 1;
        }
    }
    level.into_iter().max().unwrap_or(0)
}

/// How many of a row's fields are not items of a list.
fn head(row: &[String]) -> usize {
    match row[0].as_str() {
        "mcall" | "lambda" | "path" => 3,
        "list" => 1,
        _ => 2,
    }
}

#[test]
fn the_same_pair_gives_the_same_body() {
    for index in 0..COUNT {
        assert_eq!(body(7, index), body(7, index));
    }
    assert_ne!(body(7, 0).1, body(8, 0).1);
}

#[test]
fn every_family_has_its_share() {
    for family in FAMILIES {
        let found = (0..100).filter(|index| body(1, *index).0 == family).count();
        assert_eq!(found as u64, family.weight());
        assert!(describe().contains(family.name()));
    }
}

fn keep_the_limits(bytes: &[u8]) {
    let lines = lines(bytes);
    let nodes = rows(&lines, "node=");
    assert!(bytes.len() <= 65_536 && bytes.ends_with(b"\n"));
    assert!((1..=1024).contains(&nodes.len()));
    assert!(rows(&lines, "type=").len() <= 512);
    assert!(rows(&lines, "def=").len() <= 256);
    assert!(rows(&lines, "inst=").len() <= 64);
    assert!(rows(&lines, "bind=").len() <= 64);
    assert!(levels(&nodes) <= 64);
    for node in &nodes {
        let most = if node[0] == "lambda" { 16 } else { 64 };
        assert!(node.len().saturating_sub(head(node)) <= most);
    }
}

#[test]
fn well_formed_bodies_keep_the_limits() {
    for family in well_formed() {
        (0..COUNT).for_each(|index| keep_the_limits(&of_family(family, 1, index)));
    }
}

/// The bodies for request f): the odd ones are chains, which keep the limits too, the even ones those of half the index.
#[test]
fn every_second_body_has_a_chain() {
    for index in 0..COUNT {
        let (name, bytes) = conflict_or_other(1, 2 * index + 1);
        assert_eq!(name, "conflict");
        keep_the_limits(&bytes);
        let (family, bytes) = body(1, index);
        assert_eq!(conflict_or_other(1, 2 * index), (family.name(), bytes));
    }
}

/// The bodies for request n): the odd ones are chains with shortcuts, the even ones those for request f) of half the index.
#[test]
fn every_second_body_has_shortcuts() {
    for index in 0..COUNT {
        let (name, bytes) = shortcut_or_conflict(1, 2 * index + 1);
        assert_eq!(name, "shortcut");
        keep_the_limits(&bytes);
        assert_eq!(shortcut_or_conflict(1, 2 * index), conflict_or_other(1, index));
    }
}

#[test]
fn some_bodies_reach_the_limits() {
    let large = (0..COUNT).map(|index| of_family(Family::Large, 1, index));
    let full = large.filter(|bytes| rows(&lines(bytes), "node=").len() == 1024);
    assert!(full.count() > 0);
    let nested = (0..COUNT).map(|index| of_family(Family::Nested, 1, index));
    let deep = nested.filter(|bytes| levels(&rows(&lines(bytes), "node=")) == 64);
    assert!(deep.count() > 0);
}
