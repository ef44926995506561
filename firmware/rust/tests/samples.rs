//! The recorded samples of the repository: text, counts and a hash of the tables of each.
mod common;
use common::{error_cells, expand, repository};
use nunthila::{Checker, Lengths, Tables};

/// Starts as 1 and becomes with each cell 31 times itself plus the cell, modulo 4,294,967,291.
fn hash(cells: impl Iterator<Item = u16>) -> u64 {
    cells.fold(1, |h, c| (h * 31 + u64::from(c)) % 4_294_967_291)
}

fn table_hash(t: Tables) -> u64 {
    hash([t.nodes, t.vars, t.types, &error_cells(t.errors), t.log].concat().into_iter())
}

/// Samples with a sign for other lengths of the tables are those of `lent.txt`, which tables.rs tries.
#[test]
fn samples_agree() {
    let file = std::fs::read_to_string(repository("crates/replay/stdin")).unwrap();
    let mut lines = file.lines().filter(|l| !l.is_empty() && !l.starts_with('#'));
    let mut checker = Checker::with_lengths(Lengths { log: 6_144, ..Lengths::required() });
    let mut agree = 0;
    while let (Some(sample), Some(expected)) = (lines.next(), lines.next()) {
        let (name, body) = sample.split_once(' ').unwrap_or((sample, ""));
        let (name, bytes) = name.split_once('@').map_or((name, 65_536), |(n, b)| (n, b.parse().unwrap()));
        if name.contains('!') {
            continue;
        }
        let body = expand(body).unwrap();
        let (numbers, text) = expected.split_once(' ').unwrap();
        let mut out = vec![0u8; bytes];
        let reported = checker.report(&body, &mut out);
        let got = match reported.length() {
            Some(length) => String::from_utf8(out[..length].to_vec()).unwrap(),
            None => format!("answer=9,-\n{}\n", common::text(&reported).lines().next().unwrap()),
        };
        assert_eq!(got.replace('\n', "/"), text, "{name}");
        let c = reported.counts();
        let hash = table_hash(reported.tables());
        let got = format!("{hash},{},{},{},{},{},{}", c.types, c.defs, c.insts, c.binds, c.nodes, c.equations);
        assert_eq!(if reported.checked().answer() == 0 { &got } else { "-" }, numbers, "{name}");
        agree += 1;
    }
    println!("agree={agree}");
    assert!(agree >= 1_700, "{agree} samples");
}
