//! Lengths of tables, bodies and outputs, and a checker that is used again.
mod common;
use common::{all_cells, bodies, cases, copies, each_table, examples, repository, rest_is_zero, text, Case, Random};
use nunthila::{Checked, Checker, Lengths, Outcome};

const WORKED: &[u8] =
    b"node=param,8\nnode=int\nnode=let,-,1\nnode=path,l0,1,7:l0\nnode=path,l2,1,9:l2\nnode=bin,a,3,4\n\
    node=block,5,2\nfn=8,6,0\n";
const WORKED_LENGTH: usize = 141;

fn is_empty(c: &Checked) -> bool {
    c.nodes().len() + c.types().len() + c.vars().len() + c.errors().len() + c.equations().len() == 0
        && c.counts() == Default::default()
}

/// The full-size body of the bodies by hand, which is accepted.
fn full_size() -> Vec<u8> {
    let case = bodies().into_iter().find(|c| c.name == "bytes-exactly-65536-accepted").unwrap();
    assert_eq!(case.body.len(), 65_536);
    case.body
}

#[test]
fn required_lengths_are_those_of_the_header() {
    let header = std::fs::read_to_string(repository("firmware/nunthila.h")).unwrap();
    let length = |name: &str| -> usize {
        let line = header.lines().find_map(|l| l.strip_prefix(&format!("#define NUNTHILA_{name} "))).unwrap();
        line.split_whitespace().next().unwrap().parse().unwrap()
    };
    let r = Lengths::required();
    assert_eq!((r.rows, r.cells, r.nodes, r.vars), (length("ROWS"), length("CELLS"), length("NODES"), length("VARS")));
    assert_eq!((r.types, r.errors, r.memory), (length("TYPES"), length("ERRORS"), length("MEMORY")));
    assert_eq!((nunthila::TOLD, 3 * 2_048), (length("TOLD"), length("LOG")));
    assert_eq!(Checker::new().lengths(), r);
    assert_eq!(Checker::with_log(7).lengths(), Lengths { log: 21, ..r });
}

#[test]
fn a_short_table_is_answered_2() {
    for shorter in [|n: usize| n - 1, |n: usize| n / 2, |_: usize| 0] {
        for (name, lengths) in each_table(shorter) {
            let mut checker = Checker::with_lengths(lengths);
            assert_eq!(checker.lengths(), lengths);
            let checked = checker.check(WORKED);
            assert_eq!((checked.answer(), checked.place()), (2, None), "{name}");
            assert!(is_empty(&checked), "{name}");
            assert!(all_cells(checked.tables()).iter().all(|&c| c == 0), "{name}: as they were");
            let mut out = [7u8; 64];
            let reported = checker.report(WORKED, &mut out);
            assert_eq!((reported.answer(), reported.length()), (2, Some(11)), "{name}");
            assert_eq!(&out[..12], b"answer=2,-\n\x07", "{name}");
            assert_eq!(checker.check(b"x").answer(), 2, "{name}: 2 before 3");
            assert_eq!(checker.check(&[b'x'; 65_537]).answer(), 1, "{name}: 1 before 2");
        }
    }
}

#[test]
fn a_longer_table_changes_nothing() {
    let mut usual = Checker::new();
    for case in examples() {
        let expected = text(&usual.check(&case.body));
        for (name, lengths) in each_table(|n| n + 9) {
            let mut checker = Checker::with_lengths(lengths);
            let checked = checker.check(&case.body);
            assert_eq!(text(&checked), expected, "{}: {name}", case.name);
            assert!(rest_is_zero(&checked), "{}: {name}", case.name);
        }
    }
}

#[test]
fn empty_full_and_over_long() {
    let mut checker = Checker::new();
    let checked = checker.check(b"");
    assert_eq!((checked.answer(), checked.place()), (3, Some(1)));
    assert!(is_empty(&checked));

    let body = full_size();
    let checked = checker.check(&body);
    let c = checked.counts();
    assert_eq!((checked.answer(), c.types, c.defs, c.insts, c.binds, c.nodes), (0, 512, 256, 64, 1, 1));
    assert_eq!(checked.nodes().len(), 1);

    // One byte more: the tables stay those of the body before, and the views are empty.
    let longer = [body.as_slice(), b"\n"].concat();
    for case in examples() {
        let before = all_cells(checker.check(&case.body).tables());
        let checked = checker.check(&longer);
        assert_eq!((checked.answer(), checked.place()), (1, None));
        assert_eq!(*checked.told(), [1, 0, 0, 0, 0, 0, 0, 0, 0, 0, 0, 0, 0, 0]);
        assert!(is_empty(&checked));
        assert!(all_cells(checked.tables()) == before, "{}", case.name);
    }

    for byte in [0u8, b'a', b'\n', 0xff] {
        let checked = checker.check(&[byte; 65_536]);
        assert_eq!((checked.answer(), checked.place()), (3, Some(1)), "{byte}");
        assert!(all_cells(checked.tables()).iter().all(|&c| c == 0), "{byte}");
        assert_eq!(checker.check(&[byte; 65_537]).answer(), 1, "{byte}");
    }
}

/// Told, cells and text of a body, by this checker.
fn whole(checker: &mut Checker, body: &[u8]) -> ([usize; 14], Vec<u16>, Vec<u8>) {
    let mut out = vec![0u8; common::OUT];
    let reported = checker.report(body, &mut out);
    let length = reported.length().unwrap();
    let (told, cells) = (*reported.told(), all_cells(reported.tables()));
    out.truncate(length);
    (told, cells, out)
}

#[test]
fn a_checker_is_used_again_after_a_refusal() {
    let refusals: [&[u8]; 6] = [
        b"",
        b"type=array,13\nnode=bool\nfn=1,0\n",
        b"node=str\nfn=0,0\n",
        b"node=let,-,-\nnode=path,l0,1,1:l0\nnode=block,1\nfn=0,2\n",
        b"node=let,-,-\nnode=path,l0,1,1:l0\nnode=path,l0,1,1:l0\nnode=list,2\nnode=assign,1,3\nnode=block,-,0,4\nfn=0,5\n",
        b"node=int\nnode=un,n,0\nnode=let,5,1\nnode=block,-,2\nfn=0,3\n",
    ];
    let mut used = Checker::with_log(2_048);
    let numbers: Vec<usize> = refusals.iter().map(|r| used.check(r).answer()).collect();
    assert_eq!(numbers, [3, 5, 10, 11, 12, 13]);
    for case in examples() {
        let new = whole(&mut Checker::with_log(2_048), &case.body);
        for refusal in refusals {
            // The tables hold the rows of the case when the refusal clears them.
            assert!(whole(&mut used, &case.body) == new, "{}", case.name);
            assert!(rest_is_zero(&used.check(refusal)), "{}", case.name);
            assert!(whole(&mut used, &case.body) == new, "{} behind a refusal", case.name);
        }
        used.check(&[0; 65_537]);
        assert!(whole(&mut used, &case.body) == new, "{} behind 1", case.name);
        let mut none = [];
        assert_eq!(used.report(&case.body, &mut none).answer(), 9);
        assert!(whole(&mut used, &case.body) == new, "{} behind 9", case.name);
    }
    // Bodies and damaged copies one after another, each also by a new checker.
    let mut cases = bodies();
    cases.retain(|c| c.body.len() < 60_000); // on 1 the tables stay those of the body before
    let mut random = Random(7);
    for i in 0..copies(300) {
        let case = &cases[random.below(cases.len())];
        let body = random.damaged(&case.body);
        assert!(whole(&mut used, &body) == whole(&mut Checker::with_log(2_048), &body), "copy {i} of {}", case.name);
    }
}

#[test]
fn a_short_output_is_answered_9() {
    let mut checker = Checker::new();
    for length in 0..=WORKED_LENGTH + 2 {
        let mut out = vec![7u8; length];
        let reported = checker.report(WORKED, &mut out);
        assert_eq!(reported.checked().answer(), 0, "{length}");
        assert_eq!((reported.nodes().len(), reported.vars().len()), (7, 1), "{length}: the tables are there");
        if length < WORKED_LENGTH {
            assert_eq!((reported.answer(), reported.length()), (9, None), "{length}");
            assert_eq!(reported.told()[13], 0, "{length}");
            assert!(out.iter().all(|&b| b == 0), "{length}: zero throughout");
        } else {
            assert_eq!((reported.answer(), reported.length()), (0, Some(WORKED_LENGTH)), "{length}");
            assert_eq!(text(reported.checked()).as_bytes(), &out[..WORKED_LENGTH], "{length}");
            assert!(out[WORKED_LENGTH..].iter().all(|&b| b == 7), "{length}: as they were");
        }
    }
    let mut out = [7u8; 10];
    let reported = checker.report(b"", &mut out);
    assert_eq!((reported.answer(), reported.place()), (9, None));
    assert_eq!((reported.checked().answer(), reported.checked().place()), (3, Some(1)));
    let mut longer = [7u8; 11];
    let reported = checker.report(b"", &mut longer);
    assert_eq!((reported.answer(), reported.place(), &longer), (3, Some(1), b"answer=3,1\n"));
    assert_eq!(out, [0; 10]);
}

/// The lengths that a name of `lent.txt` stands for: behind `!` a sign for the tables, behind `@` the bytes of output.
fn lent(name: &str) -> (Lengths, usize) {
    let r = Lengths::required();
    let (name, bytes) = name.split_once('@').map_or((name, 65_536), |(n, b)| (n, b.parse().unwrap()));
    let all = Lengths { log: 6_144, ..r };
    let lengths = match name.split_once('!').map(|(_, sign)| sign) {
        None => all,
        Some("R") => Lengths { rows: r.rows - 1, ..all },
        Some("C") => Lengths { cells: r.cells - 1, ..all },
        Some("N") => Lengths { nodes: r.nodes - 1, ..all },
        Some("V") => Lengths { vars: r.vars - 1, ..all },
        Some("T") => Lengths { types: r.types - 1, ..all },
        Some("E") => Lengths { errors: r.errors - 1, ..all },
        Some("M") => Lengths { memory: r.memory - 1, ..all },
        Some("L") => Lengths {
            rows: r.rows + 9,
            cells: r.cells + 9,
            nodes: r.nodes + 9,
            vars: r.vars + 9,
            types: r.types + 9,
            errors: r.errors + 1,
            log: all.log + 9,
            memory: r.memory + 9,
        },
        Some(cells) => Lengths { log: cells.parse().unwrap(), ..r },
    };
    (lengths, bytes)
}

/// What `lent.txt` shows of a call: the text, or the lines of 9 and of the check's answer; with 0 also counts, marks and equations.
#[test]
fn lengths_by_hand() {
    let cases = cases(&std::fs::read_to_string(repository("reference/lent.txt")).unwrap());
    assert!(cases.len() >= 50, "{} cases", cases.len());
    for Case { name, body, expected } in &cases {
        let (lengths, bytes) = lent(name);
        let mut checker = Checker::with_lengths(lengths);
        let mut out = vec![common::BEHIND; bytes];
        let reported = checker.report(body, &mut out);
        let mut shown = match reported.length() {
            Some(length) => String::from_utf8(out[..length].to_vec()).unwrap(),
            None => {
                assert_eq!(reported.answer(), 9, "{name}");
                format!("answer=9,-\n{}\n", text(&reported).lines().next().unwrap())
            }
        };
        let rest = if reported.length().is_some() { common::BEHIND } else { 0 };
        assert!(out[reported.length().unwrap_or(0)..].iter().all(|&b| b == rest), "{name}: output");
        if reported.checked().answer() == 0 {
            assert!(rest_is_zero(&reported), "{name}");
            let c = reported.counts();
            let marked = reported.vars().enumerate().filter(|(_, v)| v.marked).map(|(i, _)| i.to_string());
            let marked = marked.collect::<Vec<String>>().join(",");
            shown += &format!("read={},{},{},{},{}\n", c.types, c.defs, c.insts, c.binds, c.nodes);
            shown += &format!("marked={marked}\nequations={}\n", c.equations);
            for e in reported.equations() {
                let outcome = match e.outcome {
                    Outcome::Success => 0,
                    Outcome::Mismatch => 1,
                };
                shown += &format!("equation={},{},{outcome}\n", e.expected, e.got);
            }
        }
        assert_eq!(shown, *expected, "{name}");
    }
}
