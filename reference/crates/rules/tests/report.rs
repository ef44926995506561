//! Document 01's worked example, 9, and equations.
use rules::{Outcome, check, equations, report};

const WORKED: &str = "node=param,8
node=int
node=let,-,1
node=path,l0,1,7:l0
node=path,l2,1,9:l2
node=bin,a,3,4
node=block,5,2
fn=8,6,0
";

#[test]
fn worked_example() {
    let output = "answer=0,-
types=1
type=var,0
vars=1
var=int,8,-
node=8,8,-
node=14,8,-
node=14,8,14
node=8,8,l0
node=14,8,l2
node=8,8,-
node=8,8,-
errors=0
";
    assert_eq!(report(WORKED.as_bytes()), output);
}

#[test]
fn equations_of_the_worked_example() {
    let body = body::read(WORKED.as_bytes()).unwrap();
    let raised: Vec<_> =
        equations(&body).iter().map(|equation| (equation.place, equation.expected, equation.got)).collect();
    assert_eq!(raised, [(5, 8, 14), (6, 8, 8)]);
    let met = |equation: &rules::Equation| equation.outcome == Outcome::Success;
    assert!(equations(&body).iter().all(met));
}

#[test]
fn a_refused_equation_is_listed_and_the_last() {
    let text = "node=int\nnode=un,n,0\nnode=let,5,1\nnode=block,-,2\nfn=0,3\n";
    let checked = check(&body::read(text.as_bytes()).unwrap());
    assert_eq!((checked.answer, checked.place), (13, Some(2)));
    assert_eq!(checked.text, "answer=13,2\n");
    let outcomes: Vec<_> = checked.equations.iter().map(|e| e.outcome).collect();
    assert_eq!(outcomes, [Outcome::Refused13]);
}

#[test]
fn rings_are_counted() {
    // a = b, b = a
    let text = "node=let,-,-\nnode=let,-,-\nnode=path,l0,1\nnode=path,l1,1\nnode=assign,2,3\n\
                node=path,l1,1\nnode=path,l0,1\nnode=assign,5,6\nnode=block,-,0,1,4,7\nfn=0,8\n";
    let checked = check(&body::read(text.as_bytes()).unwrap());
    assert_eq!((checked.answer, checked.rings), (0, 1));
}

/// So many empty lists in blocks of 64, `unused` nodes that stay untyped, and `extra` digits in three method names.
fn large(lists: usize, unused: usize, extra: usize) -> String {
    let mut lines = vec!["bool".to_string(); unused];
    let mut root = String::new();
    for method in 0..3 {
        let digits = extra.saturating_sub(4 * method).min(4);
        lines.push("bool".to_string());
        lines.push(format!("mcall,{},1{}", lines.len() - 1, "0".repeat(digits)));
        root += &format!(",{}", lines.len() - 1);
    }
    for start in (0..lists).step_by(64) {
        let mut block = "block,-".to_string();
        for _ in start..lists.min(start + 64) {
            block += &format!(",{}", lines.len());
            lines.push("list".to_string());
        }
        root += &format!(",{}", lines.len());
        lines.push(block);
    }
    lines.push(format!("block,-{root}"));
    let body = lines.len() - 1;
    let nodes: String = lines.iter().map(|line| format!("node={line}\n")).collect();
    format!("{nodes}fn=0,{body}\n")
}

#[test]
fn nine_above_65_536_bytes_of_text() {
    let length = |text: &str| check(&body::read(text.as_bytes()).unwrap()).text.len();
    // A list is some 75 bytes of text, an unused node some 11, a digit one.
    let Some(lists) = (840..950).find(|&lists| length(&large(lists + 1, 0, 0)) > 65_536) else {
        panic!("no long text");
    };
    let mut lengths = Vec::new();
    for (unused, extra) in (0..8).flat_map(|unused| (0..=12).map(move |extra| (unused, extra))) {
        let text = large(lists, unused, extra);
        let long = length(&text);
        lengths.push(long);
        match report(text.as_bytes()) {
            printed if long > 65_536 => assert_eq!(printed, "answer=9,-\n"),
            printed => assert_eq!(printed.len(), long),
        }
    }
    assert!(lengths.contains(&65_536) && lengths.contains(&65_537));
}
