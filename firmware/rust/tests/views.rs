//! The report rebuilt from the typed views is the library's text.
mod common;
use common::{bodies, copies, examples, Case, Random, Runner};
use nunthila::{Cause, ErrorKind, Extra, Kind, Made, Outcome, Span};

#[test]
fn examples_give_their_reports() {
    let cases = examples();
    assert_eq!(cases.len(), 7);
    let mut runner = Runner::new();
    for Case { name, body, expected } in &cases {
        assert_eq!(runner.text(name, body), *expected, "{name}");
    }
}

#[test]
fn bodies_by_hand_give_their_texts() {
    let cases = bodies();
    assert!(cases.len() >= 861, "{} bodies", cases.len());
    let mut runner = Runner::new();
    for Case { name, body, expected } in &cases {
        assert_eq!(runner.text(name, body), *expected, "{name}");
    }
}

/// Also that the copies are of many kinds, so that the views are tried.
#[test]
fn damaged_copies_agree() {
    let mut cases = examples();
    cases.extend(bodies());
    cases.retain(|c| c.body.len() < 20_000);
    // Most copies are of bodies that are walked, those that are then answered 10 to 13 too.
    let walked =
        |c: &Case| ["0", "10", "11", "12", "13"].iter().any(|a| c.expected.starts_with(&format!("answer={a},")));
    let (walked, refused): (Vec<Case>, Vec<Case>) = cases.into_iter().partition(walked);
    let mut runner = Runner::new();
    let mut random = Random(0x9e37_79b9_7f4a_7c15);
    let (mut answers, mut kinds) = ([0usize; 14], [0usize; 11]);
    let total = copies(16_000);
    for i in 0..total {
        let from = if random.below(8) == 0 { &refused } else { &walked };
        let case = &from[random.below(from.len())];
        let body = random.damaged(&case.body);
        runner.text(&format!("copy {i} of {}", case.name), &body);
        let checked = runner.checker.check(&body);
        answers[checked.answer()] += 1;
        checked.errors().for_each(|e| kinds[usize::from(e.kind.number())] += 1);
    }
    println!("answers {answers:?}, errors {kinds:?}");
    if total >= 16_000 {
        for a in [0, 3, 5, 10, 11, 12, 13] {
            assert!(answers[a] >= 10, "{} copies are answered {a}", answers[a]);
        }
        for kind in ErrorKind::ALL {
            assert!(
                kinds[usize::from(kind.number())] >= 10,
                "{} errors are {kind:?}",
                kinds[usize::from(kind.number())]
            );
        }
    }
}

/// A body by hand with its views by hand: what the text does not show too.
#[test]
fn views_by_hand() {
    let body =
        b"node=param,8\nnode=param,-\nnode=path,l0,1,1:l0\nnode=lambda,-,2,0,1\nnode=bool\nnode=un,n,4\nnode=int\n\
        node=un,n,6\nnode=block,-,3,5,7\nfn=0,8\n";
    let mut checker = nunthila::Checker::with_log(1);
    let checked = checker.check(body);
    assert_eq!((checked.answer(), checked.place()), (0, None));
    let counts = checked.counts();
    let expected =
        nunthila::Counts { nodes: 9, fields: 19, made: 4, vars: 3, errors: 2, equations: 2, ..Default::default() };
    assert_eq!(counts, expected);

    let types: Vec<Made> = checked.types().collect();
    let lambda = Made::Lambda { node: 3, output: 15, inputs: &[8, 14] };
    assert_eq!(types, [Made::Var(0), Made::Var(1), lambda, Made::Var(2)]);
    assert_eq!(checked.first_made(), 14);
    assert_eq!((checked.made(13), checked.made(14), checked.made(16)), (None, Some(Made::Var(0)), Some(lambda)));
    assert_eq!((checked.made(17), checked.made(18)), (Some(Made::Var(2)), None));

    let var = |kind, bound, origin, marked| nunthila::Var { kind, bound, origin, marked };
    let vars: Vec<nunthila::Var> = checked.vars().collect();
    assert_eq!(
        vars,
        [
            var(Kind::Any, None, Some(1), false),
            var(Kind::Any, Some(8), Some(3), false),
            var(Kind::Int, None, None, true)
        ]
    );

    let node = |raw, fin, extra| nunthila::Node { raw: Some(raw), fin: Some(fin), extra };
    assert_eq!(checked.nodes().nth(1), Some(node(14, 12, Extra::None)));
    assert_eq!(checked.nodes().nth(2), Some(node(8, 8, Extra::Local(0))));
    assert_eq!(checked.nodes().next_back(), Some(node(0, 0, Extra::None)));

    let errors: Vec<nunthila::TypingError> = checked.errors().collect();
    assert_eq!(errors.len(), 2);
    assert_eq!((errors[0].kind, errors[0].cause), (ErrorKind::NoUnaryOp, Cause::NoEquation));
    assert_eq!((errors[0].span, errors[0].second, &*errors[0].values), (Span::Node(4), None, &[1][..]));
    assert_eq!((errors[1].kind, errors[1].span, errors[1].values.len()), (ErrorKind::InferFail, Span::Node(1), 0));

    // The log has room for one equation of two.
    let equations: Vec<nunthila::Equation> = checked.equations().collect();
    assert_eq!(equations, [nunthila::Equation { expected: 15, got: 8, outcome: Outcome::Success }]);
}

/// The codes that the report writes alike, or not at all: a let, a method, a failed equation.
#[test]
fn views_that_the_text_does_not_tell_apart() {
    let mut checker = nunthila::Checker::with_log(2_048);
    let bank = examples().into_iter().find(|c| c.name == "bank").unwrap();
    let checked = checker.check(&bank.body);
    let node = |i| checked.nodes().nth(i).unwrap().extra;
    assert_eq!((node(171), node(193), node(249)), (Extra::Method(10), Extra::Method(8), Extra::Let(208)));
    // The made types follow the eleven of the body.
    assert_eq!((checked.first_made(), checked.made(24), checked.made(25)), (25, None, Some(Made::Var(0))));
    assert_eq!(checked.made(243), Some(Made::Ref(15)));
    assert_eq!(checked.equations().len(), checked.counts().equations);
    assert!(checked.equations().all(|e| e.outcome == Outcome::Success));

    let quarrel = examples().into_iter().find(|c| c.name == "quarrel").unwrap();
    let checked = checker.check(&quarrel.body);
    let failed: Vec<nunthila::Equation> = checked.equations().filter(|e| e.outcome != Outcome::Success).collect();
    assert_eq!(failed, [nunthila::Equation { expected: 15, got: 10, outcome: Outcome::Mismatch }]);
    assert!(checked.errors().map(|e| e.cause).eq([Cause::Mismatch]));
}
