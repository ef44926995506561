use super::*;
use crate::ours::Library;
use crate::reader::Reading;
use body::Refusal;

/// The plain cases of a file of bodies by hand: name, body and whole text.
fn cases(file: &'static str) -> Vec<(&'static str, &'static str, &'static str)> {
    let case = |part: &'static str| {
        let (name, rest) = part.split_once('\n')?;
        let (body, text) = rest.split_once("--\n")?;
        let start = body.lines().take_while(|l| l.starts_with('#')).map(|l| l.len() + 1).sum::<usize>();
        let text = text.split("-- source").next()?;
        Some((name, &body[start..], text.trim_end_matches('\n')))
    };
    file.split("\n== ").filter_map(case).collect()
}

const DIFFERENCES: &str = include_str!("../../../../bodies/differences.txt");
const HAND: &str = include_str!("../../../../bodies/hand.txt");

fn judged(body: &str) -> Verdict {
    let read = body::read(body.as_bytes()).map_or_else(Reading::Declined, |_| Reading::Accepted);
    compare(expected(body.as_bytes(), read), &Library::new().give(body.as_bytes()))
}

#[test]
fn the_names_are_sections() {
    let document = include_str!("../../../../../docs/DIFFERENCES.md");
    for named in NAMED {
        assert!(document.lines().any(|line| line == format!("## {}", named.title())), "{named:?}");
    }
}

/// Each body of docs/DIFFERENCES.md stands under its section, with what the source panics by there.
#[test]
fn the_bodies_of_the_differences_are_judged_under_their_names() {
    hide_panics_of_the_source();
    let by_hand = cases(DIFFERENCES);
    let marks = cases(HAND).into_iter().find(|(name, ..)| *name == "marks-growth").unwrap();
    assert_eq!(by_hand.len(), 15);
    for (name, body, text) in by_hand.into_iter().chain([marks]) {
        let judge = match name {
            "difference-ring" => Judge::Rules(Named::Rings),
            "difference-roles" | "difference-roles-call" => Judge::Rules(Named::Roles),
            "difference-10-str" | "difference-10-partly-failed" => Judge::Panic(Named::Refusal10, "todo!"),
            "difference-10-other" | "difference-10-last-segment" => Judge::Panic(Named::Refusal10, "unreachable!"),
            "difference-10-resolved" => Judge::Panic(Named::Refusal10, "index"),
            "difference-11-never" | "difference-11-later" => Judge::Panic(Named::Refusal11, "unwrap"),
            "difference-12-array" | "difference-12-lambda" | "difference-12-endless" => Judge::Rules(Named::Refusal12),
            "difference-13" | "difference-13-before-12" => Judge::Panic(Named::Refusal13, "todo!"),
            "marks-growth" => Judge::Rules(Named::Marks),
            other => panic!("{other} is in no section"),
        };
        assert_eq!(judged(body), Verdict::Alike(judge), "{name}");
        assert_eq!(Library::new().give(body.as_bytes()).text.trim_end(), text, "{name}");
    }
}

const BODY: &str = "node=param,8\nnode=int\nnode=let,-,1\nnode=path,l0,1,7:l0\nnode=path,l2,1,9:l2\nnode=bin,a,3,4\n\
                    node=block,5,2\nfn=8,6,0\n";
const REPORT: &str = "answer=0,-\ntypes=1\ntype=var,0\nvars=1\nvar=int,8,-\nnode=8,8,-\nnode=14,8,-\nnode=14,8,14\n\
                      node=8,8,l0\nnode=14,8,l2\nnode=8,8,-\nnode=8,8,-\nerrors=0\n";

fn given(answer: usize, place: Option<usize>, text: &str) -> Given {
    Given { answer, place, text: text.to_string(), hidden: Hidden::default(), faults: Vec::new() }
}

fn expect(judge: Judge, text: &str) -> Result<Expected, String> {
    Ok(Expected { judge, text: text.to_string(), hidden: Hidden::default() })
}

fn what(verdict: Verdict) -> String {
    match verdict {
        Verdict::Alike(judge) => panic!("alike, by {judge:?}"),
        Verdict::Different(difference) => difference.what,
    }
}

#[test]
fn the_example_of_document_01_is_judged_by_the_original() {
    assert_eq!(judged(BODY), Verdict::Alike(Judge::Original));
    // The operands of `bin`, and the declared and the actual result.
    let hidden = Hidden { equations: vec![[8, 14, 0], [8, 8, 0]], marked: vec![] };
    assert_eq!(Library::new().give(BODY.as_bytes()), Given { hidden, ..given(0, None, REPORT) });
}

/// Each byte of a report, changed, left out or doubled, is told.
#[test]
fn every_altered_byte_of_a_report_is_told() {
    let judge = || expect(Judge::Original, REPORT);
    assert_eq!(compare(judge(), &given(0, None, REPORT)), Verdict::Alike(Judge::Original));
    for at in 0..REPORT.len() {
        let (before, byte, after) = (&REPORT[..at], &REPORT[at..at + 1], &REPORT[at + 1..]);
        let other = if byte == "7" { "8" } else { "7" };
        for altered in
            [format!("{before}{other}{after}"), format!("{before}{after}"), format!("{before}{byte}{byte}{after}")]
        {
            assert!(what(compare(judge(), &given(0, None, &altered))).contains("expected"), "{altered}");
        }
    }
}

#[test]
fn the_first_differing_line_is_told() {
    let told = |text: &str| what(compare(expect(Judge::Original, REPORT), &given(0, None, text)));
    assert_eq!(
        told(&REPORT.replace("node=14,8,14", "node=14,9,14")),
        "line 8: expected \"node=14,8,14\\n\", got \"node=14,9,14\\n\""
    );
    assert_eq!(told(&REPORT.replace("errors=0\n", "")), "line 13: expected \"errors=0\\n\", got the end of the text");
    assert_eq!(told(&format!("{REPORT}x\n")), "line 14: expected the end of the text, got \"x\\n\"");
    assert_eq!(told(REPORT.trim_end()), "line 13: expected \"errors=0\\n\", got \"errors=0\"");
}

#[test]
fn another_answer_or_place_is_told() {
    for judge in [
        Judge::Panic(Named::Refusal10, "todo!"),
        Judge::Rules(Named::Rings),
        Judge::Rules(Named::Roles),
        Judge::Rules(Named::Refusal12),
        Judge::Rules(Named::Marks),
        Judge::Reader,
    ] {
        let expected = || expect(judge, "answer=5,3\n");
        assert_eq!(compare(expected(), &given(5, Some(3), "answer=5,3\n")), Verdict::Alike(judge));
        // In the text alone, in what is told alone, in both.
        what(compare(expected(), &given(5, Some(3), "answer=5,4\n")));
        what(compare(expected(), &given(5, Some(4), "answer=5,3\n")));
        what(compare(expected(), &given(5, None, "answer=5,3\n")));
        what(compare(expected(), &given(6, Some(3), "answer=5,3\n")));
        what(compare(expected(), &given(5, Some(4), "answer=5,4\n")));
        what(compare(expected(), &given(6, Some(3), "answer=6,3\n")));
        what(compare(expected(), &given(0, None, REPORT)));
        what(compare(expected(), &given(5, Some(3), "answer=5,3\nerrors=0\n")));
    }
}

#[test]
fn a_fault_of_the_tables_is_told() {
    let mut given = given(0, None, REPORT);
    given.faults.push("a table is not zero throughout".to_string());
    assert_eq!(what(compare(expect(Judge::Original, REPORT), &given)), "a table is not zero throughout");
}

#[test]
fn without_the_reader_a_body_has_to_be_declined() {
    let nobody = || expected(b"", Reading::Failed);
    assert_eq!(compare(nobody(), &given(3, Some(1), "answer=3,1\n")), Verdict::Alike(Judge::Nobody));
    what(compare(nobody(), &given(3, Some(1), "answer=3,2\n")));
    what(compare(nobody(), &given(10, Some(1), "answer=10,1\n")));
    what(compare(nobody(), &given(0, None, REPORT)));
}

/// A library that accepts what the reader declines, and the other way round.
#[test]
fn another_reader_is_told() {
    let declined = expected(BODY.as_bytes(), Reading::Declined(Refusal { answer: 4, line: Some(2) }));
    assert!(what(compare(declined, &given(0, None, REPORT))).starts_with("line 1: expected \"answer=4,2\\n\""));
    let accepted = expected(BODY.as_bytes(), Reading::Accepted);
    assert!(
        what(compare(accepted, &given(4, Some(2), "answer=4,2\n"))).starts_with("line 1: expected \"answer=0,-\\n\"")
    );
    expected(b"x", Reading::Accepted).unwrap_err();
}

/// What the source does is taken for an intended difference where it is one, and nowhere else.
#[test]
fn what_no_section_explains_is_told() {
    let marks = |count| Hidden { equations: vec![], marked: (0..count).collect() };
    let rules = |answer, text: &str, first_departure, marked| Rules {
        answer,
        text: text.to_string(),
        first_departure,
        hidden: marks(marked),
    };
    let (ring_at, roles_at) = (|node| Some((Departure::Ring, node)), |node| Some((Departure::Roles, node)));
    let outside = |of, rules| explain(Outcome::Outside(of), None, rules);

    let ring = outside(Outside::Ring(5), rules(0, REPORT, ring_at(5), 1)).unwrap();
    assert_eq!(ring, Expected { judge: Judge::Rules(Named::Rings), text: REPORT.to_string(), hidden: marks(1) });
    outside(Outside::Ring(5), rules(0, REPORT, ring_at(4), 1)).unwrap_err();
    outside(Outside::Ring(5), rules(0, REPORT, roles_at(5), 1)).unwrap_err();
    outside(Outside::Ring(5), rules(0, REPORT, None, 1)).unwrap_err();

    let roles = outside(Outside::Roles(5), rules(0, REPORT, roles_at(5), 1)).unwrap();
    assert_eq!(roles, Expected { judge: Judge::Rules(Named::Roles), text: REPORT.to_string(), hidden: marks(1) });
    outside(Outside::Roles(5), rules(0, REPORT, roles_at(4), 1)).unwrap_err();
    outside(Outside::Roles(5), rules(0, REPORT, ring_at(5), 1)).unwrap_err();
    outside(Outside::Roles(5), rules(0, REPORT, None, 1)).unwrap_err();

    let inside = outside(Outside::Inside(5), rules(12, "answer=12,5\n", None, 1)).unwrap();
    assert_eq!((inside.judge, inside.hidden), (Judge::Rules(Named::Refusal12), Hidden::default()));
    outside(Outside::Inside(5), rules(12, "answer=12,4\n", None, 1)).unwrap_err();
    outside(Outside::Inside(5), rules(12, "answer=12,5\n", ring_at(4), 1)).unwrap_err();
    outside(Outside::Inside(5), rules(12, "answer=12,5\n", roles_at(4), 1)).unwrap_err();
    outside(Outside::Inside(5), rules(0, REPORT, None, 1)).unwrap_err();

    let endless = outside(Outside::Endless, rules(0, REPORT, None, 2)).unwrap();
    assert_eq!(endless.judge, Judge::Rules(Named::Marks));
    outside(Outside::Endless, rules(0, REPORT, None, 1)).unwrap_err();

    let refused = |answer, by| explain(Outcome::Refused(answer, 5), by, rules(answer, "", None, 0));
    assert_eq!(refused(10, Some("index")).unwrap().text, "answer=10,5\n");
    for (answer, by) in
        [(10, None), (10, Some("unwrap")), (11, Some("todo!")), (13, Some("index")), (12, Some("todo!"))]
    {
        refused(answer, by).unwrap_err();
    }
    let panic = Outcome::Panic("attempt to add with overflow".to_string());
    explain(panic, None, rules(0, REPORT, None, 0)).unwrap_err();
}

/// Equations and marks stand in no report.
#[test]
fn other_equations_and_marks_are_told() {
    let with =
        |equations: &[[usize; 3]], marked: &[usize]| Hidden { equations: equations.to_vec(), marked: marked.to_vec() };
    let told = |hidden: Hidden| {
        let expected = Expected {
            judge: Judge::Original,
            text: REPORT.to_string(),
            hidden: with(&[[8, 14, 0], [8, 8, 0]], &[0, 2]),
        };
        compare(Ok(expected), &Given { hidden, ..given(0, None, REPORT) })
    };
    assert_eq!(told(with(&[[8, 14, 0], [8, 8, 0]], &[0, 2])), Verdict::Alike(Judge::Original));
    assert_eq!(
        what(told(with(&[[8, 14, 0], [8, 8, 1]], &[0, 2]))),
        "equation 1: expected Some([8, 8, 0]), got Some([8, 8, 1])"
    );
    assert_eq!(what(told(with(&[[8, 14, 0]], &[0, 2]))), "equation 1: expected Some([8, 8, 0]), got None");
    let more = told(with(&[[8, 14, 0], [8, 8, 0], [0, 0, 0]], &[0, 2]));
    assert_eq!(what(more), "equation 2: expected None, got Some([0, 0, 0])");
    assert_eq!(what(told(with(&[[8, 14, 0], [8, 8, 0]], &[0]))), "marks: expected [0, 2], got [0]");
}
