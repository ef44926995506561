//! Bodies by hand with what is expected of them, and their test.
//!
//! A case is a line `== NAME`, lines that start with `#`, the body's lines or one line `text T` (text.rs), a line `--` and the
//! whole text that document 01 gives. A line `-- source` may follow, and what the source does where it is let go on.
use crate::text;
use original::{Outcome, Outside, Want};
use rules::Departure;

pub struct Case {
    pub name: String,
    /// Why this is the answer.
    pub why: Vec<String>,
    pub bytes: Vec<u8>,
    /// The body's text on one line.
    pub text: String,
    pub expected: String,
    pub source: Option<String>,
}

/// The cases of a file, or the first line that is not of the form.
pub fn parse(file: &str) -> Result<Vec<Case>, String> {
    let mut cases = Vec::new();
    for part in file.split("\n== ").map(|p| p.strip_prefix("== ").unwrap_or(p)) {
        let mut lines = part.lines();
        let name = lines.next().unwrap_or("").to_string();
        if name.starts_with('#') || name.is_empty() {
            continue; // the comment at the top of a file
        }
        let fault = |what: &str| format!("{name}: {what}");
        let (mut why, mut body, mut expected, mut source) = (vec![], vec![], String::new(), None);
        let mut at = 0;
        for line in lines {
            match (at, line) {
                (0, l) if l.starts_with('#') => why.push(l[1..].trim().to_string()),
                (0, "--") => at = 1,
                (0, l) => body.push(l),
                (1, "-- source") => {
                    at = 2;
                    source = Some(String::new());
                }
                (1, l) => expected.push_str(&format!("{l}\n")),
                (_, l) => source.as_mut().unwrap().push_str(&format!("{l}\n")),
            }
        }
        if at == 0 {
            return Err(fault("no line --"));
        }
        // A blank line may stand between two cases.
        let trim = |t: String| format!("{}\n", t.trim_end_matches('\n'));
        let (text, bytes) = body_of(&body).ok_or_else(|| fault("text"))?;
        cases.push(Case { name, why, bytes, text, expected: trim(expected), source: source.map(trim) });
    }
    Ok(cases)
}

/// The body of a case, from its lines or from one line `text T`: its text on one line, and its bytes; none where T is no text.
pub fn body_of(lines: &[&str]) -> Option<(String, Vec<u8>)> {
    match lines {
        ["text"] => Some((String::new(), Vec::new())),
        [one] if one.starts_with("text ") => Some((one[5..].to_string(), text::expand(&one[5..])?)),
        _ => {
            let bytes: Vec<u8> = lines.iter().flat_map(|l| [l.as_bytes(), b"\n"].concat()).collect();
            Some((text::flat(&bytes), bytes))
        }
    }
}

/// What the original gives for bytes, as far as it judges them, in document 01's words.
pub fn report(bytes: &[u8]) -> Outcome {
    match body::read(bytes) {
        Ok(b) => printed(original::run(&b, Want::default()).outcome),
        Err(r) => Outcome::Report(refused(r)),
    }
}

/// The output that `typereport` lends has 65,536 bytes.
pub fn printed(outcome: Outcome) -> Outcome {
    match outcome {
        Outcome::Report(text) if text.len() > 65_536 => Outcome::Report("answer=9,-\n".to_string()),
        other => other,
    }
}

/// The answer line of a body that is declined before it is walked.
pub fn refused(r: body::Refusal) -> String {
    let place = r.line.map_or("-".to_string(), |l| l.to_string());
    format!("answer={},{place}\n", r.answer)
}

/// Whether what the original gives agrees with the rules' text and with their first departure. Behind a ring or exchanged roles,
/// and where marks grow, the original judges nothing more; which of the two came first, and in which rule, has to agree.
pub fn agree(outcome: &Outcome, rules: &str, first: Option<(Departure, usize)>) -> bool {
    match outcome {
        Outcome::Outside(Outside::Ring(n)) => first == Some((Departure::Ring, *n)),
        Outcome::Outside(Outside::Roles(n)) => first == Some((Departure::Roles, *n)),
        Outcome::Outside(Outside::Endless) => true,
        Outcome::Outside(Outside::Inside(n)) => first.is_none() && rules == format!("answer=12,{n}\n"),
        other => first.is_none() && other.text() == rules,
    }
}

/// The rules' first departure, of bytes that the reader accepts.
pub fn first_departure(bytes: &[u8]) -> Option<(Departure, usize)> {
    body::read(bytes).ok().and_then(|b| rules::check(&b).first_departure)
}

/// What differs from what is expected: nothing, if the case passes.
pub fn faults(case: &Case) -> Vec<String> {
    let mut faults = Vec::new();
    let mut fault = |good: bool, what: &str, expected: &str, got: &str| {
        if !good {
            faults.push(format!("{what}:\nexpected\n{expected}got\n{got}"));
        }
    };
    let rules = rules::report(&case.bytes);
    fault(rules == case.expected, "rules", &case.expected, &rules);
    let (outcome, first) = (report(&case.bytes), first_departure(&case.bytes));
    let what = format!("original, the rules' first departure being {first:?}");
    fault(agree(&outcome, &case.expected, first), &what, &case.expected, &outcome.text());
    if let Some(source) = &case.source {
        let got = match body::read(&case.bytes) {
            Ok(b) => original::run(&b, Want { source: true, entries: false }).outcome.text(),
            Err(r) => refused(r),
        };
        fault(got == *source, "source", source, &got);
    }
    faults
}
