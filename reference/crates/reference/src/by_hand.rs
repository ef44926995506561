//! Bodies by hand for the tools of requests f) and n), and their test.
use crate::cases::body_of;
use quarrel::Form;

/// A body by hand, and what the tool gives for it.
pub struct Case {
    pub name: String,
    /// The body's text on one line.
    pub text: String,
    pub bytes: Vec<u8>,
    pub parts: Vec<Part>,
}

/// The answer line and the text, in these forms and in an output of so many bytes.
pub struct Part {
    /// For request n) the numbers of subsets that may be tested; for f) one that is none.
    pub numbers: Vec<Option<u64>>,
    pub forms: Vec<Form>,
    pub room: Option<usize>,
    expected: String,
}

/// The cases of a file, which says their form; or what is not of it. For request n) each part has a number, for f) none.
pub fn parse(file: &str, numbered: bool) -> Result<Vec<Case>, String> {
    file.split("\n== ").skip(1).map(|part| parse_case(part, numbered)).collect()
}

fn parse_case(part: &str, numbered: bool) -> Result<Case, String> {
    let (name, rest) = part.split_once('\n').unwrap_or((part, ""));
    let mut sections = rest.trim_end_matches('\n').split("\n--");
    let lines: Vec<&str> = sections.next().unwrap_or("").lines().filter(|line| !line.starts_with('#')).collect();
    let parts = sections.map(parse_part).collect::<Option<Vec<_>>>();
    let (Some(parts), Some((text, bytes))) = (parts, body_of(&lines)) else {
        return Err(format!("{name}: not of the form"));
    };
    if parts.iter().flat_map(|part| &part.numbers).any(|number| number.is_some() != numbered) {
        return Err(format!("{name}: a part without a number, or with one"));
    }
    let shown = |form: Form| parts.iter().any(|part| part.room.is_none() && part.forms.contains(&form));
    if !shown(Form::Number) || !shown(Form::Where) {
        return Err(format!("{name}: not both forms"));
    }
    Ok(Case { name: name.to_string(), text, bytes, parts })
}

/// What stands behind `--`: which numbers, which forms and which room, and the lines.
fn parse_part(section: &str) -> Option<Part> {
    let (head, expected) = section.split_once('\n')?;
    let words: Vec<&str> = head.split_whitespace().collect();
    let numbers: Vec<_> = words.iter().map_while(|word| word.parse::<u64>().ok()).map(Some).collect();
    let (forms, words) = match &words[numbers.len()..] {
        ["where", words @ ..] => (vec![Form::Where], words),
        ["either", words @ ..] => (vec![Form::Number, Form::Where], words),
        words => (vec![Form::Number], words),
    };
    let room = match words {
        [] => None,
        ["room", room] => Some(room.parse().ok()?),
        _ => return None,
    };
    let numbers = if numbers.is_empty() { vec![None] } else { numbers };
    Some(Part { numbers, forms, room, expected: format!("{expected}\n") })
}

/// Tests cases of a request; whether all pass. The last line says how many. `give` has the lines for a body, with a number, in a form and
/// in a room.
pub fn test(request: char, cases: &[Case], give: impl Fn(&[u8], Option<u64>, Form, Option<usize>) -> String) -> bool {
    let (mut failed, mut outputs) = (0, 0);
    for case in cases {
        let mut faults = String::new();
        for Part { numbers, forms, room, expected } in &case.parts {
            for (number, form) in numbers.iter().flat_map(|number| forms.iter().map(move |form| (number, form))) {
                let got = give(&case.bytes, *number, *form, *room);
                outputs += 1;
                if got != *expected {
                    let number = number.map_or(String::new(), |number| format!("number {number}, "));
                    faults += &format!("{number}{form:?}, room {room:?}:\nexpected\n{expected}got\n{got}");
                }
            }
        }
        failed += usize::from(!faults.is_empty());
        if !faults.is_empty() {
            println!("{}\n{faults}", case.name);
        }
    }
    println!("{} outputs of request {request}: {} bodies passed, {failed} failed", outputs, cases.len() - failed);
    failed == 0
}
