//! What the library gives for a body: answer, place and text, and whatever is wrong about outputs, told numbers and tables.
use crate::tables::{self, Hidden};
use nunthila::answer::{CHECKED, NO_ROOM, TOO_LONG};
use nunthila::{Checked, Checker, TOLD};

/// The output that `typereport` lends.
pub const TYPEREPORT: usize = 65_536;
/// An output in which every report has room.
const LONG: usize = 1 << 19;
/// What stands in an output before a call.
const BEFORE: u8 = 7;
/// A body raises no more equations.
const EQUATIONS: usize = 2_048;

#[derive(Clone, PartialEq, Eq, Debug)]
pub struct Given {
    /// The answer of the check, and its place.
    pub answer: usize,
    pub place: Option<usize>,
    /// The text of the report in an output that is long enough.
    pub text: String,
    /// What the tables have and a report does not show; empty unless the answer is 0.
    pub hidden: Hidden,
    /// What is wrong about outputs, told numbers and tables.
    pub faults: Vec<String>,
}

/// The library, with what a thread lends it.
pub struct Library {
    /// A checker whose tables are in use up to high rows, so that a call has to clear or to keep what stands there.
    used: Checker,
    /// Those tables, one behind the other.
    cells: Vec<u16>,
    /// One whose tables are those of the call before.
    again: Checker,
    out: Vec<u8>,
}

impl Library {
    pub fn new() -> Library {
        let mut used = Checker::with_log(EQUATIONS);
        let checked = used.check(full_body().as_bytes());
        assert_eq!(checked.answer(), CHECKED, "the body that uses each table is declined");
        let tables = checked.tables();
        let each = [tables.rows, tables.cells, tables.nodes, tables.vars, tables.types, tables.log];
        let used_each = each.iter().all(|table| !tables::zero(table)) && !tables::zero_errors(tables.errors);
        assert!(used_each, "the body that uses each table leaves one at zero");
        let cells = tables::flat(&tables);
        Library { again: used.clone(), used, cells, out: vec![BEFORE; LONG] }
    }

    /// The body through `check`, and through `report` in outputs of several lengths.
    pub fn give(&mut self, body: &[u8]) -> Given {
        let mut faults = Vec::new();
        let mut check = self.used.clone();
        let checked = check.check(body);
        let answer = checked.answer();
        match answer {
            CHECKED => {}
            TOO_LONG if tables::flat(&checked.tables()) != self.cells => faults.push("a table was changed".to_string()),
            TOO_LONG => {}
            _ if !tables::all_zero(&checked.tables()) => faults.push("a table is not zero throughout".to_string()),
            _ => {}
        }

        let (text, found) = report(&mut self.used.clone(), body, &checked, &mut self.out, None);
        faults.extend(found);
        if answer == TOO_LONG {
            // The tables stay as they were, so they have to be the same before.
            self.again = self.used.clone();
        }
        // In one byte less than its length, in its length, and in the output of `typereport`.
        for lent in [text.len().saturating_sub(1), text.len(), TYPEREPORT] {
            faults.extend(report(&mut self.again, body, &checked, &mut self.out[..lent], Some(&text)).1);
        }
        let mut hidden = Hidden::default();
        if answer == CHECKED {
            faults.extend(tables::faults(&checked, body, &text));
            hidden = tables::hidden(&checked);
        }
        Given { answer, place: checked.place(), text: String::from_utf8_lossy(&text).into_owned(), hidden, faults }
    }
}

/// The text in an output, and what is wrong: beside what `check` gave, and beside the text, if it is known.
fn report(
    checker: &mut Checker,
    body: &[u8],
    checked: &Checked,
    out: &mut [u8],
    text: Option<&[u8]>,
) -> (Vec<u8>, Vec<String>) {
    let lent = out.len();
    let reported = checker.report(body, out);
    let room = text.is_none_or(|text| text.len() <= lent);
    let length = reported.told()[TOLD - 1].min(lent);
    let mut faults = Vec::new();
    let mut fault = |good: bool, what: &str| {
        if !good {
            faults.push(format!("in an output of {lent} bytes: {what}"));
        }
    };
    let (answer, wanted) = (reported.answer(), if room { checked.answer() } else { NO_ROOM });
    fault(answer == wanted, &format!("report answers {answer}, not {wanted}"));
    let (ours, told) = (&reported.told()[..TOLD - 1], &checked.told()[..TOLD - 1]);
    fault(ours == told, &format!("report tells {ours:?}, check {told:?}"));
    fault(reported.told()[TOLD - 1] == if room { length } else { 0 }, "the length of the text");
    fault(checked.told()[TOLD - 1] == 0, "check tells a length of the text");
    fault(reported.tables() == checked.tables(), "report and check leave other tables");
    let written = out[..length].to_vec();
    if room {
        fault(text.is_none_or(|text| text == written), "another text");
        fault(all(&out[length..], BEFORE), "a byte behind the text was changed");
    } else {
        fault(all(out, 0), "a byte is not zero");
    }
    // Without a fault the bytes behind the text are as before.
    let changed = if room && faults.is_empty() { length } else { lent };
    out[..changed].fill(BEFORE);
    (written, faults)
}

/// Whether all bytes are this one.
fn all(bytes: &[u8], one: u8) -> bool {
    bytes.chunks(256).all(|part| part.iter().fold(0, |differs, byte| differs | (byte ^ one)) == 0)
}

/// A body that uses each table up to high rows.
fn full_body() -> String {
    let mut text = "type=array,0\n".to_string();
    for row in 14..14 + 511 {
        text += &format!("type=array,{row}\n");
    }
    text += &"def=0,1,2\n".repeat(256);
    text += &format!("inst={}\n", ["0:1"; 64].join(",")).repeat(64);
    text += &format!("bind=1,{}\n", ["0:0"; 64].join(",")).repeat(64);
    let mut node = 0;
    let mut blocks = Vec::new();
    for _ in 0..63 {
        let mut items = Vec::new();
        for _ in 0..2 {
            // A mismatch of a variable and bool, and a lambda with one input.
            text += &format!("node=int\nnode=bool\nnode=assign,{},{}\n", node, node + 1);
            text += &format!("node=param,-\nnode=bool\nnode=lambda,-,{},{}\n", node + 4, node + 3);
            items.extend([node + 2, node + 5]);
            node += 6;
        }
        let items: Vec<String> = items.iter().map(usize::to_string).collect();
        text += &format!("node=block,-,{}\n", items.join(","));
        blocks.push(node.to_string());
        node += 1;
    }
    text + &format!("node=block,-,{}\nfn=0,{node}\n", blocks.join(","))
}

#[cfg(test)]
mod tests {
    use super::*;

    const BODY: &[u8] = b"node=int\nfn=8,0\n";
    const OTHER: &[u8] = b"node=int\nfn=9,0\n";

    /// What `report` is found at fault with, beside what `check` gives for a body and beside a text.
    fn told(beside: &[u8], lent: usize, text: Option<&[u8]>, before: u8) -> Vec<String> {
        let (mut check, mut checker) = (Checker::with_log(EQUATIONS), Checker::with_log(EQUATIONS));
        let checked = check.check(beside);
        let mut out = vec![before; lent];
        super::report(&mut checker, BODY, &checked, &mut out, text).1
    }

    #[test]
    fn a_report_beside_another_check_or_text_is_told() {
        let text = Library::new().give(BODY).text.into_bytes();
        let length = text.len();
        assert_eq!(told(BODY, LONG, None, BEFORE), Vec::<String>::new());
        assert_eq!(told(BODY, length, Some(&text), BEFORE), Vec::<String>::new());
        assert_eq!(told(BODY, length - 1, Some(&text), BEFORE), Vec::<String>::new());

        let has =
            |faults: Vec<String>, what: &str| assert!(faults.iter().any(|f| f.contains(what)), "{what}: {faults:?}");
        has(told(OTHER, LONG, None, BEFORE), "report and check leave other tables");
        has(told(b"node=bool\nfn=8,0\n", LONG, None, BEFORE), "report tells");
        has(told(b"", LONG, None, BEFORE), "report answers 0, not 3");
        has(told(BODY, LONG, None, BEFORE + 1), "a byte behind the text was changed");
        let mut altered = text.clone();
        altered[length - 2] += 1;
        has(told(BODY, length, Some(&altered), BEFORE), "another text");
        // A text that is too long or too short: 9 is missing, and 9 is one too many.
        altered.push(0);
        has(told(BODY, length, Some(&altered), BEFORE), "report answers 0, not 9");
        has(told(BODY, length, Some(&altered), BEFORE), "a byte is not zero");
        has(told(BODY, length, Some(&altered), BEFORE), "the length of the text");
        has(told(BODY, length - 1, Some(&text[..length - 1]), BEFORE), "report answers 9, not 0");
    }

    /// The tables that are lent are in use before, so what has to be cleared or kept is seen.
    #[test]
    fn tables_that_are_cleared_or_kept_are_seen() {
        let mut library = Library::new();
        let long = vec![b'x'; 65_537];
        assert_eq!(library.give(&long).faults, Vec::<String>::new());
        assert_eq!(library.give(b"").faults, Vec::<String>::new());
        library.cells[9_000] += 1;
        assert_eq!(library.give(&long).faults, ["a table was changed"]);
    }
}
