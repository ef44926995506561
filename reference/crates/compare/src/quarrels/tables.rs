//! What a tool is lent for a call, what is wrong about it, and the bodies that differ.
use super::{Called, Lent, faults};
use crate::{SHRINK_SECONDS, SHRINK_TRIES, shrink};
use nunthila::{Lengths, TOLD};
use quarrel::Given;
use std::time::Instant;

/// An output in which every text has room: 2,048 lines of at most 31 bytes.
pub const LONG: usize = 65_536;
/// Cells of the log: with room for every equation, for none, and for one that is not whole.
pub const LOGS: [usize; 3] = [6_144, 0, 5];
/// What is not 0 and asks for the lines with places.
pub const PLACES: [usize; 3] = [1, 2, usize::MAX];

/// An output that is long enough for a text of this length, one that just is, and one that is a byte too short.
pub fn rooms(length: usize) -> [usize; 3] {
    [LONG, length, length.saturating_sub(1)]
}

/// Tables with one length of the log: as they are before each call, as `check` leaves them, and those lent to the tool.
pub struct Tables {
    before: Lent,
    checked: Lent,
    lent: Lent,
    log: usize,
}

impl Tables {
    /// Tables for each length of the log.
    pub fn each() -> [Tables; 3] {
        LOGS.map(|log| {
            let before = Lent::new(Lengths { log, ..Lengths::required() });
            Tables { checked: before.clone(), lent: before.clone(), before, log }
        })
    }

    /// Types a body, for what the tool has to leave.
    pub fn check(&mut self, bytes: &[u8]) -> [usize; TOLD] {
        self.checked.set(&self.before);
        self.checked.check(bytes)
    }

    /// What is wrong about a call: answer, place, counts and text, the bytes behind it, and the tables beside those of the last `check`,
    /// which told these numbers. `what` says which call it is.
    pub fn faults(
        &mut self,
        what: &str,
        wanted: &Given,
        told: &[usize; TOLD],
        call: impl FnOnce(&mut Lent) -> Called,
    ) -> Vec<String> {
        self.lent.set(&self.before);
        let called = call(&mut self.lent);
        let mut all = faults(wanted, &told[3..TOLD - 1], &called);
        if self.lent != self.checked {
            all.push("check leaves other tables".to_string());
        }
        let (room, log) = (called.out.len(), self.log);
        all.iter().map(|fault| format!("{what}, {room} bytes of output, a log of {log}: {fault}")).collect()
    }
}

/// What is wrong where a table is one cell too short: 2, behind 1 and before all else, and nothing changed but the output.
pub fn short_tables(call: impl Fn(&mut Lent, &[u8]) -> Called) -> Vec<String> {
    let required = Lengths::required();
    let short = [
        Lengths { rows: required.rows - 1, ..required },
        Lengths { cells: required.cells - 1, ..required },
        Lengths { nodes: required.nodes - 1, ..required },
        Lengths { vars: required.vars - 1, ..required },
        Lengths { types: required.types - 1, ..required },
        Lengths { errors: required.errors - 1, ..required },
        Lengths { memory: required.memory - 1, ..required },
    ];
    let long = vec![b'x'; 65_537];
    let bodies: [(&[u8], u8); 3] = [(b"node=int\nnode=bool\nnode=bin,a,0,1\nfn=12,2\n", 2), (b"", 2), (&long, 1)];
    let mut all = Vec::new();
    for (table, lengths) in short.into_iter().enumerate() {
        for (body, answer) in bodies {
            let before = Lent::new(lengths);
            let mut lent = before.clone();
            let called = call(&mut lent, body);
            let mut faults = faults(&Given { answer, place: None, text: String::new() }, &[0; TOLD - 4], &called);
            if lent != before {
                faults.push("a table was changed".to_string());
            }
            all.extend(faults.iter().map(|fault| format!("table {table} too short, {} bytes: {fault}", body.len())));
        }
    }
    all
}

/// A body that differs, and why.
pub struct Different {
    pub index: u64,
    pub family: &'static str,
    pub bytes: Vec<u8>,
    pub faults: Vec<String>,
}

/// The smallest bodies that differ, the first of them made smaller still. `faults` has what is wrong with a body, `expected` what the tool
/// has to give for it.
pub fn shown(
    seed: u64,
    different: &mut [Different],
    mut faults: impl FnMut(&[u8]) -> Vec<String>,
    expected: impl Fn(&[u8]) -> String,
) -> String {
    different.sort_by_key(|one| one.bytes.len());
    let mut text = String::new();
    for Different { index, family, bytes, faults } in different.iter().take(20) {
        text += &format!("body {index} of seed {seed}, {family}, {} bytes: {}\n", bytes.len(), faults.join("; "));
    }
    let Some(body) = different.first().and_then(|one| String::from_utf8(one.bytes.clone()).ok()) else { return text };
    let start = Instant::now();
    let least = shrink::shrink(&body, SHRINK_TRIES, |text| {
        start.elapsed().as_secs() < SHRINK_SECONDS && !faults(text.as_bytes()).is_empty()
    });
    let why = faults(least.as_bytes()).join("\n");
    let expected = expected(least.as_bytes());
    text + &format!("the smallest made smaller\n-- body\n{least}-- expected\n{expected}-- wrong\n{why}\n--\n")
}
