//! Calls of `quarrel` and `shortest`, and what holds of each: answer, place, text, what is told, and the tables beside those of `check`.
use super::{all_cells, bodies, conflicts, each_table, rest_is_zero, Conflict, Random, BEHIND};
use nunthila::{answer, Checker, Conflicting, Lengths, Lines, Outcome, Place, Quarreled, TOLD};

pub const FORMS: [Lines; 2] = [Lines::Numbers, Lines::Places];

/// An output in which every text has room.
pub const ROOM: usize = 65_536;

/// What is sought.
#[derive(Clone, Copy, Debug, PartialEq, Eq)]
pub enum Sought {
    /// The minimal conflict, by `quarrel`.
    Minimal,
    /// A shortest one, by `shortest` with this number.
    Shortest(u64),
}

/// What a call gave but for the tables.
pub struct Called {
    pub answer: usize,
    pub place: Option<usize>,
    /// The answer of the check.
    pub checked: usize,
    pub told: [usize; TOLD],
    pub length: Option<usize>,
    pub equations: Vec<Conflicting>,
    pub below: Option<usize>,
    pub out: Vec<u8>,
}

impl Called {
    pub fn new(quarreled: Quarreled, below: Option<usize>, out: Vec<u8>) -> Self {
        Self {
            answer: quarreled.answer(),
            place: quarreled.place(),
            checked: quarreled.checked().answer(),
            told: *quarreled.told(),
            length: quarreled.length(),
            equations: quarreled.conflict(&out).collect(),
            below,
            out,
        }
    }

    /// The numbers of the equations.
    pub fn numbers(&self) -> Vec<u16> {
        self.equations.iter().map(|e| e.number).collect()
    }

    /// The text from its numbers.
    pub fn text(&self) -> String {
        let line = |e: &Conflicting| match e.place {
            None => format!("equation={}\n", e.number),
            Some(Place { node, expected, got }) => format!("equation={},{node},{expected},{got}\n", e.number),
        };
        let last = self.below.map(|n| format!("below={n}\n"));
        self.equations.iter().map(line).chain(last).collect()
    }
}

/// Seeks, and gives the number of the line `below=` too.
pub fn seek<'a>(
    checker: &'a mut Checker,
    body: &[u8],
    sought: Sought,
    lines: Lines,
    out: &mut [u8],
) -> (Quarreled<'a>, Option<usize>) {
    match sought {
        Sought::Minimal => (checker.quarrel(body, out, lines), None),
        Sought::Shortest(number) => {
            let searched = checker.shortest(body, out, lines, number);
            (*searched, searched.below(out))
        }
    }
}

pub fn call(checker: &mut Checker, body: &[u8], sought: Sought, lines: Lines, room: usize) -> Called {
    let mut out = vec![BEHIND; room];
    let (quarreled, below) = seek(checker, body, sought, lines, &mut out);
    Called::new(quarreled, below, out)
}

/// A checker for `check` and one for `quarrel` and `shortest`, to run many bodies.
pub struct Runner {
    pub checks: Checker,
    pub quarrels: Checker,
}

impl Runner {
    pub fn new() -> Self {
        // All equations fit into the log, and a cell is left over.
        let checker = Checker::with_lengths(Lengths { log: 6_145, ..Lengths::required() });
        Self { checks: checker.clone(), quarrels: checker }
    }

    /// A call after what holds of every call was found to hold.
    pub fn call(&mut self, name: &str, body: &[u8], sought: Sought, lines: Lines, room: usize) -> Called {
        let mut out = vec![BEHIND; room];
        let (quarreled, below) = seek(&mut self.quarrels, body, sought, lines, &mut out);
        let checked = self.checks.check(body);
        let name = format!("{name}, {sought:?}, {lines:?}, {room} bytes");
        assert!(quarreled.tables() == checked.tables(), "{name}: tables");
        let called = Called::new(quarreled, below, out);
        let place = [usize::from(called.place.is_some()), called.place.unwrap_or(0)];
        assert_eq!((called.told[0], &called.told[1..3]), (called.answer, &place[..]), "{name}: told");
        assert_eq!(called.told[3..13], checked.told()[3..13], "{name}: counts");
        assert_eq!(called.checked, checked.answer(), "{name}: answer of the check");
        match checked.answer() {
            answer::CHECKED | answer::INSIDE_ITSELF => {
                assert!([0, 9, 14].contains(&called.answer), "{name}: {}", called.answer);
                assert_eq!(called.place, None, "{name}: place");
            }
            own => assert_eq!((called.answer, called.place), (own, checked.place()), "{name}: refusal of the check"),
        }
        match called.length {
            Some(length) => {
                assert_eq!((called.answer, called.told[13]), (0, length), "{name}: length");
                assert!(called.out[length..].iter().all(|&b| b == BEHIND), "{name}: bytes behind the text");
                let written = String::from_utf8(called.out[..length].to_vec()).unwrap();
                assert_eq!(called.text(), written, "{name}: equations");
                assert!(called.equations.windows(2).all(|p| p[0].number < p[1].number), "{name}: rising");
                assert!(called.equations.iter().all(|e| e.place.is_some() == (lines == Lines::Places)), "{name}: form");
                let size = called.equations.len();
                assert!(called.below.is_none_or(|n| 1 <= n && n <= size), "{name}: below={:?} of {size}", called.below);
            }
            None => {
                assert!(called.answer != 0, "{name}: no length");
                assert_eq!((called.told[13], called.equations.len(), called.below), (0, 0, None), "{name}: no text");
                assert!(called.out.iter().all(|&b| b == 0), "{name}: zero throughout");
            }
        }
        // The log has the equations too: the conflict ends with the first that failed, and has the sides of each.
        let log: Vec<nunthila::Equation> = checked.equations().collect();
        let failed = log.iter().position(|e| e.outcome == Outcome::Mismatch);
        if checked.answer() == answer::CHECKED && failed.is_none() {
            assert_eq!(called.answer, answer::NOTHING, "{name}: no equation failed");
        }
        if let (answer::CHECKED, Some(last)) = (checked.answer(), called.equations.last()) {
            assert_eq!(Some(usize::from(last.number)), failed, "{name}: the first equation that failed");
            for (e, p) in called.equations.iter().filter_map(|e| e.place.map(|p| (e, p))) {
                let logged = log[usize::from(e.number)];
                assert_eq!((p.expected, p.got), (logged.expected, logged.got), "{name}: sides");
                assert!(usize::from(p.node) < checked.counts().nodes, "{name}: node");
            }
        }
        called
    }

    /// The call in an output with room, with room for just the text and for one byte less, and with none: the first of them.
    pub fn in_rooms(&mut self, name: &str, body: &[u8], sought: Sought, lines: Lines) -> Called {
        let called = self.call(name, body, sought, lines, ROOM);
        let length = called.length.unwrap_or(0);
        for room in [length, length.saturating_sub(1), 0] {
            let again = self.call(name, body, sought, lines, room);
            if room < length {
                assert_eq!(again.answer, answer::NO_ROOM, "{name}: {room} of {length} bytes");
            } else {
                assert_eq!((again.answer, again.place), (called.answer, called.place), "{name}: {room} bytes");
                assert_eq!(again.out, called.out[..length], "{name}: {room} bytes");
            }
        }
        called
    }
}

/// Let a, b, .., z; a = true; a = b; b = c; ..; z = 1: 1,024 nodes, and without any one of the 254 equations there is a solution. The body,
/// and the lines of its equations in both forms.
pub fn chain() -> (Vec<u8>, [String; 2]) {
    const LETS: usize = 253;
    const VAR: usize = 14;
    let (mut body, mut numbers, mut places) = ("node=let,-,-\n".repeat(LETS), String::new(), String::new());
    let mut statements: Vec<usize> = (0..LETS).collect();
    for i in 0..=LETS {
        let node = LETS + 3 * i;
        let (left, right) = (i.saturating_sub(1), if i == 0 { 1 } else { VAR + i });
        body += &format!("node=path,l{left},1\n");
        body += &match i {
            0 => "node=bool\n".to_string(),
            LETS => "node=int\n".to_string(),
            _ => format!("node=path,l{i},1\n"),
        };
        body += &format!("node=assign,{node},{}\n", node + 1);
        numbers += &format!("equation={i}\n");
        places += &format!("equation={i},{},{},{right}\n", node + 2, VAR + left);
        statements.push(node + 2);
    }
    let block = |items: &[usize]| items.iter().fold("node=block,-".to_string(), |b, s| format!("{b},{s}")) + "\n";
    let blocks: Vec<String> = statements.chunks(64).map(block).collect();
    let first = LETS + 3 * (LETS + 1);
    let root = first + blocks.len();
    body += &(blocks.concat() + &block(&(first..root).collect::<Vec<usize>>()) + &format!("fn=0,{root}\n"));
    (body.into_bytes(), [numbers, places])
}

/// Another literal, an empty list or a `break` for a literal: the body stays well formed, and other equations fail.
pub fn other_literal(random: &mut Random, body: &mut Vec<u8>) {
    const OTHERS: [&[u8]; 5] = [b"node=bool", b"node=int", b"node=float", b"node=list", b"node=break"];
    let mut lines: Vec<&[u8]> = body.split(|&b| b == b'\n').collect();
    let literals: Vec<usize> = (0..lines.len()).filter(|&i| OTHERS[..3].contains(&lines[i])).collect();
    if !literals.is_empty() {
        lines[literals[random.below(literals.len())]] = OTHERS[random.below(OTHERS.len())];
        *body = lines.join(&b'\n');
    }
}

/// A short table is answered 2.
pub fn short_tables(sought: Sought) {
    let cases = conflicts();
    let body = &cases.iter().find(|c| c.name == "five-equations").unwrap().body;
    for shorter in [|n: usize| n - 1, |n: usize| n / 2, |_: usize| 0] {
        for (name, lengths) in each_table(shorter) {
            let mut checker = Checker::with_lengths(lengths);
            for lines in FORMS {
                for room in [0, 10] {
                    let called = call(&mut checker, body, sought, lines, room);
                    assert_eq!((called.answer, called.place, called.length), (2, None, None), "{name}");
                    assert_eq!(called.told, [2, 0, 0, 0, 0, 0, 0, 0, 0, 0, 0, 0, 0, 0], "{name}");
                    assert!(called.out.iter().all(|&b| b == 0), "{name}: output");
                }
                let (quarreled, _) = seek(&mut checker, body, sought, lines, &mut []);
                assert!(all_cells(quarreled.tables()).iter().all(|&c| c == 0), "{name}: as they were");
                assert_eq!(call(&mut checker, b"x", sought, lines, ROOM).answer, 2, "{name}: 2 before 3");
                assert_eq!(call(&mut checker, &[b'x'; 65_537], sought, lines, ROOM).answer, 1, "{name}: 1 before 2");
            }
        }
    }
}

/// A longer table changes nothing.
pub fn longer_tables(sought: Sought) {
    let cases = conflicts();
    let case = cases.iter().find(|c| c.name == "five-equations").unwrap();
    let usual = call(&mut Checker::new(), &case.body, sought, Lines::Places, ROOM);
    for (name, lengths) in each_table(|n| n + 9) {
        let mut checker = Checker::with_lengths(lengths);
        let called = call(&mut checker, &case.body, sought, Lines::Places, ROOM);
        assert_eq!((called.told, called.out == usual.out), (usual.told, true), "{name}");
        let (quarreled, _) = seek(&mut checker, &case.body, sought, Lines::Places, &mut [0; ROOM]);
        assert!(rest_is_zero(quarreled.checked()), "{name}");
    }
}

/// An empty, a full and an over-long body.
pub fn sizes(sought: Sought) {
    let mut runner = Runner::new();
    let full = bodies().into_iter().find(|c| c.name == "bytes-exactly-65536-accepted").unwrap().body;
    for lines in FORMS {
        let called = runner.in_rooms("empty", b"", sought, lines);
        assert_eq!((called.answer, called.place), (3, Some(1)));
        let called = runner.in_rooms("full", &full, sought, lines);
        assert_eq!((called.answer, called.place, called.told[3..8].to_vec()), (14, None, vec![512, 256, 64, 1, 1]));
    }

    // One byte more: the tables stay those of the body before.
    let longer = [full.as_slice(), b"\n"].concat();
    for Conflict { name, body, .. } in conflicts() {
        let checked = runner.checks.check(&body);
        seek(&mut runner.quarrels, &body, sought, Lines::Places, &mut []);
        for lines in FORMS {
            let mut out = vec![BEHIND; 100];
            let (quarreled, below) = seek(&mut runner.quarrels, &longer, sought, lines, &mut out);
            assert!(quarreled.tables() == checked.tables(), "{name}");
            let called = Called::new(quarreled, below, out);
            assert_eq!((called.answer, called.place, called.length), (1, None, None), "{name}");
            assert_eq!(called.told, [1, 0, 0, 0, 0, 0, 0, 0, 0, 0, 0, 0, 0, 0], "{name}");
            assert_eq!(called.out, [0; 100], "{name}");
        }
    }
}

/// Neither the log nor what an earlier call left changes what is found, and what is found changes no later call.
pub fn used_again(sought: Sought) {
    let cases = conflicts();
    let mut used = Checker::new();
    let mut earlier: &[u8] = b"";
    for Conflict { name, body, .. } in &cases {
        let mut out = vec![BEHIND; ROOM];
        for lines in FORMS {
            let new = call(&mut Checker::with_log(2_048), body, sought, lines, ROOM);
            for function in 0..4 {
                match function {
                    0 => drop(used.check(earlier).answer()),
                    1 => drop(used.report(earlier, &mut out).answer()),
                    2 => drop(used.quarrel(earlier, &mut out, lines).answer()),
                    _ => drop(used.shortest(earlier, &mut out, lines, 100).answer()),
                }
                let called = call(&mut used, body, sought, lines, ROOM);
                assert_eq!((called.told, &called.equations), (new.told, &new.equations), "{name}");
                assert!(called.out == new.out, "{name}");
            }
            let report = |checker: &mut Checker| {
                let mut out = vec![BEHIND; ROOM];
                let told = *checker.report(body, &mut out).told();
                (told, out)
            };
            assert!(report(&mut used) == report(&mut Checker::new()), "{name}: report behind {sought:?}");
        }
        earlier = body;
    }
}
