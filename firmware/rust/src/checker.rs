//! The checker that owns its tables, and what a call gives.
use crate::answer::{CHECKED, INSIDE_ITSELF, NOTHING, NO_ROOM};
use crate::conflict::{self, Conflicting, Lines};
use crate::library::{self, ErrorRow};
use crate::views::{self, Equation, Made, Node, TypingError, Var};
use crate::Lengths;
use std::ops::Deref;

/// How many numbers the library tells of a call: answer, whether it has a place, place, the ten counts, the length of the text.
pub const TOLD: usize = 14;

/// The number of the first `type` line of a body, one more than that of the last built-in type.
const FIRST_DECLARED: usize = 14;

/// The tables that are lent for each call.
#[derive(Clone, Debug)]
pub(crate) struct Lent {
    pub rows: Box<[u16]>,
    pub cells: Box<[u16]>,
    pub nodes: Box<[u16]>,
    pub vars: Box<[u16]>,
    pub types: Box<[u16]>,
    pub errors: Box<[ErrorRow]>,
    pub log: Box<[u16]>,
    pub memory: Box<[u16]>,
}

/// A checker with tables of its own, which each call uses anew.
#[derive(Clone, Debug)]
pub struct Checker {
    lent: Lent,
    told: [usize; TOLD],
}

impl Checker {
    /// A checker with tables of the required lengths and no log.
    pub fn new() -> Self {
        Self::with_lengths(Lengths::required())
    }

    /// A checker that also keeps the first so many equations of a body; 2,048 are all.
    pub fn with_log(equations: usize) -> Self {
        Self::with_lengths(Lengths { log: equations.saturating_mul(views::EQUATION), ..Lengths::required() })
    }

    /// A checker with tables of these lengths. With one below its required length every body is answered 1 or 2.
    pub fn with_lengths(lengths: Lengths) -> Self {
        let table = |n: usize| vec![0u16; n].into_boxed_slice();
        let lent = Lent {
            rows: table(lengths.rows),
            cells: table(lengths.cells),
            nodes: table(lengths.nodes),
            vars: table(lengths.vars),
            types: table(lengths.types),
            errors: vec![ErrorRow::default(); lengths.errors].into_boxed_slice(),
            log: table(lengths.log),
            memory: table(lengths.memory),
        };
        Self { lent, told: [0; TOLD] }
    }

    /// The lengths of the tables.
    pub fn lengths(&self) -> Lengths {
        Lengths {
            rows: self.lent.rows.len(),
            cells: self.lent.cells.len(),
            nodes: self.lent.nodes.len(),
            vars: self.lent.vars.len(),
            types: self.lent.types.len(),
            errors: self.lent.errors.len(),
            log: self.lent.log.len(),
            memory: self.lent.memory.len(),
        }
    }

    /// Types a body.
    pub fn check(&mut self, body: &[u8]) -> Checked<'_> {
        let answer = library::check(body, &mut self.lent, &mut self.told);
        self.checked(answer)
    }

    /// Types a body and writes its report into `out`. The bytes behind the text stay as they were; where the text has no room, the
    /// answer is 9 and `out` is zero throughout.
    pub fn report(&mut self, body: &[u8], out: &mut [u8]) -> Reported<'_> {
        let answer = library::report(body, &mut self.lent, out, &mut self.told);
        Reported { answer, checked: self.checked(self.told[0]) }
    }

    /// Types a body and writes the minimal conflict among its equations into `out`, a line for each: of the equations up to and
    /// including the first that failed or was refused 12, some that have no common solution, whereas without any one of them the
    /// others have one. The bytes behind the text stay as they were; on any refusal `out` is zero throughout. 65,536 bytes have room
    /// for every text.
    ///
    /// ```
    /// use nunthila::{Checker, Lines};
    ///
    /// // a = true, a = true, a = 1: the first of the two that are alike is dropped.
    /// let body = b"node=let,-,-\nnode=path,l0,1\nnode=bool\nnode=assign,1,2\nnode=path,l0,1\nnode=bool\nnode=assign,4,5\n\
    ///     node=path,l0,1\nnode=int\nnode=assign,7,8\nnode=block,-,0,3,6,9\nfn=0,10\n";
    /// let mut checker = Checker::new();
    /// let mut out = vec![0; 65_536];
    /// let quarreled = checker.quarrel(body, &mut out, Lines::Numbers);
    /// assert_eq!(&out[..quarreled.length().unwrap()], b"equation=1\nequation=2\n");
    /// let quarreled = checker.quarrel(body, &mut out, Lines::Places);
    /// let nodes = quarreled.conflict(&out).map(|e| e.place.unwrap().node);
    /// assert!(nodes.eq([6, 9]));
    /// ```
    pub fn quarrel(&mut self, body: &[u8], out: &mut [u8], lines: Lines) -> Quarreled<'_> {
        let answer = library::quarrel(body, &mut self.lent, out, &mut self.told, lines.number());
        self.quarreled(answer)
    }

    /// Types a body and searches for a conflict among its equations that is shorter than that of [`quarrel`](Self::quarrel): among the
    /// smaller subsets of the same equations, by size from 1, within a size by the first number in which two differ, of which at most
    /// `number` are tested. Writes the first that has no common solution into `out`, else the conflict of `quarrel`; a line for each
    /// equation, and a last line with [`below`](Searched::below). The bytes behind the text stay as they were; on any refusal, which are
    /// those of `quarrel`, `out` is zero throughout. 65,536 bytes have room for every text.
    ///
    /// The time is bounded by `number` alone. A body may have more subsets to test than [`u64::MAX`], and a call with so great a number
    /// then ends only in principle.
    ///
    /// ```
    /// use nunthila::{Checker, Lines};
    ///
    /// // b = true, a = true, a = b, b = 1: the first and the last have no common solution, the seventh subset.
    /// let body = b"node=let,-,-\nnode=let,-,-\nnode=path,l1,1\nnode=bool\nnode=assign,2,3\nnode=path,l0,1\nnode=bool\n\
    ///     node=assign,5,6\nnode=path,l0,1\nnode=path,l1,1\nnode=assign,8,9\nnode=path,l1,1\nnode=int\nnode=assign,11,12\n\
    ///     node=block,-,0,1,4,7,10,13\nfn=0,14\n";
    /// let mut checker = Checker::new();
    /// let mut out = vec![0; 65_536];
    /// let searched = checker.shortest(body, &mut out, Lines::Numbers, 6);
    /// assert_eq!(&out[..searched.length().unwrap()], b"equation=1\nequation=2\nequation=3\nbelow=2\n");
    /// let searched = checker.shortest(body, &mut out, Lines::Numbers, 7);
    /// assert_eq!(&out[..searched.length().unwrap()], b"equation=0\nequation=3\nbelow=2\n");
    /// // No conflict has fewer equations than two, so this is a shortest one.
    /// assert_eq!((searched.conflict(&out).count(), searched.below(&out)), (2, Some(2)));
    /// ```
    pub fn shortest(&mut self, body: &[u8], out: &mut [u8], lines: Lines, number: u64) -> Searched<'_> {
        let answer = library::shortest(body, &mut self.lent, out, &mut self.told, lines.number(), number);
        Searched { quarreled: self.quarreled(answer) }
    }

    fn quarreled(&self, answer: usize) -> Quarreled<'_> {
        // Behind 0, 14 and 9 the check answered 0 or 12, and a body that is typed has a node.
        let checked = match answer {
            CHECKED | NOTHING | NO_ROOM if self.checked(CHECKED).counts().nodes > 0 => CHECKED,
            CHECKED | NOTHING | NO_ROOM => INSIDE_ITSELF,
            own => own,
        };
        Quarreled { answer, checked: self.checked(checked) }
    }

    fn checked(&self, answer: usize) -> Checked<'_> {
        let l = &self.lent;
        let tables = Tables {
            rows: &l.rows,
            cells: &l.cells,
            nodes: &l.nodes,
            vars: &l.vars,
            types: &l.types,
            errors: &l.errors,
            log: &l.log,
            memory: &l.memory,
        };
        Checked { answer, told: &self.told, tables }
    }
}

impl Default for Checker {
    fn default() -> Self {
        Self::new()
    }
}

/// The tables cell by cell, as the library left them. After the answers 1 and 2 they are as before the call.
#[derive(Clone, Copy, Debug, PartialEq, Eq)]
pub struct Tables<'a> {
    /// The lines of the file.
    pub rows: &'a [u16],
    /// The fields of the lines.
    pub cells: &'a [u16],
    /// The types of the nodes.
    pub nodes: &'a [u16],
    /// The variables.
    pub vars: &'a [u16],
    /// The made types, and their inputs.
    pub types: &'a [u16],
    /// The type errors.
    pub errors: &'a [ErrorRow],
    /// The equations.
    pub log: &'a [u16],
    /// The working memory: zero, unless the answer is 1 or 2.
    pub memory: &'a [u16],
}

/// How much there is of each. All are 0 unless the answer is 0.
#[derive(Clone, Copy, Debug, Default, PartialEq, Eq)]
pub struct Counts {
    /// `type` lines of the body.
    pub types: usize,
    /// `def` lines.
    pub defs: usize,
    /// `inst` lines.
    pub insts: usize,
    /// `bind` lines.
    pub binds: usize,
    /// `node` lines.
    pub nodes: usize,
    /// Fields of all lines.
    pub fields: usize,
    /// Types that typing made.
    pub made: usize,
    /// Variables.
    pub vars: usize,
    /// Type errors.
    pub errors: usize,
    /// Equations raised, those without room in the log too.
    pub equations: usize,
}

/// What checking a body gave.
#[derive(Clone, Copy, Debug)]
pub struct Checked<'a> {
    answer: usize,
    told: &'a [usize; TOLD],
    tables: Tables<'a>,
}

impl<'a> Checked<'a> {
    /// The answer of the check, a number of the module [`answer`](crate::answer) other than 9.
    pub fn answer(&self) -> usize {
        self.answer
    }

    /// The line, from 1, for the answers 3 to 6; the node for 10 to 13. Of [`quarrel`](Checker::quarrel) and
    /// [`shortest`](Checker::shortest) none for 12.
    pub fn place(&self) -> Option<usize> {
        (self.told[1] == 1).then_some(self.told[2])
    }

    /// The numbers as the library told them.
    pub fn told(&self) -> &'a [usize; TOLD] {
        self.told
    }

    /// The counts by name.
    pub fn counts(&self) -> Counts {
        let [_, _, _, types, defs, insts, binds, nodes, fields, made, vars, errors, equations, _] = *self.told;
        Counts { types, defs, insts, binds, nodes, fields, made, vars, errors, equations }
    }

    /// The tables cell by cell.
    pub fn tables(&self) -> Tables<'a> {
        self.tables
    }

    /// The nodes of the body, in order.
    pub fn nodes(&self) -> impl ExactSizeIterator<Item = Node> + DoubleEndedIterator + Clone + 'a {
        let table = self.tables.nodes;
        (0..self.counts().nodes).map(move |i| views::node(table, i))
    }

    /// The made types, first made first.
    pub fn types(&self) -> impl ExactSizeIterator<Item = Made<'a>> + DoubleEndedIterator + Clone + 'a {
        let table = self.tables.types;
        (0..self.counts().made).map(move |i| views::made(table, i))
    }

    /// The number of the first made type.
    pub fn first_made(&self) -> usize {
        FIRST_DECLARED + self.counts().types
    }

    /// The made type of this number; none where the number is not that of a made type.
    pub fn made(&self, number: u16) -> Option<Made<'a>> {
        let i = usize::from(number).checked_sub(self.first_made())?;
        (i < self.counts().made).then(|| views::made(self.tables.types, i))
    }

    /// The variables, in the order drawn.
    pub fn vars(&self) -> impl ExactSizeIterator<Item = Var> + DoubleEndedIterator + Clone + 'a {
        let table = self.tables.vars;
        (0..self.counts().vars).map(move |i| views::var(table, i))
    }

    /// The type errors, in the order emitted.
    pub fn errors(&self) -> impl ExactSizeIterator<Item = TypingError> + DoubleEndedIterator + Clone + 'a {
        self.tables.errors[..self.counts().errors].iter().map(views::error)
    }

    /// The equations, in the order raised, as many as the log has whole.
    pub fn equations(&self) -> impl ExactSizeIterator<Item = Equation> + DoubleEndedIterator + Clone + 'a {
        let table = self.tables.log;
        (0..self.counts().equations.min(table.len() / views::EQUATION)).map(move |i| views::equation(table, i))
    }
}

/// What reporting a body gave: the answer of the report, and what was checked, also by dereference.
#[derive(Clone, Copy, Debug)]
pub struct Reported<'a> {
    answer: usize,
    checked: Checked<'a>,
}

impl<'a> Reported<'a> {
    /// 9 where the output is too short for the text, else the answer of the check.
    pub fn answer(&self) -> usize {
        self.answer
    }

    /// The place of the answer: none for 9, else that of the check.
    pub fn place(&self) -> Option<usize> {
        self.checked.place().filter(|_| self.answer != NO_ROOM)
    }

    /// How many bytes of the output are the text, behind which there is no NUL; none where it has no room.
    pub fn length(&self) -> Option<usize> {
        (self.answer != NO_ROOM).then_some(self.checked.told[TOLD - 1])
    }

    /// What was checked, with the answer of the check and its place, also where that of the report is 9.
    pub fn checked(&self) -> &Checked<'a> {
        &self.checked
    }
}

impl<'a> Deref for Reported<'a> {
    type Target = Checked<'a>;

    fn deref(&self) -> &Checked<'a> {
        &self.checked
    }
}

/// What seeking a conflict of a body gave: the answer, and what was checked, also by dereference.
#[derive(Clone, Copy, Debug)]
pub struct Quarreled<'a> {
    answer: usize,
    checked: Checked<'a>,
}

impl<'a> Quarreled<'a> {
    /// That of the check where it is 1 to 6, 10, 11 or 13; else 14 where there is no conflict to be named, 9 where the output is too
    /// short for the text, or 0.
    pub fn answer(&self) -> usize {
        self.answer
    }

    /// The place of the answer: that of the check where the answer is 3 to 6, 10, 11 or 13; none for the others.
    pub fn place(&self) -> Option<usize> {
        self.checked.place()
    }

    /// How many bytes of the output are the text, behind which there is no NUL; none on a refusal.
    pub fn length(&self) -> Option<usize> {
        (self.answer == CHECKED).then_some(self.checked.told[TOLD - 1])
    }

    /// The equations of the conflict, by rising number, from the output that this call wrote; none on a refusal. Panics on
    /// another output.
    pub fn conflict<'o>(&self, out: &'o [u8]) -> impl Iterator<Item = Conflicting> + Clone + 'o {
        conflict::equations(&out[..self.length().unwrap_or(0)])
    }

    /// What was checked, with the answer of the check: where that of this call is 0, 14 or 9 it is 0, or 12 without its place.
    pub fn checked(&self) -> &Checked<'a> {
        &self.checked
    }
}

impl<'a> Deref for Quarreled<'a> {
    type Target = Checked<'a>;

    fn deref(&self) -> &Checked<'a> {
        &self.checked
    }
}

/// What searching for a shortest conflict of a body gave: as what [`quarrel`](Checker::quarrel) gives, also by dereference, and how short
/// a conflict can be.
#[derive(Clone, Copy, Debug)]
pub struct Searched<'a> {
    quarreled: Quarreled<'a>,
}

impl<'a> Searched<'a> {
    /// The greatest size, at most that of the conflict, below which every non-empty subset was tested and has a solution, from the output
    /// that this call wrote; none on a refusal. No conflict has fewer equations. Panics on another output.
    pub fn below(&self, out: &[u8]) -> Option<usize> {
        self.length().map(|n| conflict::below(&out[..n]))
    }
}

impl<'a> Deref for Searched<'a> {
    type Target = Quarreled<'a>;

    fn deref(&self) -> &Quarreled<'a> {
        &self.quarreled
    }
}
