//! The static library through its wrapper: the tables are lent once and used again by each call.
use nunthila::{Checker, ErrorRow, Lengths, Lines};

/// Bytes of the lent output: as many as `typereport` lends.
pub const OUTPUT: usize = 65_536;

/// The lent slices, by name.
pub const SLICES: [&str; 7] = ["rows", "cells", "nodes", "vars", "types", "errors", "memory"];

/// A checker with tables of the required lengths and without a log of equations, and its output.
pub struct Tables {
    checker: Checker,
    output: Vec<u8>,
}

impl Tables {
    /// Tables of the least lengths that the library takes: one element less of any is answered 2.
    pub fn new() -> Self {
        let body = b"node=bool\nfn=1,0\n";
        assert_eq!(Checker::new().check(body).answer(), 0);
        for slice in 0..SLICES.len() {
            let mut short = Lengths::required();
            *Self::fields(&mut short)[slice] -= 1;
            assert_eq!(
                Checker::with_lengths(short).check(body).answer(),
                2,
                "{} are more than required",
                SLICES[slice]
            );
        }
        Tables { checker: Checker::new(), output: vec![0; OUTPUT] }
    }

    fn fields(l: &mut Lengths) -> [&mut usize; 7] {
        [&mut l.rows, &mut l.cells, &mut l.nodes, &mut l.vars, &mut l.types, &mut l.errors, &mut l.memory]
    }

    /// Elements of each slice.
    pub fn lengths(&self) -> [usize; 7] {
        Self::fields(&mut self.checker.lengths()).map(|n| *n)
    }

    /// Bytes of all tables together.
    pub fn bytes(&self) -> usize {
        let [rows, cells, nodes, vars, types, errors, memory] = self.lengths();
        2 * (rows + cells + nodes + vars + types + memory) + size_of::<ErrorRow>() * errors
    }

    /// From bytes to tables.
    #[inline]
    pub fn check(&mut self, s: &[u8]) -> usize {
        self.checker.check(s).answer()
    }

    /// From bytes to a report.
    #[inline]
    pub fn report(&mut self, s: &[u8]) -> usize {
        self.checker.report(s, &mut self.output).answer()
    }

    /// From bytes to the lines `equation=N` of the minimal conflict.
    #[inline]
    pub fn quarrel(&mut self, s: &[u8]) -> usize {
        self.checker.quarrel(s, &mut self.output, Lines::Numbers).answer()
    }

    /// The answer of the tool, and its text.
    pub fn conflict(&mut self, s: &[u8]) -> (usize, String) {
        let quarreled = self.checker.quarrel(s, &mut self.output, Lines::Numbers);
        let length = quarreled.length().unwrap_or(0);
        (quarreled.answer(), String::from_utf8_lossy(&self.output[..length]).into_owned())
    }

    /// The report's text. The output has 65,536 bytes, or more where the text is longer, until the next call.
    pub fn text(&mut self, s: &[u8]) -> String {
        self.output = vec![0; OUTPUT];
        loop {
            if let Some(length) = self.checker.report(s, &mut self.output).length() {
                return String::from_utf8_lossy(&self.output[..length]).into_owned();
            }
            self.output = vec![0; 2 * self.output.len()];
        }
    }
}
