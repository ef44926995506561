//! The search for a shortest conflict: of the static library through its wrapper and, for `fresh-start`, of two builds without proof.
use crate::ours::OUTPUT;
use nunthila::{Checker, Lines};

/// Which search is called.
#[derive(Clone, Copy, PartialEq)]
pub enum Build {
    /// The static library.
    Library,
    /// Its code, built without proof.
    #[cfg(feature = "fresh-start")]
    Unproved,
    /// The same with a fresh start for each subset.
    #[cfg(feature = "fresh-start")]
    FreshStart,
}

/// Tables and an output, used again by each call, and what the last call told.
pub struct Lent {
    checker: Checker,
    #[cfg(feature = "fresh-start")]
    tables: builds::Tables,
    out: Vec<u8>,
    length: usize,
    variables: usize,
}

impl Lent {
    pub fn new() -> Lent {
        Lent {
            checker: Checker::new(),
            #[cfg(feature = "fresh-start")]
            tables: builds::Tables::new(),
            out: vec![0; OUTPUT],
            length: 0,
            variables: 0,
        }
    }

    /// From bytes to the lines `equation=N` of a shortest conflict, with so many subsets that may be tested.
    #[inline]
    pub fn shortest(&mut self, build: Build, s: &[u8], number: u64) -> usize {
        match build {
            Build::Library => self.library(s, number),
            #[cfg(feature = "fresh-start")]
            Build::Unproved => self.unproved(builds::unproved_shortest, s, number),
            #[cfg(feature = "fresh-start")]
            Build::FreshStart => self.unproved(builds::fresh_start_shortest, s, number),
        }
    }

    fn library(&mut self, s: &[u8], number: u64) -> usize {
        let searched = self.checker.shortest(s, &mut self.out, Lines::Numbers, number);
        self.length = searched.length().unwrap_or(0);
        self.variables = searched.counts().vars;
        searched.answer()
    }

    /// The answer and the text.
    pub fn text(&mut self, build: Build, s: &[u8], number: u64) -> (usize, String) {
        let answer = self.shortest(build, s, number);
        (answer, String::from_utf8_lossy(&self.out[..self.length]).into_owned())
    }

    /// The variables of the body that the last call was about.
    pub fn variables(&self) -> usize {
        self.variables
    }
}

/// The builds without proof: a slice passes as a pointer to its pointer and length.
#[cfg(feature = "fresh-start")]
mod builds {
    use super::Lent;
    use nunthila::{ErrorRow, Lengths, TOLD};

    /// Where what is told has the number of variables, and the length of the text.
    const VARIABLES: usize = 10;
    const LENGTH: usize = TOLD - 1;

    /// Tables of the least lengths that are taken, without a log.
    pub struct Tables {
        rows: Vec<u16>,
        cells: Vec<u16>,
        nodes: Vec<u16>,
        vars: Vec<u16>,
        types: Vec<u16>,
        errors: Vec<ErrorRow>,
        log: Vec<u16>,
        memory: Vec<u16>,
        told: [usize; TOLD],
    }

    impl Tables {
        pub fn new() -> Tables {
            let lengths = Lengths::required();
            let table = |length: usize| vec![0; length];
            Tables {
                rows: table(lengths.rows),
                cells: table(lengths.cells),
                nodes: table(lengths.nodes),
                vars: table(lengths.vars),
                types: table(lengths.types),
                errors: vec![ErrorRow::default(); lengths.errors],
                log: table(lengths.log),
                memory: table(lengths.memory),
                told: [0; TOLD],
            }
        }
    }

    #[repr(C)]
    pub struct Slice {
        start: *const u8,
        length: usize,
    }

    impl Slice {
        fn of<T>(slice: &[T]) -> Slice {
            Slice { start: slice.as_ptr().cast(), length: slice.len() }
        }

        fn of_mut<T>(slice: &mut [T]) -> Slice {
            Slice { start: slice.as_mut_ptr().cast_const().cast(), length: slice.len() }
        }
    }

    type P = *const Slice;
    pub type Shortest = unsafe extern "C" fn(P, P, P, P, P, P, P, P, P, P, P, usize, u64) -> usize;

    unsafe extern "C" {
        pub fn unproved_shortest(
            s: P,
            rows: P,
            cells: P,
            nodes: P,
            vars: P,
            types: P,
            errors: P,
            log: P,
            memory: P,
            out: P,
            told: P,
            places: usize,
            number: u64,
        ) -> usize;

        pub fn fresh_start_shortest(
            s: P,
            rows: P,
            cells: P,
            nodes: P,
            vars: P,
            types: P,
            errors: P,
            log: P,
            memory: P,
            out: P,
            told: P,
            places: usize,
            number: u64,
        ) -> usize;
    }

    impl Lent {
        pub fn unproved(&mut self, shortest: Shortest, s: &[u8], number: u64) -> usize {
            let slices = [
                Slice::of(s),
                Slice::of_mut(&mut self.tables.rows),
                Slice::of_mut(&mut self.tables.cells),
                Slice::of_mut(&mut self.tables.nodes),
                Slice::of_mut(&mut self.tables.vars),
                Slice::of_mut(&mut self.tables.types),
                Slice::of_mut(&mut self.tables.errors),
                Slice::of_mut(&mut self.tables.log),
                Slice::of_mut(&mut self.tables.memory),
                Slice::of_mut(&mut self.out),
                Slice::of_mut(&mut self.tables.told),
            ];
            let [s, rows, cells, nodes, vars, types, errors, log, memory, out, told] =
                slices.each_ref().map(|slice| slice as P);
            // SAFETY: each pair is the pointer and length of a slice or vector, which is borrowed until the call ends, the written ones
            // alone, so none overlaps another. The pairs live until then too. Every bit pattern is a value of the elements.
            let answer =
                unsafe { shortest(s, rows, cells, nodes, vars, types, errors, log, memory, out, told, 0, number) };
            self.length = self.tables.told[LENGTH];
            self.variables = self.tables.told[VARIABLES];
            answer
        }
    }
}
