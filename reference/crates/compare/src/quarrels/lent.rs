//! The calls of the library over lent tables whose cells are all the same before.
use super::{BEFORE, Called};
use nunthila::{ErrorRow, Lengths, TOLD};

unsafe extern "C" {
    fn nunthila_check(
        s: *const u8,
        s_len: usize,
        rows: *mut u16,
        rows_len: usize,
        cells: *mut u16,
        cells_len: usize,
        nodes: *mut u16,
        nodes_len: usize,
        vars: *mut u16,
        vars_len: usize,
        types: *mut u16,
        types_len: usize,
        errors: *mut ErrorRow,
        errors_len: usize,
        log: *mut u16,
        log_len: usize,
        memory: *mut u16,
        memory_len: usize,
        told: *mut usize,
        told_len: usize,
    ) -> usize;

    fn nunthila_quarrel(
        s: *const u8,
        s_len: usize,
        rows: *mut u16,
        rows_len: usize,
        cells: *mut u16,
        cells_len: usize,
        nodes: *mut u16,
        nodes_len: usize,
        vars: *mut u16,
        vars_len: usize,
        types: *mut u16,
        types_len: usize,
        errors: *mut ErrorRow,
        errors_len: usize,
        log: *mut u16,
        log_len: usize,
        memory: *mut u16,
        memory_len: usize,
        out: *mut u8,
        out_len: usize,
        told: *mut usize,
        told_len: usize,
        places: usize,
    ) -> usize;

    fn nunthila_shortest(
        s: *const u8,
        s_len: usize,
        rows: *mut u16,
        rows_len: usize,
        cells: *mut u16,
        cells_len: usize,
        nodes: *mut u16,
        nodes_len: usize,
        vars: *mut u16,
        vars_len: usize,
        types: *mut u16,
        types_len: usize,
        errors: *mut ErrorRow,
        errors_len: usize,
        log: *mut u16,
        log_len: usize,
        memory: *mut u16,
        memory_len: usize,
        out: *mut u8,
        out_len: usize,
        told: *mut usize,
        told_len: usize,
        places: usize,
        number: u64,
    ) -> usize;
}

/// The tables that are lent for a call.
#[derive(Clone, PartialEq, Eq)]
pub struct Lent {
    rows: Vec<u16>,
    cells: Vec<u16>,
    nodes: Vec<u16>,
    vars: Vec<u16>,
    types: Vec<u16>,
    errors: Vec<ErrorRow>,
    log: Vec<u16>,
    memory: Vec<u16>,
}

impl Lent {
    /// Tables of these lengths, as they are before each call.
    pub fn new(lengths: Lengths) -> Lent {
        let table = |length: usize| vec![u16::from(BEFORE); length];
        let [kind, cause, span, at, between, second, a, b, c] = [u16::from(BEFORE); 9];
        Lent {
            rows: table(lengths.rows),
            cells: table(lengths.cells),
            nodes: table(lengths.nodes),
            vars: table(lengths.vars),
            types: table(lengths.types),
            errors: vec![ErrorRow { kind, cause, span, at, between, second, a, b, c }; lengths.errors],
            log: table(lengths.log),
            memory: table(lengths.memory),
        }
    }

    /// Makes the cells those of tables of the same lengths.
    pub fn set(&mut self, other: &Lent) {
        self.rows.copy_from_slice(&other.rows);
        self.cells.copy_from_slice(&other.cells);
        self.nodes.copy_from_slice(&other.nodes);
        self.vars.copy_from_slice(&other.vars);
        self.types.copy_from_slice(&other.types);
        self.errors.copy_from_slice(&other.errors);
        self.log.copy_from_slice(&other.log);
        self.memory.copy_from_slice(&other.memory);
    }

    /// Types a body; the answer is told too.
    pub fn check(&mut self, body: &[u8]) -> [usize; TOLD] {
        let mut told = [usize::from(BEFORE); TOLD];
        // SAFETY: each pointer and length is that of a slice or vector, so it is not null and aligned, also where there is no element.
        // They are borrowed for the call, the written ones alone, so none overlaps another. Every bit pattern is a value of theirs.
        unsafe {
            nunthila_check(
                body.as_ptr(),
                body.len(),
                self.rows.as_mut_ptr(),
                self.rows.len(),
                self.cells.as_mut_ptr(),
                self.cells.len(),
                self.nodes.as_mut_ptr(),
                self.nodes.len(),
                self.vars.as_mut_ptr(),
                self.vars.len(),
                self.types.as_mut_ptr(),
                self.types.len(),
                self.errors.as_mut_ptr(),
                self.errors.len(),
                self.log.as_mut_ptr(),
                self.log.len(),
                self.memory.as_mut_ptr(),
                self.memory.len(),
                told.as_mut_ptr(),
                told.len(),
            )
        };
        told
    }

    /// The tool of request f) on a body, in an output of so many bytes; `places` is 0 for `equation=N` lines.
    pub fn quarrel(&mut self, body: &[u8], places: usize, room: usize) -> Called {
        let mut told = [usize::from(BEFORE); TOLD];
        let mut out = vec![BEFORE; room];
        // SAFETY: as in `check`; the output is a vector that is borrowed alone, too.
        let returned = unsafe {
            nunthila_quarrel(
                body.as_ptr(),
                body.len(),
                self.rows.as_mut_ptr(),
                self.rows.len(),
                self.cells.as_mut_ptr(),
                self.cells.len(),
                self.nodes.as_mut_ptr(),
                self.nodes.len(),
                self.vars.as_mut_ptr(),
                self.vars.len(),
                self.types.as_mut_ptr(),
                self.types.len(),
                self.errors.as_mut_ptr(),
                self.errors.len(),
                self.log.as_mut_ptr(),
                self.log.len(),
                self.memory.as_mut_ptr(),
                self.memory.len(),
                out.as_mut_ptr(),
                out.len(),
                told.as_mut_ptr(),
                told.len(),
                places,
            )
        };
        Called { returned, told, out }
    }

    /// The search of request n) on a body, with this number of subsets that it may test.
    pub fn shortest(&mut self, body: &[u8], number: u64, places: usize, room: usize) -> Called {
        let mut told = [usize::from(BEFORE); TOLD];
        let mut out = vec![BEFORE; room];
        // SAFETY: as in `quarrel`.
        let returned = unsafe {
            nunthila_shortest(
                body.as_ptr(),
                body.len(),
                self.rows.as_mut_ptr(),
                self.rows.len(),
                self.cells.as_mut_ptr(),
                self.cells.len(),
                self.nodes.as_mut_ptr(),
                self.nodes.len(),
                self.vars.as_mut_ptr(),
                self.vars.len(),
                self.types.as_mut_ptr(),
                self.types.len(),
                self.errors.as_mut_ptr(),
                self.errors.len(),
                self.log.as_mut_ptr(),
                self.log.len(),
                self.memory.as_mut_ptr(),
                self.memory.len(),
                out.as_mut_ptr(),
                out.len(),
                told.as_mut_ptr(),
                told.len(),
                places,
                number,
            )
        };
        Called { returned, told, out }
    }
}
