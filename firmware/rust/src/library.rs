//! The calls of the C library: all unsafe code of this crate.
use crate::checker::{Lent, TOLD};

/// A row of the table of errors, as the library writes it. [`TypingError`](crate::TypingError) is its typed view.
#[repr(C)]
#[derive(Clone, Copy, Debug, Default, PartialEq, Eq)]
pub struct ErrorRow {
    /// Number of the kind.
    pub kind: u16,
    /// 0 no equation raised it, 1 one that failed did.
    pub cause: u16,
    /// What `at` numbers: 0 a node, 1 a bind item by its definition, 2 the signature.
    pub span: u16,
    /// The number of the node or definition.
    pub at: u16,
    /// 1 if there is a second node.
    pub between: u16,
    /// The second node.
    pub second: u16,
    /// First value.
    pub a: u16,
    /// Second value.
    pub b: u16,
    /// Third value.
    pub c: u16,
}

extern "C" {
    fn nunthila_check(
        s: *const u8,
        s_len: usize,
        rows: *mut u16,
        rows_len: usize,
        cells: *mut u16,
        cells_len: usize,
        nodes: *mut u16,
        nodes_len: usize,
        vars: *mut u16,
        vars_len: usize,
        types: *mut u16,
        types_len: usize,
        errors: *mut ErrorRow,
        errors_len: usize,
        log: *mut u16,
        log_len: usize,
        memory: *mut u16,
        memory_len: usize,
        told: *mut usize,
        told_len: usize,
    ) -> usize;

    fn nunthila_report(
        s: *const u8,
        s_len: usize,
        rows: *mut u16,
        rows_len: usize,
        cells: *mut u16,
        cells_len: usize,
        nodes: *mut u16,
        nodes_len: usize,
        vars: *mut u16,
        vars_len: usize,
        types: *mut u16,
        types_len: usize,
        errors: *mut ErrorRow,
        errors_len: usize,
        log: *mut u16,
        log_len: usize,
        memory: *mut u16,
        memory_len: usize,
        out: *mut u8,
        out_len: usize,
        told: *mut usize,
        told_len: usize,
    ) -> usize;

    fn nunthila_quarrel(
        s: *const u8,
        s_len: usize,
        rows: *mut u16,
        rows_len: usize,
        cells: *mut u16,
        cells_len: usize,
        nodes: *mut u16,
        nodes_len: usize,
        vars: *mut u16,
        vars_len: usize,
        types: *mut u16,
        types_len: usize,
        errors: *mut ErrorRow,
        errors_len: usize,
        log: *mut u16,
        log_len: usize,
        memory: *mut u16,
        memory_len: usize,
        out: *mut u8,
        out_len: usize,
        told: *mut usize,
        told_len: usize,
        places: usize,
    ) -> usize;

    fn nunthila_shortest(
        s: *const u8,
        s_len: usize,
        rows: *mut u16,
        rows_len: usize,
        cells: *mut u16,
        cells_len: usize,
        nodes: *mut u16,
        nodes_len: usize,
        vars: *mut u16,
        vars_len: usize,
        types: *mut u16,
        types_len: usize,
        errors: *mut ErrorRow,
        errors_len: usize,
        log: *mut u16,
        log_len: usize,
        memory: *mut u16,
        memory_len: usize,
        out: *mut u8,
        out_len: usize,
        told: *mut usize,
        told_len: usize,
        places: usize,
        number: u64,
    ) -> usize;
}

pub(crate) fn check(body: &[u8], lent: &mut Lent, told: &mut [usize; TOLD]) -> usize {
    // SAFETY: each pointer and length is that of a Rust slice, so it is not null and aligned, also where the slice is empty. The slices
    // are borrowed for the call, the written ones alone, so none overlaps another. Every bit pattern is a value of their elements.
    unsafe {
        nunthila_check(
            body.as_ptr(),
            body.len(),
            lent.rows.as_mut_ptr(),
            lent.rows.len(),
            lent.cells.as_mut_ptr(),
            lent.cells.len(),
            lent.nodes.as_mut_ptr(),
            lent.nodes.len(),
            lent.vars.as_mut_ptr(),
            lent.vars.len(),
            lent.types.as_mut_ptr(),
            lent.types.len(),
            lent.errors.as_mut_ptr(),
            lent.errors.len(),
            lent.log.as_mut_ptr(),
            lent.log.len(),
            lent.memory.as_mut_ptr(),
            lent.memory.len(),
            told.as_mut_ptr(),
            told.len(),
        )
    }
}

pub(crate) fn report(body: &[u8], lent: &mut Lent, out: &mut [u8], told: &mut [usize; TOLD]) -> usize {
    // SAFETY: as in `check`; `out` is a Rust slice that is borrowed alone, too.
    unsafe {
        nunthila_report(
            body.as_ptr(),
            body.len(),
            lent.rows.as_mut_ptr(),
            lent.rows.len(),
            lent.cells.as_mut_ptr(),
            lent.cells.len(),
            lent.nodes.as_mut_ptr(),
            lent.nodes.len(),
            lent.vars.as_mut_ptr(),
            lent.vars.len(),
            lent.types.as_mut_ptr(),
            lent.types.len(),
            lent.errors.as_mut_ptr(),
            lent.errors.len(),
            lent.log.as_mut_ptr(),
            lent.log.len(),
            lent.memory.as_mut_ptr(),
            lent.memory.len(),
            out.as_mut_ptr(),
            out.len(),
            told.as_mut_ptr(),
            told.len(),
        )
    }
}

pub(crate) fn quarrel(body: &[u8], lent: &mut Lent, out: &mut [u8], told: &mut [usize; TOLD], places: usize) -> usize {
    // SAFETY: as in `report`.
    unsafe {
        nunthila_quarrel(
            body.as_ptr(),
            body.len(),
            lent.rows.as_mut_ptr(),
            lent.rows.len(),
            lent.cells.as_mut_ptr(),
            lent.cells.len(),
            lent.nodes.as_mut_ptr(),
            lent.nodes.len(),
            lent.vars.as_mut_ptr(),
            lent.vars.len(),
            lent.types.as_mut_ptr(),
            lent.types.len(),
            lent.errors.as_mut_ptr(),
            lent.errors.len(),
            lent.log.as_mut_ptr(),
            lent.log.len(),
            lent.memory.as_mut_ptr(),
            lent.memory.len(),
            out.as_mut_ptr(),
            out.len(),
            told.as_mut_ptr(),
            told.len(),
            places,
        )
    }
}

pub(crate) fn shortest(
    body: &[u8],
    lent: &mut Lent,
    out: &mut [u8],
    told: &mut [usize; TOLD],
    places: usize,
    number: u64,
) -> usize {
    // SAFETY: as in `report`.
    unsafe {
        nunthila_shortest(
            body.as_ptr(),
            body.len(),
            lent.rows.as_mut_ptr(),
            lent.rows.len(),
            lent.cells.as_mut_ptr(),
            lent.cells.len(),
            lent.nodes.as_mut_ptr(),
            lent.nodes.len(),
            lent.vars.as_mut_ptr(),
            lent.vars.len(),
            lent.types.as_mut_ptr(),
            lent.types.len(),
            lent.errors.as_mut_ptr(),
            lent.errors.len(),
            lent.log.as_mut_ptr(),
            lent.log.len(),
            lent.memory.as_mut_ptr(),
            lent.memory.len(),
            out.as_mut_ptr(),
            out.len(),
            told.as_mut_ptr(),
            told.len(),
            places,
            number,
        )
    }
}
