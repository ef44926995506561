//! How long the lent tables are.

/// The length of each table, in elements: `u16` cells, and rows of [`ErrorRow`](crate::ErrorRow) for `errors`.
#[derive(Clone, Copy, Debug, PartialEq, Eq)]
pub struct Lengths {
    /// Cells for the lines of the file, five for each.
    pub rows: usize,
    /// Cells for the fields of the file, three for each.
    pub cells: usize,
    /// Cells for the types of the nodes, six for each.
    pub nodes: usize,
    /// Cells for the variables, six for each.
    pub vars: usize,
    /// Cells for the made types, five for each of 4,096, and their inputs behind them.
    pub types: usize,
    /// Rows for the type errors.
    pub errors: usize,
    /// Cells for the equations, three for each. Any length is enough; a body raises at most 2,048 equations.
    pub log: usize,
    /// Cells of working memory.
    pub memory: usize,
}

impl Lengths {
    /// The least lengths with which no body is answered 2. The log has no cells.
    pub const fn required() -> Self {
        Self {
            rows: 9_605,
            cells: 94_716,
            nodes: 6_144,
            vars: 6_144,
            types: 21_504,
            errors: 4_096,
            log: 0,
            memory: 86_946,
        }
    }
}
