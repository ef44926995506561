//! The numbers of the answers.

/// The body was typed; it may have type errors.
pub const CHECKED: usize = 0;
/// The body has more than 65,536 bytes. No table is changed.
pub const TOO_LONG: usize = 1;
/// A table is below its length. No table is changed.
pub const SHORT_TABLE: usize = 2;
/// A line is not of the form or order. The place is the line, from 1.
pub const FORM: usize = 3;
/// A count is over a limit. The place is the line.
pub const LIMIT: usize = 4;
/// A number breaks a reference rule. The place is the line.
pub const REFERENCE: usize = 5;
/// There are too many levels. The place is the line.
pub const LEVELS: usize = 6;
/// The output is too short for the text. There is no place. Not of `check`.
pub const NO_ROOM: usize = 9;
/// A string, or a path that has no type. The place is the node.
pub const NO_RULE: usize = 10;
/// A local that is not yet typed. The place is the node.
pub const UNTYPED_LOCAL: usize = 11;
/// A variable that would stand inside its own binding. The place is the node. Of `check` and `report` alone.
pub const INSIDE_ITSELF: usize = 12;
/// A negated number that would not be a signed integer. The place is the node.
pub const NEGATED: usize = 13;
/// No equation failed, or one up to the first that did has a side that is not plain. Of `quarrel` and `shortest` alone.
pub const NOTHING: usize = 14;
