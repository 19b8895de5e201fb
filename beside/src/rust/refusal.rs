//! The numbers of document 01's table that this side gives, and those of document 02 for runs.

/// A job cut short, an unknown mark, or a record out of sequence.
pub const RECORD: u8 = 2;
pub const LIMIT: u8 = 3;
/// No children, fewer parentless nodes than named, or not one root.
pub const TREE: u8 = 4;
/// Concat children of unequal width, or pack fields of unequal rows.
pub const UNEQUAL: u8 = 5;
pub const TWO_ROW_COUNTS: u8 = 6;
pub const TOO_MANY_ROWS: u8 = 7;
pub const SPLIT_RANGE: u8 = 8;
pub const NOT_IN_FLIGHT: u8 = 10;
pub const WRONG_ROWS: u8 = 11;
/// A state all zero, as 13 and 14 leave it.
pub const STATE: u8 = 12;
pub const STUCK: u8 = 13;
pub const ERROR: u8 = 14;
pub const EMPTY_RUN: u8 = 17;
/// A run that starts before the end of the run before.
pub const EARLY_RUN: u8 = 18;
/// A run that passes the split's end.
pub const LONG_RUN: u8 = 19;
