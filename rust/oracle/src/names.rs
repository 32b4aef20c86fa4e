//! Limits, numbers answered and words of a record, each named once. Names are those of the definitions; the values are
//! written a second time, from document 01, and `tests/names.rs` compares them.

// "Characters and brackets": the bytes of a text and of a pool, nodes, and levels of brackets in either spelling.
pub const MOST_BYTES: usize = 65_536;
pub const MOST_NODES: usize = 4_096;
pub const NESTED_LEVELS: usize = 64;
pub const IMPERATIVE_LEVELS: usize = 59;

/// The root's parent, a missing width or height, and what a call returns that has no room for its answer.
pub const MISSING: u32 = 4_294_967_295;

// "Numbers answered".
pub const OK: u32 = 0;
pub const TEXT_TOO_LONG: u32 = 1;
pub const NOT_UTF8: u32 = 2;
pub const FORBIDDEN_CHARACTER: u32 = 3;
pub const BAD_STRING: u32 = 4;
pub const UNPAIRED_BRACKET: u32 = 5;
pub const TOO_DEEP: u32 = 6;
pub const NOT_ONE_EXPRESSION: u32 = 7;
pub const NOT_ALLOWED: u32 = 8;
pub const ABSENT: u32 = 9;
pub const MALFORMED: u32 = 10;
pub const OTHER_SORT: u32 = 11;
pub const INCLUDE: u32 = 12;
pub const NODES_SHORT: u32 = 13;
pub const POOL_SHORT: u32 = 14;
pub const ROW_LENGTH: u32 = 15;
pub const REPEATED_ID: u32 = 16;
pub const UNKNOWN_TARGET: u32 = 17;
pub const UNKNOWN_FOOTNOTE: u32 = 18;
pub const NESTED_TOO_DEEP: u32 = 19;
pub const NOT_A_TABLE: u32 = 20;
pub const OUTPUT_SHORT: u32 = 21;

// "The table": how many words a record has, and which word is what. A string has two, its offset and its length.
pub const RECORD_LENGTH: usize = 11;
pub const KIND: usize = 0;
pub const PARENT: usize = 1;
pub const END: usize = 2;
pub const KEY_OFFSET: usize = 3;
pub const KEY_LENGTH: usize = 4;
pub const TYPE_OFFSET: usize = 5;
pub const TYPE_LENGTH: usize = 6;
pub const TEXT_OFFSET: usize = 7;
pub const TEXT_LENGTH: usize = 8;
pub const WIDTH: usize = 9;
pub const HEIGHT: usize = 10;
