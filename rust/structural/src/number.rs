//! The numbers that reading, the check and printing answer, and what each means.
//!
//! Reading answers 0 to 14 and 19, the check 0, 15 to 18 and 20, printing 0, 20 and 21.

/// Nothing is refused. Reading: the text is a draft; the check: its document is well-formed; printing: the spelling
/// is written.
pub const OK: u32 = 0;
/// The text has more than 65,536 bytes.
pub const TEXT_TOO_LONG: u32 = 1;
/// The text is not UTF-8.
pub const NOT_UTF8: u32 = 2;
/// A character that is forbidden outside strings.
pub const FORBIDDEN_CHARACTER: u32 = 3;
/// A bad escape, or a string that is empty or not closed.
pub const BAD_STRING: u32 = 4;
/// A closing bracket without its partner, or a list that is not closed.
pub const UNPAIRED_BRACKET: u32 = 5;
/// A 65th level of brackets, in the imperative spelling a 60th.
pub const TOO_DEEP: u32 = 6;
/// No expression, or in a nested text a second one.
pub const NOT_ONE_EXPRESSION: u32 = 7;
/// An expression that is not allowed here.
pub const NOT_ALLOWED: u32 = 8;
/// A required parameter is absent, or a verbatim has no content.
pub const ABSENT: u32 = 9;
/// An id, type, target or size is malformed.
pub const MALFORMED: u32 = 10;
/// A child of another sort than the first child.
pub const OTHER_SORT: u32 = 11;
/// An include or import, which is not read.
pub const INCLUDE: u32 = 12;
/// More nodes than 4,096, or than the node words or the place list hold.
pub const NODES_SHORT: u32 = 13;
/// The pool is too short.
pub const POOL_SHORT: u32 = 14;
/// A row has another number of cells than its table's head has names.
pub const ROW_LENGTH: u32 = 15;
/// A block has the id of an earlier block.
pub const REPEATED_ID: u32 = 16;
/// A link's target is the id of no block.
pub const UNKNOWN_TARGET: u32 = 17;
/// A footnote reference's target is the id of no footnote.
pub const UNKNOWN_FOOTNOTE: u32 = 18;
/// Imperative: the nested form would nest more than 64 deep.
pub const NESTED_TOO_DEEP: u32 = 19;
/// Not the table of a draft within the limits, or a count is beyond what is lent.
pub const NOT_A_TABLE: u32 = 20;
/// Printing: the output is too short.
pub const OUTPUT_SHORT: u32 = 21;

/// Returned by the library's functions where the words lent for the answer are too few. [`crate::lent`]
/// always lends enough.
pub const NO_ANSWER: u32 = 4_294_967_295;

const MEANINGS: [&str; 22] = [
    "nothing is refused",
    "the text has more than 65,536 bytes",
    "the text is not UTF-8",
    "a character that is forbidden outside strings",
    "a bad escape, or a string that is empty or not closed",
    "a closing bracket without its partner, or a list that is not closed",
    "a 65th level of brackets, in the imperative spelling a 60th",
    "no expression, or in a nested text a second one",
    "an expression that is not allowed here",
    "a required parameter is absent, or a verbatim has no content",
    "an id, type, target or size is malformed",
    "a child of another sort than the first child",
    "an include or import, which is not read",
    "more nodes than 4,096, or than the node words or the place list hold",
    "the pool is too short",
    "a row has another number of cells than its table's head has names",
    "a block has the id of an earlier block",
    "a link's target is the id of no block",
    "a footnote reference's target is the id of no footnote",
    "imperative: the nested form would nest more than 64 deep",
    "not the table of a draft within the limits",
    "printing: the output is too short",
];

/// What a number means, in words.
///
/// ```
/// use structural::number;
/// assert_eq!(number::meaning(number::UNKNOWN_TARGET), "a link's target is the id of no block");
/// ```
pub fn meaning(number: u32) -> &'static str {
    MEANINGS.get(number as usize).copied().unwrap_or("no number of an answer")
}

/// Whether there is a filled table under this number: 0, and 15 to 18, which the check answers of one.
pub fn fills(number: u32) -> bool {
    number == OK || (ROW_LENGTH..=UNKNOWN_FOOTNOTE).contains(&number)
}
