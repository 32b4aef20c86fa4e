//! Limits, numbers answered, words of a record and kinds: the library's code, the header and this package have the names
//! and values of the definitions, and none more.

mod common;

use common::definitions::{constants, defined, header, kinds, prefixed, spelled, variants, Names};
use common::definitions::{CLASSES, LIMITS, NUMBERS, RECORD};
use structural::Kind;

/// All of several lists, in which no name stands twice.
fn together(lists: impl IntoIterator<Item = Names>) -> Names {
    let mut all = Names::new();
    for (name, number) in lists.into_iter().flatten() {
        assert_eq!(all.insert(name.clone(), number), None, "{name} stands twice");
    }
    all
}

/// A list without one of its names, and the number of that one.
fn without(name: &str, mut names: Names) -> (Names, u32) {
    let number = names.remove(name).unwrap_or_else(|| panic!("{name} is not there"));
    (names, number)
}

fn one(name: &str, number: u32) -> Names {
    Names::from([(name.to_string(), number)])
}

#[test]
fn numbers_of_the_code() {
    assert_eq!(constants("crates/base/src/number.rt"), defined(NUMBERS));
}

/// The refusals, by which most code answers, are these numbers but 0, which is none.
#[test]
fn refusals_of_the_code() {
    let (refusals, ok) = without("OK", defined(NUMBERS));
    assert_eq!((variants("crates/base/src/refusal.rt", "Refusal"), 0), (refusals, ok));
}

/// What stands for a missing word is one of the records' constants.
#[test]
fn limits_of_the_code() {
    let (limits, missing) = without("MISSING", defined(LIMITS));
    assert_eq!(constants("crates/base/src/limit.rt"), limits);
    assert_eq!(constants("crates/table/src/lib.rt")["MISSING"], missing);
}

/// Words of a record, a string's offset by the name of the string.
fn words() -> Names {
    let (words, _) = without("RECORD_LENGTH", defined(RECORD));
    words.into_iter().map(|(name, word)| (name.trim_end_matches("_OFFSET").to_string(), word)).collect()
}

#[test]
fn words_of_the_code() {
    let (coded, _) = without("MISSING", constants("crates/table/src/lib.rt"));
    assert_eq!(coded, together([words(), one("RECORD", defined(RECORD)["RECORD_LENGTH"])]));
}

#[test]
fn classes_of_the_code() {
    assert_eq!(constants("crates/kind/src/lib.rt"), defined(CLASSES));
}

/// The limits by their names in the header.
const IN_HEADER: [(&str, &[&str]); 5] = [
    ("MOST_BYTES", &["MAX_TEXT", "MAX_POOL"]),
    ("MOST_NODES", &["MAX_NODES"]),
    ("NESTED_LEVELS", &["MAX_NESTED_LEVELS"]),
    ("IMPERATIVE_LEVELS", &["MAX_IMPERATIVE_LEVELS"]),
    ("MISSING", &["NONE", "NO_ANSWER"]),
];

fn limits_in_header() -> Names {
    let limits = defined(LIMITS);
    assert_eq!(limits.len(), IN_HEADER.len());
    together(IN_HEADER.iter().flat_map(|(name, others)| others.iter().map(|other| one(other, limits[*name]))))
}

/// Where the words of an answer stand. No definition has a number for them: there, an answer has fields.
const ANSWER: [(&str, u32); 13] = [
    ("READ_WORDS", 6),
    ("READ_NUMBER", 0),
    ("READ_PLACE", 1),
    ("READ_LINE", 2),
    ("READ_COLUMN", 3),
    ("READ_NODES", 4),
    ("READ_POOL", 5),
    ("CHECK_WORDS", 2),
    ("CHECK_NUMBER", 0),
    ("CHECK_NODE", 1),
    ("PRINT_WORDS", 2),
    ("PRINT_NUMBER", 0),
    ("PRINT_LENGTH", 1),
];

#[test]
fn constants_of_the_header() {
    let (words, length) = without("RECORD_LENGTH", defined(RECORD));
    let record = together([prefixed("NODE_", words), one("NODE_WORDS", length)]);
    let answer = ANSWER.iter().map(|(name, number)| one(name, *number));
    let lists = [defined(NUMBERS), limits_in_header(), record, prefixed("KIND_", kinds()), together(answer)];
    assert_eq!(header(), together(lists));
}

#[test]
fn numbers_of_the_package() {
    let (numbers, no_answer) = without("NO_ANSWER", constants("rust/structural/src/number.rs"));
    assert_eq!((numbers, no_answer), (defined(NUMBERS), defined(LIMITS)["MISSING"]));
}

#[test]
fn limits_of_the_package() {
    let limits = limits_in_header();
    let named = ["MAX_TEXT", "MAX_NODES", "NONE"].map(|name| one(name, limits[name]));
    let length = one("NODE_WORDS", defined(RECORD)["RECORD_LENGTH"]);
    assert_eq!(constants("rust/structural/src/lent.rs"), together(named.into_iter().chain([length])));
}

/// A string's length is the word behind its offset.
#[test]
fn words_of_the_package() {
    let (lengths, others): (Names, Names) = words().into_iter().partition(|(name, _)| name.ends_with("_LENGTH"));
    assert_eq!(constants("rust/structural/src/table.rs"), others);
    let behind = |name: &str| others[name.trim_end_matches("_LENGTH")] + 1;
    assert!(lengths.len() == 3 && lengths.iter().all(|(name, &word)| word == behind(name)), "{lengths:?}");
}

/// Also the names as they are spelled. A text is no list, so that nothing is spelled for it.
#[test]
fn kinds_of_the_package() {
    let (kinds, mut spelled) = (kinds(), spelled());
    spelled.insert(kinds["TEXT"], "text".into());
    let capitals = |kind: Kind| kind.name().to_uppercase().replace('-', "_");
    let own: Names = Kind::ALL.into_iter().map(|kind| (capitals(kind), kind.number())).collect();
    assert_eq!(own, kinds);
    assert!(Kind::ALL.into_iter().all(|kind| spelled[&kind.number()] == kind.name()));
}
