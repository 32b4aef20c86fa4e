//! The names and numbers of this package are those of the definitions, and none more.

mod common;

use common::definitions::{constants, defined, kinds, spelled, Names, LIMITS, NUMBERS, RECORD};
use oracle::Kind;

#[test]
fn limits_numbers_and_words() {
    let lists = [LIMITS, NUMBERS, RECORD].map(defined);
    let count: usize = lists.iter().map(Names::len).sum();
    let all: Names = lists.into_iter().flatten().collect();
    assert_eq!(all.len(), count, "no name stands in two lists");
    assert_eq!(constants("rust/oracle/src/names.rs"), all);
}

/// A text is no list, so that nothing is spelled for it.
#[test]
fn kinds_and_how_they_are_spelled() {
    let (kinds, mut spelled) = (kinds(), spelled());
    spelled.insert(kinds["TEXT"], "text".into());
    for &number in kinds.values() {
        let kind = Kind::from_number(number).unwrap_or_else(|| panic!("no kind has number {number}"));
        assert_eq!((kind.number(), kind.name()), (number, spelled[&number].as_str()));
    }
    let count = (0..=u32::from(u16::MAX)).filter(|&number| Kind::from_number(number).is_some()).count();
    assert_eq!(count, kinds.len());
}
