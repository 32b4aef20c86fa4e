//! Numbers that have names: those of the definitions, each defined once, and those of the files that repeat them.

use super::repository::string;
use std::collections::BTreeMap;

pub const LIMITS: &str = "crates/base/specs/rules/Limits.antt";
pub const NUMBERS: &str = "crates/base/specs/rules/Numbers.antt";
pub const RECORD: &str = "crates/document/specs/rules/Record.antt";
pub const CLASSES: &str = "crates/elements/specs/rules/Class.antt";

/// The last class that is a kind; those of parameters, include and import follow.
const LAST_KIND: u32 = 25;

/// Numbers by name, in capitals with underscores.
pub type Names = BTreeMap<String, u32>;

/// The name of a definition as that of a constant: `text_too_long` is `TEXT_TOO_LONG`.
fn in_capitals(name: &str) -> String {
    name.to_ascii_uppercase()
}

/// What a file of definitions names: `abbrev pub NAME : ℕ`, and on the next line `NAME = NUMBER`.
pub fn defined(name: &str) -> Names {
    let text = string(name);
    let lines: Vec<&str> = text.lines().collect();
    let names: Names = lines.windows(2).filter_map(|pair| definition(pair[0], pair[1])).collect();
    let started = lines.iter().filter(|line| line.starts_with("abbrev ")).count();
    assert!(
        names.len() == started && started > 0,
        "{name} has {started} abbreviations, of which {names:?} are numbers"
    );
    names
}

fn definition(first: &str, second: &str) -> Option<(String, u32)> {
    let name = first.strip_prefix("abbrev pub ")?.strip_suffix(" : ℕ")?;
    let (left, number) = second.split_once(" = ")?;
    (left == name).then_some((in_capitals(name), number.parse().ok()?))
}

/// The kinds by name.
pub fn kinds() -> Names {
    defined(CLASSES).into_iter().filter(|(_, class)| *class <= LAST_KIND).collect()
}

/// The name of each class as it is spelled in a text: `as_name CLASS "NAME"`. A text is no list, and has none.
pub fn spelled() -> BTreeMap<u32, String> {
    let classes = defined(CLASSES);
    let text = string(CLASSES);
    let named = text.lines().filter_map(|line| line.split_once("as_name ")?.1.strip_suffix('"')?.split_once(" \""));
    named.map(|(class, name)| (classes[&in_capitals(class)], name.to_string())).collect()
}

/// The constants of a file of code that are numbers, `const NAME: u32 = NUMBER;`, or hold one, `{ number: NUMBER }`. One that
/// is the number of a kind, `Kind::NAME.number as usize`, has it from there, and is left out.
pub fn constants(name: &str) -> Names {
    string(name).lines().filter_map(constant).collect()
}

fn constant(line: &str) -> Option<(String, u32)> {
    let line = line.trim_start();
    let (name, rest) = line.strip_prefix("pub ").unwrap_or(line).strip_prefix("const ")?.split_once(": ")?;
    let (sort, value) = rest.strip_suffix(';')?.split_once(" = ")?;
    if value == format!("Kind::{name}.number as usize") {
        return None;
    }
    let number = match sort {
        "u8" | "u32" | "usize" => value,
        _ => value.split_once("{ number: ")?.1.strip_suffix(" }")?,
    };
    Some((name.to_string(), number.replace('_', "").parse().unwrap_or_else(|_| panic!("no plain number: {line}"))))
}

/// The variants of an enum of a file of code: the first has its number behind it, `NAME = NUMBER`, and each other the next.
pub fn variants(name: &str, of: &str) -> Names {
    let text = string(name);
    let (_, rest) = text.split_once(&format!("pub enum {of} {{")).unwrap_or_else(|| panic!("{name} has no enum {of}"));
    let (body, _) = rest.split_once('}').unwrap_or_else(|| panic!("{of} has no end"));
    let mut named = body.split(',').map(str::trim).filter(|variant| !variant.is_empty());
    let first = named.next().and_then(|variant| variant.split_once(" = "));
    let (first, number) = first.unwrap_or_else(|| panic!("{of} begins with no number"));
    let number: u32 = number.parse().unwrap_or_else(|_| panic!("no plain number: {number}"));
    (number..).zip(std::iter::once(first).chain(named)).map(|(number, variant)| (words_of(variant), number)).collect()
}

/// The name of a variant as that of a constant: `TextTooLong` is `TEXT_TOO_LONG`.
fn words_of(variant: &str) -> String {
    let parted = variant.char_indices().flat_map(|(i, c)| {
        let before = (c.is_ascii_uppercase() && i > 0).then_some('_');
        before.into_iter().chain([c.to_ascii_uppercase()])
    });
    parted.collect()
}

/// The constants of the header, without the prefix that all have.
pub fn header() -> Names {
    let header = string("include/structural.h");
    let defined = header.lines().filter_map(|line| line.strip_prefix("#define STRUCTURAL_"));
    defined.filter_map(macro_of_header).collect()
}

/// The macro against including the header twice has no value.
fn macro_of_header(line: &str) -> Option<(String, u32)> {
    let mut words = line.split_whitespace();
    let (name, value) = (words.next()?, words.next()?);
    let number = value.strip_suffix('u').and_then(|number| number.parse().ok());
    Some((name.to_string(), number.unwrap_or_else(|| panic!("no plain number: {line}"))))
}

/// The same numbers, each name with these letters before it.
pub fn prefixed(prefix: &str, names: Names) -> Names {
    names.into_iter().map(|(name, number)| (format!("{prefix}{name}"), number)).collect()
}
