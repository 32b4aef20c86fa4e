//! Random values: texts, ids, types, URIs, sizes.

use super::rng::Random;

const LETTERS: &[u8] = b"abcdefghijklmnopqrstuvwxyzABCXYZ0189_";

/// Characters at the edges of the rules.
const ODD: &[char] = &[
    '\0',
    '\u{1}',
    '\t',
    '\n',
    '\u{b}',
    '\r',
    '\u{1f}',
    ' ',
    '"',
    '\\',
    '(',
    ')',
    '[',
    ']',
    '\'',
    '/',
    '~',
    '\u{7f}',
    '\u{80}',
    '\u{85}',
    '\u{a0}',
    '\u{e9}',
    '\u{7ff}',
    '\u{800}',
    '\u{2028}',
    '\u{d7ff}',
    '\u{e000}',
    '\u{feff}',
    '\u{fffd}',
    '\u{fffe}',
    '\u{ffff}',
    '\u{10000}',
    '\u{1f600}',
    '\u{fffff}',
    '\u{10ffff}',
];

fn length(random: &mut Random, most: usize) -> usize {
    let long = random.chance(5);
    1 + random.below(if long { 8 * most } else { most })
}

fn letter(random: &mut Random) -> char {
    char::from(random.pick(LETTERS))
}

/// Any scalar value.
fn scalar(random: &mut Random) -> char {
    let most = random.pick(&[0x80, 0x800, 0x1_0000, 0x11_0000]);
    char::from_u32(random.below(most) as u32).unwrap_or('\u{fffd}')
}

/// A text: mostly letters, so that it can be spelled as a symbol, at times with anything.
pub fn text(random: &mut Random) -> String {
    let odd = random.pick(&[0, 0, 0, 10, 50]);
    let length = length(random, 8);
    let character = |_| match random.chance(odd) {
        true if random.chance(70) => random.pick(ODD),
        true => scalar(random),
        false => letter(random),
    };
    (0..length).map(character).collect()
}

/// An id, or the target of a link or footnote-ref.
pub fn id(random: &mut Random) -> String {
    let length = length(random, 6);
    let character = |_| match random.chance(15) {
        true => random.pick(&['-', '.', '_']),
        false => letter(random),
    };
    (0..length).map(character).collect()
}

pub fn class(random: &mut Random) -> String {
    let length = length(random, 5);
    (0..length).map(|_| letter(random)).collect()
}

/// The target of an image or link-ext: bytes 0x21 to 0x7E.
pub fn uri(random: &mut Random) -> String {
    let length = length(random, 8);
    (0..length).map(|_| random.between(0x21, 0x7E) as u8 as char).collect()
}

pub fn measure(random: &mut Random) -> u16 {
    random.pick(&[0, 1, 9, 10, 480, 640, 9_999, 10_000, 65_534, 65_535])
}

/// The name with one change, so that it is nearly the same.
pub fn nearly(random: &mut Random, name: &str) -> String {
    let mut found: Vec<u8> = name.bytes().collect();
    let at = random.below(found.len().max(1));
    match random.below(4) {
        0 if found.len() > 1 => drop(found.remove(at)),
        1 => found.insert(at, b'x'),
        2 if !found.is_empty() => found[at] ^= if found[at].is_ascii_alphabetic() { 0x20 } else { 1 },
        _ => found.push(b'1'),
    }
    String::from_utf8(found).unwrap_or_else(|_| "x".into())
}
