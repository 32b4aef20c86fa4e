//! Every byte in every kind of value: as a symbol, raw in a string, and by its number.

use super::frame::{among, expect, Among, Frame, AMONG};
use crate::sweep::must::Must;
use crate::sweep::reading::Reads;
use crate::sweep::sweeper::Sweeper;

/// A kind of value.
struct Value {
    name: &'static str,
    frame: Frame,
    sort: fn(u8) -> bool,
    /// How many bytes of the sort there are, of which so many can stand in a symbol and so many raw in a string. None
    /// may come from a string where the value is a symbol only.
    by_number: u64,
    in_symbol: u64,
    in_string: u64,
    /// What a value of good characters is answered by: a link or reference to nothing is 17 or 18.
    good: u32,
    /// Two good characters.
    characters: [&'static [u8]; 2],
}

const VALUES: [Value; 8] = [
    // ASCII letters, digits, and `_`, `-`, `.`.
    Value {
        name: "id",
        frame: ["[document [title A] [id @]]"; 2],
        sort: of_id,
        by_number: 65,
        in_symbol: 65,
        in_string: 65,
        good: 0,
        characters: [b"a", b"c"],
    },
    Value {
        name: "target of link",
        frame: [
            "[document [title A] [section [title B] [paragraph [link [target @]]]]]",
            "[document [title A]] [section [title B]] [paragraph] [link [target @]]",
        ],
        sort: of_id,
        by_number: 65,
        in_symbol: 65,
        in_string: 65,
        good: 17,
        characters: [b"a", b"c"],
    },
    Value {
        name: "target of footnote-ref",
        frame: [
            "[document [title A] [section [title B] [paragraph [footnote-ref [target @]]]]]",
            "[document [title A]] [section [title B]] [paragraph] [footnote-ref [target @]]",
        ],
        sort: of_id,
        by_number: 65,
        in_symbol: 65,
        in_string: 65,
        good: 18,
        characters: [b"Z", b"9"],
    },
    // ASCII letters, digits, and `_`, in a symbol only.
    Value {
        name: "type",
        frame: [
            "[document [title A] [section [title B] [paragraph [term [type @]]]]]",
            "[document [title A]] [section [title B]] [paragraph [type @]]",
        ],
        sort: of_type,
        by_number: 0,
        in_symbol: 63,
        in_string: 0,
        good: 0,
        characters: [b"a", b"c"],
    },
    // 0x21 to 0x7E, in a symbol without quote and brackets, raw in a string without quote and backslash.
    Value {
        name: "target of image",
        frame: [
            "[document [title A] [section [title B] [paragraph [image [target @]]]]]",
            "[document [title A]] [section [title B]] [paragraph] [image [target @]]",
        ],
        sort: of_uri,
        by_number: 94,
        in_symbol: 89,
        in_string: 92,
        good: 0,
        characters: [b"a", b"c"],
    },
    Value {
        name: "target of link-ext",
        frame: [
            "[document [title A] [section [title B] [paragraph [link-ext [target @]]]]]",
            "[document [title A]] [section [title B]] [paragraph] [link-ext [target @]]",
        ],
        sort: of_uri,
        by_number: 94,
        in_symbol: 89,
        in_string: 92,
        good: 0,
        characters: [b"~", b"!"],
    },
    // Digits, in a symbol only.
    Value {
        name: "width",
        frame: [
            "[document [title A] [section [title B] [paragraph [image [target u] [size @ 1]]]]]",
            "[document [title A]] [section [title B]] [paragraph] [image [target u] [size @ 1]]",
        ],
        sort: of_size,
        by_number: 0,
        in_symbol: 10,
        in_string: 0,
        good: 0,
        characters: [b"1", b"2"],
    },
    Value {
        name: "height",
        frame: [
            "[document [title A] [section [title B] [paragraph [image [target u] [size 1 @]]]]]",
            "[document [title A]] [section [title B]] [paragraph] [image [target u] [size 1 @]]",
        ],
        sort: of_size,
        by_number: 0,
        in_symbol: 10,
        in_string: 0,
        good: 0,
        characters: [b"1", b"2"],
    },
];

fn of_id(byte: u8) -> bool {
    matches!(byte, b'A'..=b'Z' | b'a'..=b'z' | b'0'..=b'9' | b'_' | b'-' | b'.')
}

fn of_type(byte: u8) -> bool {
    matches!(byte, b'A'..=b'Z' | b'a'..=b'z' | b'0'..=b'9' | b'_')
}

fn of_uri(byte: u8) -> bool {
    matches!(byte, 0x21..=0x7E)
}

fn of_size(byte: u8) -> bool {
    byte.is_ascii_digit()
}

/// Every byte, at four places among good ones, in both spellings.
const CALLS: u64 = 256 * 4 * 2;

pub fn sweep(sweeper: &mut Sweeper) {
    for value in &VALUES {
        symbols(sweeper, value);
        strings(sweeper, value);
        numbers(sweeper, value);
    }
}

/// White space before or behind a good character is no part of the value: three more at two of the four places.
fn symbols(sweeper: &mut Sweeper, value: &Value) {
    let well = 2 * (4 * value.in_symbol + 2 * 3);
    let must = Must::meet(CALLS, well, &[value.good, 2, 3, 4, 5, 10]);
    sweeper.reads(&format!("bytes of a symbol, {}", value.name), must, |reads| {
        for (byte, place) in bytes() {
            let piece = among(place, value.characters, &[byte], b"");
            expect(reads, of_symbol(value, byte, place), value.frame, &piece);
        }
    });
}

fn strings(sweeper: &mut Sweeper, value: &Value) {
    let must = value.must(value.in_string, &[2, 4, 10]);
    sweeper.reads(&format!("bytes of a string, {}", value.name), must, |reads| {
        for (byte, place) in bytes() {
            let piece = among(place, value.characters, &[byte], b"\"");
            expect(reads, of_string(value, byte), value.frame, &piece);
        }
    });
}

/// `\u00XX`, and `\u01XX`, whose last byte alone would be good at times.
fn numbers(sweeper: &mut Sweeper, value: &Value) {
    let must = value.must(value.by_number, &[10]);
    sweeper.reads(&format!("bytes by number, {}", value.name), must, |reads| by_number(reads, value, 0));
    let must = Must::meet(CALLS, 0, &[10]);
    sweeper.reads(&format!("characters by number, {}", value.name), must, |reads| by_number(reads, value, 1));
}

fn by_number(reads: &mut Reads, value: &Value, high: u8) {
    for (byte, place) in bytes() {
        let piece = among(place, value.characters, format!("\\u{high:02x}{byte:02x}").as_bytes(), b"\"");
        let number = if high == 0 { value.of_string(byte) } else { 10 };
        expect(reads, number, value.frame, &piece);
    }
}

fn bytes() -> impl Iterator<Item = (u8, Among)> {
    (0..=255).flat_map(|byte| AMONG.into_iter().map(move |place| (byte, place)))
}

/// Of a symbol with that byte among good ones. White space alone leaves no value, and between two characters there
/// are two values.
fn of_symbol(value: &Value, byte: u8, place: Among) -> u32 {
    match byte {
        0x80.. => 2,
        b'\t' | b'\n' | b' ' if matches!(place, Among::Alone | Among::Between) => 10,
        b'\t' | b'\n' | b' ' => value.good,
        ..b' ' => 3,
        b'"' => 4,
        b'(' | b')' | b'[' | b']' => 5,
        _ if (value.sort)(byte) => value.good,
        _ => 10,
    }
}

/// Of a string with that byte, raw, among good ones. A quote or a backslash leaves it empty, unclosed or with a bad escape.
fn of_string(value: &Value, byte: u8) -> u32 {
    match byte {
        0x80.. => 2,
        b'"' | b'\\' => 4,
        _ => value.of_string(byte),
    }
}

impl Value {
    /// Of a string with that byte among good ones, however it is spelled.
    fn of_string(&self, byte: u8) -> u32 {
        match self.by_number > 0 && (self.sort)(byte) {
            true => self.good,
            false => 10,
        }
    }

    /// For groups of strings, of which those with so many bytes are good.
    fn must(&self, good: u64, refusals: &[u32]) -> Must {
        let mut numbers = refusals.to_vec();
        if good > 0 {
            numbers.push(self.good);
        }
        Must::meet(CALLS, 2 * 4 * good, &numbers)
    }
}
