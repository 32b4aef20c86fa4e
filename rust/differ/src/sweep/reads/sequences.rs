//! UTF-8: every sequence of two bytes, longer ones with every first and second byte, all characters, and cut sequences.

use super::frame::{expect, framed, TITLE};
use crate::sweep::must::Must;
use crate::sweep::sweeper::Sweeper;

pub fn sweep(sweeper: &mut Sweeper) {
    two(sweeper);
    three(sweeper);
    four(sweeper);
    cuts(sweeper);
    broken(sweeper);
    characters(sweeper);
}

fn quoted(inside: &[u8]) -> Vec<u8> {
    framed(TITLE, false, &[b"\"", inside, b"\""].concat())
}

/// Good are 126 * 126 of ASCII but quote and backslash, `\r \n \t \"`, and C2 to DF before 80 to BF.
fn two(sweeper: &mut Sweeper) {
    let must = Must::meet(65_536, 126 * 126 + 4 + 30 * 64, &[0, 2, 4]);
    sweeper.reads("two bytes", must, |reads| {
        for (first, second) in (0..=255).flat_map(|first| (0..=255).map(move |second| (first, second))) {
            reads.text(false, &quoted(&[first, second]));
        }
    });
}

/// Bytes on either side of 80 to BF.
const LATER: [u8; 4] = [0x7F, 0x80, 0xBF, 0xC0];

/// After E0 only A0 to BF are good, after ED only 80 to 9F, and after the 14 others all 64; two of the last bytes are.
fn three(sweeper: &mut Sweeper) {
    let must = Must::meet(16 * 256 * 4, (32 + 32 + 14 * 64) * 2, &[0, 2]);
    sweeper.reads("three bytes", must, |reads| {
        for (first, second) in (0xE0..=0xEF).flat_map(|first| (0..=255).map(move |second| (first, second))) {
            LATER.iter().for_each(|&third| reads.text(false, &quoted(&[first, second, third])));
        }
    });
}

/// After F0 only 90 to BF are good, after F4 only 80 to 8F, after F1 to F3 all 64, and F5 to FF begin nothing.
fn four(sweeper: &mut Sweeper) {
    let must = Must::meet(16 * 256 * 16, (48 + 16 + 3 * 64) * 4, &[0, 2]);
    sweeper.reads("four bytes", must, |reads| {
        for (first, second) in (0xF0..=0xFF).flat_map(|first| (0..=255).map(move |second| (first, second))) {
            for (third, fourth) in LATER.into_iter().flat_map(|third| LATER.map(|fourth| (third, fourth))) {
                reads.text(false, &quoted(&[first, second, third, fourth]));
            }
        }
    });
}

/// The first and the last character of each length, and those around the surrogates.
const CHARACTERS: [char; 9] =
    ['\u{80}', '\u{7FF}', '\u{800}', '\u{D7FF}', '\u{E000}', '\u{FFFF}', '\u{10000}', '\u{FFFFF}', '\u{10FFFF}'];

/// The text ends in a character, or something else follows it, after each of its bytes but the last.
fn cuts(sweeper: &mut Sweeper) {
    let cut_bytes: u64 = 1 + 1 + 2 + 2 + 2 + 2 + 3 + 3 + 3;
    let must = Must::meet(2 * 3 * cut_bytes, 0, &[2]);
    sweeper.reads("characters cut off", must, |reads| {
        for character in CHARACTERS.map(|character| character.to_string().into_bytes()) {
            for end in 1..character.len() {
                expect(reads, 2, ["[document [title \"@"; 2], &character[..end]);
                expect(reads, 2, ["[document [title @]]"; 2], &character[..end]);
                expect(reads, 2, ["@\u{e9}[document [title A]]"; 2], &character[..end]);
            }
        }
    });
}

/// How many bytes may stand in place of each byte of those characters: as many first bytes as go with the second, and as many
/// second bytes as go with the first, and 64 later on.
const OTHER_BYTES: u64 =
    2 * (30 + 64) + 2 * (15 + 32 + 64) + 2 * (15 + 64 + 64) + (4 + 48 + 128) + (4 + 64 + 128) + (4 + 16 + 128);

/// Every byte in place of each byte of a character.
fn broken(sweeper: &mut Sweeper) {
    let bytes = 2 + 2 + 3 + 3 + 3 + 3 + 4 + 4 + 4;
    sweeper.reads("characters broken", Must::meet(256 * bytes, OTHER_BYTES, &[0, 2]), |reads| {
        for character in CHARACTERS.map(|character| character.to_string().into_bytes()) {
            for (place, byte) in (0..character.len()).flat_map(|place| (0..=255).map(move |byte| (place, byte))) {
                let mut broken = character.clone();
                broken[place] = byte;
                reads.text(false, &quoted(&broken));
            }
        }
    });
}

/// How many characters stand in one text.
const TOGETHER: u32 = 256;

/// All characters, raw in strings (but quote and backslash), and from U+0080 on in symbols.
fn characters(sweeper: &mut Sweeper) {
    let texts = 0x11_0000 / 256 - 0x800 / 256;
    let must = Must::meet(texts, texts, &[0]);
    sweeper.reads("all characters, strings", must, |reads| {
        for characters in all() {
            reads.expect(0, false, &quoted(characters.replace(['"', '\\'], "").as_bytes()));
        }
    });
    let must = Must::meet(texts, texts, &[0]);
    sweeper.reads("all characters, symbols", must, |reads| {
        for characters in all() {
            let symbol: String = characters.chars().filter(|character| !character.is_ascii()).collect();
            reads.expect(0, true, &framed(TITLE, true, symbol.as_bytes()));
        }
    });
}

/// All scalar values in order, so many together; none of the surrogates is one.
fn all() -> impl Iterator<Item = String> {
    let firsts = (0..0x11_0000).step_by(TOGETHER as usize);
    let together = firsts.map(|first| (first..first + TOGETHER).filter_map(char::from_u32).collect::<String>());
    together.filter(|characters| !characters.is_empty())
}
