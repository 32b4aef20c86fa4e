//! Every byte in texts: in a symbol, raw in a string, after a backslash, and at every place of a run of letters.

use super::frame::{among, expect, framed, Frame, AMONG, PARAGRAPH, TITLE};
use crate::sweep::must::Must;
use crate::sweep::sweeper::Sweeper;

const FRAMES: [(&str, Frame); 2] = [("a title", TITLE), ("a paragraph", PARAGRAPH)];

/// Every byte, at four places among good ones, in both spellings.
const CALLS: u64 = 256 * 4 * 2;

pub fn sweep(sweeper: &mut Sweeper) {
    for (name, frame) in FRAMES {
        symbols(sweeper, name, frame);
        strings(sweeper, name, frame);
        escapes(sweeper, name, frame);
    }
    runs(sweeper);
}

/// 0x20 to 0x7F but quote and brackets, and two more of white space: 96 - 5 + 2.
fn symbols(sweeper: &mut Sweeper, name: &str, frame: Frame) {
    let must = Must::meet(CALLS, 2 * 4 * 93, &[0, 2, 3, 4, 5]);
    sweeper.reads(&format!("bytes of a symbol, {name}"), must, |reads| {
        for (byte, place) in (0..=255).flat_map(|byte| AMONG.map(|place| (byte, place))) {
            expect(reads, of_symbol(byte), frame, &among(place, [b"x", b"y"], &[byte], b""));
        }
    });
}

/// 0 to 0x7F but quote and backslash.
fn strings(sweeper: &mut Sweeper, name: &str, frame: Frame) {
    let must = Must::meet(CALLS, 2 * 4 * 126, &[0, 2, 4]);
    sweeper.reads(&format!("bytes of a string, {name}"), must, |reads| {
        for (byte, place) in (0..=255).flat_map(|byte| AMONG.map(|place| (byte, place))) {
            expect(reads, of_string(byte), frame, &among(place, [b"x", b"y"], &[byte], b"\""));
        }
    });
}

/// `\r \n \t \"`; with `\u` no four digits follow.
fn escapes(sweeper: &mut Sweeper, name: &str, frame: Frame) {
    let must = Must::meet(CALLS, 2 * 4 * 4, &[0, 2, 4]);
    sweeper.reads(&format!("bytes after a backslash, {name}"), must, |reads| {
        for (byte, place) in (0..=255).flat_map(|byte| AMONG.map(|place| (byte, place))) {
            let number = match byte {
                0x80.. => 2,
                b'r' | b'n' | b't' | b'"' => 0,
                _ => 4,
            };
            expect(reads, number, frame, &among(place, [b"x", b"y"], &[b'\\', byte], b"\""));
        }
    });
}

/// What a byte in a symbol of a title is answered by; white space parts the symbol.
fn of_symbol(byte: u8) -> u32 {
    match byte {
        0x80.. => 2,
        b'\t' | b'\n' => 0,
        ..b' ' => 3,
        b'"' => 4,
        b'(' | b')' | b'[' | b']' => 5,
        _ => 0,
    }
}

/// What a byte, raw in a string of a title, is answered by.
fn of_string(byte: u8) -> u32 {
    match byte {
        0x80.. => 2,
        b'"' | b'\\' => 4,
        _ => 0,
    }
}

/// Lengths of runs of letters, around those of the blocks in which bytes may be looked at.
const RUNS: [usize; 4] = [8, 16, 17, 33];
const PLACES: u64 = 8 + 16 + 17 + 33;

/// Every byte at every place of a run of letters.
fn runs(sweeper: &mut Sweeper) {
    let must = Must::meet(PLACES * 256, PLACES * 93, &[0, 2, 3, 4, 5]);
    sweeper.reads("bytes in a run, symbol", must, |reads| {
        for (run, byte) in all_runs() {
            reads.expect(of_symbol(byte), false, &framed(TITLE, false, &run));
        }
    });
    let must = Must::meet(PLACES * 256, PLACES * 126, &[0, 2, 4]);
    sweeper.reads("bytes in a run, string", must, |reads| {
        for (run, byte) in all_runs() {
            reads.expect(of_string(byte), true, &framed(TITLE, true, &[b"\"", &run[..], b"\""].concat()));
        }
    });
}

fn all_runs() -> impl Iterator<Item = (Vec<u8>, u8)> {
    let places = RUNS.into_iter().flat_map(|length| (0..length).map(move |place| (length, place)));
    places.flat_map(|(length, place)| (0..=255).map(move |byte| (run(length, place, byte), byte)))
}

/// Letters that tell their place, and the byte at its own. None of them makes an escape after a backslash.
fn run(length: usize, place: usize, byte: u8) -> Vec<u8> {
    let letter = |at: usize| if at == place { byte } else { b'A' + (at % 26) as u8 };
    (0..length).map(letter).collect()
}
