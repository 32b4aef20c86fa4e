//! Texts around what is swept.

use crate::sweep::reading::Reads;

/// Both spellings; true for imperative.
pub const SPELLINGS: [bool; 2] = [false, true];

/// A nested and an imperative text, with `@` where something stands.
pub type Frame = [&'static str; 2];

/// In a title.
pub const TITLE: Frame = ["[document [title @]]"; 2];

/// In a paragraph.
pub const PARAGRAPH: Frame = [
    "[document [title A] [section [title B] [paragraph @]]]",
    "[document [title A]] [section [title B]] [paragraph] @",
];

/// The text in that spelling, with the piece wherever `@` stands.
pub fn framed(frame: Frame, imperative: bool, piece: &[u8]) -> Vec<u8> {
    let parts: Vec<&[u8]> = frame[usize::from(imperative)].as_bytes().split(|&byte| byte == b'@').collect();
    parts.join(piece)
}

/// The piece in both spellings, which has to be answered by that number.
pub fn expect(reads: &mut Reads, number: u32, frame: Frame, piece: &[u8]) {
    SPELLINGS.into_iter().for_each(|imperative| reads.expect(number, imperative, &framed(frame, imperative, piece)));
}

/// The piece in both spellings.
pub fn read(reads: &mut Reads, frame: Frame, piece: &[u8]) {
    SPELLINGS.into_iter().for_each(|imperative| reads.text(imperative, &framed(frame, imperative, piece)));
}

/// Where a piece stands among two good characters: alone, between them, before or behind one.
#[derive(Clone, Copy, PartialEq, Eq)]
pub enum Among {
    Alone,
    Between,
    Before,
    Behind,
}

pub const AMONG: [Among; 4] = [Among::Alone, Among::Between, Among::Before, Among::Behind];

/// The piece among good characters, and around all of it a quote or nothing.
pub fn among(place: Among, [first, second]: [&[u8]; 2], piece: &[u8], around: &[u8]) -> Vec<u8> {
    let (before, behind): (&[u8], &[u8]) = match place {
        Among::Alone => (b"", b""),
        Among::Between => (first, second),
        Among::Before => (b"", second),
        Among::Behind => (first, b""),
    };
    [around, before, piece, behind, around].concat()
}
