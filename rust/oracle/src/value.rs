//! The value of a symbol or quoted string whose spelling the scan has accepted.

use crate::find::backslash;

/// A stretch of a value: bytes that stand for themselves, or one escaped character.
enum Piece<'t> {
    Raw(&'t [u8]),
    Escaped(char),
}

struct Pieces<'t> {
    rest: &'t [u8],
    quoted: bool,
}

/// The pieces of a symbol, or of a string with its quotes.
fn pieces(spelled: &[u8]) -> Pieces<'_> {
    match spelled {
        [b'"', inner @ .., b'"'] => Pieces { rest: inner, quoted: true },
        // A symbol has no escapes: a backslash stands for itself.
        _ => Pieces { rest: spelled, quoted: false },
    }
}

impl<'t> Iterator for Pieces<'t> {
    type Item = Piece<'t>;

    fn next(&mut self) -> Option<Piece<'t>> {
        if self.rest.is_empty() {
            return None;
        }
        let raw = match self.quoted {
            true => backslash(self.rest).unwrap_or(self.rest.len()),
            false => self.rest.len(),
        };
        let (piece, used) = match raw {
            0 => escaped(self.rest),
            _ => (Piece::Raw(&self.rest[..raw]), raw),
        };
        self.rest = &self.rest[used..];
        Some(piece)
    }
}

fn escaped(rest: &[u8]) -> (Piece<'_>, usize) {
    match rest[1] {
        b'r' => (Piece::Escaped('\r'), 2),
        b'n' => (Piece::Escaped('\n'), 2),
        b't' => (Piece::Escaped('\t'), 2),
        b'"' => (Piece::Escaped('"'), 2),
        _ => (Piece::Escaped(four_digits(&rest[2..6])), 6),
    }
}

fn four_digits(digits: &[u8]) -> char {
    let code = digits.iter().fold(0, |code, &digit| code * 16 + (digit as char).to_digit(16).unwrap());
    char::from_u32(code).unwrap()
}

/// Bytes of the decoded value.
pub fn decoded_length(spelled: &[u8]) -> usize {
    let length = |piece| match piece {
        Piece::Raw(raw) => raw.len(),
        Piece::Escaped(character) => character.len_utf8(),
    };
    pieces(spelled).map(length).sum()
}

/// Writes the decoded value to the start of `out` and answers its length.
pub fn decode(spelled: &[u8], out: &mut [u8]) -> usize {
    let mut used = 0;
    for piece in pieces(spelled) {
        used += match piece {
            Piece::Raw(raw) => {
                out[used..used + raw.len()].copy_from_slice(raw);
                raw.len()
            }
            Piece::Escaped(character) => character.encode_utf8(&mut out[used..]).len(),
        };
    }
    used
}

/// Is every character of the value ASCII and of that sort?
pub fn consists_of(spelled: &[u8], sort: fn(u8) -> bool) -> bool {
    pieces(spelled).all(|piece| match piece {
        Piece::Raw(raw) => raw.iter().all(|&byte| sort(byte)),
        Piece::Escaped(character) => character.is_ascii() && sort(character as u8),
    })
}

/// A width or height: one to five decimal digits, at most 65,535.
pub fn measure(symbol: &[u8]) -> Option<u32> {
    if symbol.len() > 5 || !symbol.iter().all(u8::is_ascii_digit) {
        return None;
    }
    let number = symbol.iter().fold(0, |number, &digit| number * 10 + u32::from(digit - b'0'));
    (number <= 65_535).then_some(number)
}
