//! Escapes by number: every code, every byte as each digit, surrogates, and escapes that are cut off.

use super::frame::{expect, framed, TITLE};
use crate::sweep::must::Must;
use crate::sweep::sweeper::Sweeper;

pub fn sweep(sweeper: &mut Sweeper) {
    codes(sweeper);
    digits(sweeper);
    cases(sweeper);
    pairs(sweeper);
    cuts(sweeper);
    forms(sweeper);
}

/// A title of one string.
fn quoted(inside: &str) -> String {
    format!("\"{inside}\"")
}

fn is_surrogate(code: u32) -> bool {
    (0xD800..=0xDFFF).contains(&code)
}

/// All codes of four digits; 2,048 are surrogates.
fn codes(sweeper: &mut Sweeper) {
    let must = Must::meet(65_536, 65_536 - 2_048, &[0, 4]);
    sweeper.reads("codes by number, lower case", must, |reads| {
        for code in 0..0x1_0000 {
            let number = if is_surrogate(code) { 4 } else { 0 };
            reads.expect(number, false, &framed(TITLE, false, quoted(&format!("\\u{code:04x}")).as_bytes()));
        }
    });
    let must = Must::meet(65_536, 65_536 - 2_048, &[0, 4]);
    sweeper.reads("codes by number, upper case, between characters", must, |reads| {
        for code in 0..0x1_0000 {
            let number = if is_surrogate(code) { 4 } else { 0 };
            reads.expect(number, true, &framed(TITLE, true, quoted(&format!("a\\u{code:04X}f")).as_bytes()));
        }
    });
}

/// Codes of which one digit is replaced. With each of the 22 digits at each of four places 0041 and e000 stay good;
/// d7ff has 8 at its second place, and dfff 20, 8, none and none.
const BASES: [&str; 5] = ["0041", "d7ff", "D7FF", "e000", "dfff"];
const GOOD: u64 = 88 + 74 + 74 + 88 + 28;

fn digits(sweeper: &mut Sweeper) {
    let must = Must::meet(2 * 5 * 4 * 256, 2 * GOOD, &[0, 2, 4]);
    sweeper.reads("bytes as digits", must, |reads| {
        for (base, place) in BASES.into_iter().flat_map(|base| (0..4).map(move |place| (base, place))) {
            for byte in 0..=255 {
                let mut digits = base.as_bytes().to_vec();
                digits[place] = byte;
                expect(reads, of_digits(&digits), TITLE, &[b"\"\\u", &digits[..], b"\""].concat());
            }
        }
    });
}

fn of_digits(digits: &[u8]) -> u32 {
    if !digits.is_ascii() {
        return 2;
    }
    let is_good = |code: &u32| !is_surrogate(*code);
    let all = digits.iter().map(|&digit| char::from(digit).to_digit(16));
    let code = all.reduce(|code, digit| Some(code? * 16 + digit?)).flatten();
    code.filter(is_good).map_or(4, |_| 0)
}

/// Where the length of a code's UTF-8 changes, and where surrogates and codes begin and end.
const BOUNDARIES: [u32; 17] = [
    0x0000, 0x0009, 0x001F, 0x0020, 0x007F, 0x0080, 0x00FF, 0x07FF, 0x0800, 0xD7FF, 0xD800, 0xDBFF, 0xDC00, 0xDFFF,
    0xE000, 0xFFFE, 0xFFFF,
];

/// Each of the four digits in either case.
fn cases(sweeper: &mut Sweeper) {
    let must = Must::meet(2 * 17 * 16, 2 * 13 * 16, &[0, 4]);
    sweeper.reads("digits of either case", must, |reads| {
        for (code, upper) in BOUNDARIES.into_iter().flat_map(|code| (0..16).map(move |upper| (code, upper))) {
            let number = if is_surrogate(code) { 4 } else { 0 };
            expect(reads, number, TITLE, quoted(&format!("x\\u{}y", in_case(code, upper))).as_bytes());
        }
    });
}

/// The digits of a code, those in upper case whose bit is set.
fn in_case(code: u32, upper: u32) -> String {
    let digits = format!("{code:04x}");
    let in_case = |(at, digit): (usize, char)| match upper >> at & 1 {
        1 => digit.to_ascii_uppercase(),
        _ => digit,
    };
    digits.chars().enumerate().map(in_case).collect()
}

const SURROGATES: [&str; 12] =
    ["d800", "D83D", "d83d", "DBFF", "dbff", "dc00", "DC00", "de00", "DE00", "dfff", "DFFF", "d8aB"];

/// Two surrogates are two escapes, and the first of them is bad, whatever they would make together.
fn pairs(sweeper: &mut Sweeper) {
    let must = Must::meet(2 * 3 * 12 * 12, 0, &[4]);
    sweeper.reads("pairs of surrogates", must, |reads| {
        for (first, second) in SURROGATES.into_iter().flat_map(|first| SURROGATES.map(|second| (first, second))) {
            let pair = format!("\\u{first}\\u{second}");
            for inside in [&pair, &format!("a{pair}b"), &format!("\\u0041{pair}\\u0042")] {
                expect(reads, 4, TITLE, quoted(inside).as_bytes());
            }
        }
    });
}

/// The text ends in an escape, after each of its bytes; only the whole escape leaves the string unclosed, which is 4 too.
fn cuts(sweeper: &mut Sweeper) {
    let escapes = ["\\u0041", "\\uD7FF", "\\n", "\\\""];
    let must = Must::meet(2 * 2 * (6 + 6 + 2 + 2), 0, &[4]);
    sweeper.reads("escapes cut off", must, |reads| {
        for (escape, end) in escapes.into_iter().flat_map(|escape| (1..=escape.len()).map(move |end| (escape, end))) {
            for before in ["\"", "\"ab"] {
                expect(reads, 4, ["[document [title @"; 2], format!("{before}{}", &escape[..end]).as_bytes());
            }
        }
    });
}

/// What looks like an escape and what it is answered by.
const FORMS: [(&str, u32); 18] = [
    ("\\\\", 4),
    ("\\/", 4),
    ("\\'", 4),
    ("\\0", 4),
    ("\\b", 4),
    ("\\f", 4),
    ("\\N", 4),
    ("\\U0041", 4),
    ("\\U00000041", 4),
    ("\\x41", 4),
    ("\\u{41}", 4),
    ("\\u+041", 4),
    ("\\u 041", 4),
    ("\\u004", 4),
    // Four digits are taken, and the rest is text.
    ("\\u00411", 0),
    ("\\u0001f600", 0),
    ("\\u005c\\u005c", 0),
    ("\\u005cn", 0),
];

fn forms(sweeper: &mut Sweeper) {
    let must = Must::meet(2 * 18, 2 * 4, &[0, 4]);
    sweeper.reads("what looks like an escape", must, |reads| {
        FORMS.into_iter().for_each(|(form, number)| expect(reads, number, TITLE, quoted(form).as_bytes()));
    });
}
