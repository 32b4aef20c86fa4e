//! Every byte, and three characters of all sorts, at the ends of the text and around brackets, names, symbols and strings.

use super::frame::{read, Frame};
use crate::sweep::must::Must;
use crate::sweep::sweeper::Sweeper;

/// A place, and what is met there: how many go well in each spelling, and the numbers of both.
struct Around {
    name: &'static str,
    frame: Frame,
    bytes: (u64, &'static [u32]),
    three: (u64, &'static [u32]),
}

/// White space goes well everywhere: as a byte, three alone, three between blanks and four between lines, where U+000D is one;
/// of three characters, 27 of tab, U+000A and space, and 6 of U+000D U+000A with one of these. In a title so do symbols:
/// 0x20 to 0x7F but quote and brackets, with the white space 93 (and U+000D between lines); and 4 of the sorts, with the
/// white space 7 * 7 * 7 + 2 * 7, and 12 in quotes. In a string all but quote and backslash go well, 126 bytes and 12 of
/// the sorts, and `\"` before or behind one of these.
const AROUND: [Around; 7] = [
    Around {
        name: "before the text",
        frame: ["@[document [title A]]"; 2],
        bytes: (3 + 3 + 4, &[0, 2, 3, 4, 5, 7, 8]),
        three: (33, &[0, 3, 4, 5, 7, 8]),
    },
    Around {
        name: "behind the text",
        frame: ["[document [title A]]@"; 2],
        bytes: (3 + 3 + 4, &[0, 2, 3, 4, 5, 7, 8]),
        three: (33, &[0, 3, 4, 5, 7, 8]),
    },
    Around {
        name: "after a bracket",
        frame: ["[@document [title A]]"; 2],
        bytes: (3 + 3 + 4, &[0, 2, 3, 4, 5, 8]),
        three: (33, &[0, 3, 4, 5, 7, 8]),
    },
    Around {
        name: "after a name",
        frame: ["[document@[title A]]"; 2],
        bytes: (3 + 3 + 4, &[0, 2, 3, 4, 5, 8, 9]),
        three: (33, &[0, 3, 4, 5, 7, 8, 9]),
    },
    Around {
        name: "before a bracket",
        frame: ["[document [title A@]]"; 2],
        bytes: (93 + 93 + 94, &[0, 2, 3, 4, 5]),
        three: (357 + 12, &[0, 3, 4, 5, 8]),
    },
    Around {
        name: "in a symbol",
        frame: ["[document [title A@B]]"; 2],
        bytes: (93 + 93 + 94, &[0, 2, 3, 4, 5]),
        three: (357 + 12, &[0, 3, 4, 5, 8]),
    },
    Around {
        name: "in a string",
        frame: ["[document [title \"@\"]]"; 2],
        bytes: (3 * 126, &[0, 2, 4]),
        three: (12 * 12 * 12 + 2 * 12, &[0, 3, 4, 5]),
    },
];

pub fn sweep(sweeper: &mut Sweeper) {
    for around in &AROUND {
        bytes(sweeper, around);
        three(sweeper, around);
    }
}

/// Every byte alone, between blanks, and between lines.
fn bytes(sweeper: &mut Sweeper, around: &Around) {
    let (well, numbers) = around.bytes;
    let must = Must::meet(2 * 3 * 256, 2 * well, numbers);
    sweeper.reads(&format!("bytes {}", around.name), must, |reads| {
        for byte in 0..=255 {
            for beside in ["", " ", "\n"] {
                read(reads, around.frame, &[beside.as_bytes(), &[byte], beside.as_bytes()].concat());
            }
        }
    });
}

/// Characters of each sort, and one of two bytes.
const SORTS: [&[u8]; 14] =
    [b"\t", b"\n", b"\r", b" ", b"\x01", b"(", b")", b"[", b"]", b"\"", b"\\", b"a", b"\x7F", "\u{E9}".as_bytes()];

/// Three characters of all sorts, one after the other.
fn three(sweeper: &mut Sweeper, around: &Around) {
    let (well, numbers) = around.three;
    let must = Must::meet(2 * 14 * 14 * 14, 2 * well, numbers);
    sweeper.reads(&format!("three characters {}", around.name), must, |reads| {
        for (first, second) in SORTS.into_iter().flat_map(|first| SORTS.map(|second| (first, second))) {
            SORTS.iter().for_each(|third| read(reads, around.frame, &[first, second, third].concat()));
        }
    });
}
