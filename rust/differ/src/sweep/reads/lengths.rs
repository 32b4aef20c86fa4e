//! Texts around the longest allowed, 65,536 bytes, and around twice that.

use super::frame::SPELLINGS;
use crate::sweep::must::Must;
use crate::sweep::sweeper::Sweeper;
use oracle::names::MOST_BYTES as MOST;

/// Two that are not too long, and five that are.
const LENGTHS: [usize; 7] = [MOST - 1, MOST, MOST + 1, MOST + 2, 2 * MOST - 1, 2 * MOST, 2 * MOST + 1];

/// A text that is made as long as wanted.
struct Long {
    before: &'static [u8],
    /// As often as there is room for.
    filler: &'static [u8],
    behind: &'static [u8],
    /// What it is answered by in each spelling where it is not too long.
    numbers: [u32; 2],
}

const LONG: [Long; 18] = [
    Long { before: b"", filler: b" ", behind: b"[document [title A]]", numbers: [0; 2] },
    Long { before: b"[document [title A]]", filler: b"\n", behind: b"", numbers: [0; 2] },
    Long { before: b"[document [title A]]", filler: b"\r\n", behind: b" ", numbers: [0; 2] },
    Long { before: b"[document", filler: b"\t", behind: b"[title A]]", numbers: [0; 2] },
    Long { before: b"[document [title ", filler: b"a", behind: b"]]", numbers: [0; 2] },
    Long { before: b"[document [title \"", filler: b"a", behind: b"\"]]", numbers: [0; 2] },
    Long { before: b"[document [title ", filler: "\u{e9}".as_bytes(), behind: b"]]", numbers: [0; 2] },
    Long { before: b"[document [title A] [id ", filler: b"i", behind: b"]]", numbers: [0; 2] },
    Long { before: b"[document [title A] [type ", filler: b"t", behind: b"]]", numbers: [0; 2] },
    // The last byte, or the last few, are at fault, or none is a good one.
    Long { before: b"[document [title A]]", filler: b" ", behind: b"\xFF", numbers: [2; 2] },
    Long { before: b"[document [title A]]", filler: b" ", behind: b"\xC3", numbers: [2; 2] },
    Long { before: b"[document [title A]]", filler: b" ", behind: b"\x01", numbers: [3; 2] },
    Long { before: b"[document [title A]]", filler: b" ", behind: b"\r", numbers: [3; 2] },
    Long { before: b"[document [title \"", filler: b"a", behind: b"", numbers: [4; 2] },
    Long { before: b"[document [title \"", filler: b"a", behind: b"\\u00", numbers: [4; 2] },
    Long { before: b"[document [title ", filler: b"a", behind: b"", numbers: [5; 2] },
    Long { before: b"", filler: b" ", behind: b"", numbers: [7; 2] },
    Long { before: b"[document [title A]]", filler: b" ", behind: b"x", numbers: [7, 8] },
];

pub fn sweep(sweeper: &mut Sweeper) {
    let must = Must::meet(18 * 7 * 2, 9 * 2 * 2, &[0, 1, 2, 3, 4, 5, 7, 8]);
    sweeper.reads("texts of 65,536 bytes", must, |reads| {
        for (long, length) in LONG.iter().flat_map(|long| LENGTHS.map(|length| (long, length))) {
            for imperative in SPELLINGS {
                let number = if length > MOST { 1 } else { long.numbers[usize::from(imperative)] };
                reads.expect(number, imperative, &long.text(length));
            }
        }
    });
}

impl Long {
    /// Of that length; where the filler has two bytes and one is missing, a blank stands before all.
    fn text(&self, length: usize) -> Vec<u8> {
        let room = length - self.before.len() - self.behind.len();
        let filler = self.filler.repeat(room / self.filler.len());
        [&b" "[..room % self.filler.len()], self.before, &filler, self.behind].concat()
    }
}
