//! Several faults in one text: which of them is answered.

use super::frame::{framed, Frame, SPELLINGS};
use crate::sweep::must::Must;
use crate::sweep::sweeper::Sweeper;

/// What a paragraph holds, and the number that it is answered by alone. Each stands for itself wherever it is.
const FAULTS: [(&[u8], u32); 13] = [
    (b"x", 0),
    (b"[image [target \xED\xA0\x80]]", 2),
    (b"\x0B", 3),
    (b"\"a\\\\\"", 4),
    (b")", 5),
    (b"[item]", 8),
    (b"[image]", 9),
    (b"[term [type \"t\"]]", 10),
    (b"[include [include x]]", 12),
    (b"[table [summary] [head [name]] [body [row]]]", 15),
    (b"[link [target x]]", 17),
    (b"[footnote-ref [target x]]", 18),
    (b"[verbatim]", 9),
];

/// The first group that applies decides: 2; then the first of 3 to 6 in the text; then the first of 8 to 12 in it;
/// then 15, 17 and 18 in this order.
fn decided(numbers: &[u32]) -> u32 {
    let first = |group: std::ops::RangeInclusive<u32>| numbers.iter().copied().find(|number| group.contains(number));
    let groups = [2..=2, 3..=6, 8..=12, 15..=15, 16..=16, 17..=17, 18..=18];
    groups.into_iter().find_map(first).unwrap_or(0)
}

/// Three of them in a row, with a block before that has the id of the document, or without.
const FRAMES: [(Frame, &[u32]); 2] = [
    (
        [
            "[document [title A] [section [title B] [paragraph @]]]",
            "[document [title A]] [section [title B]] [paragraph] @",
        ],
        &[],
    ),
    (
        [
            "[document [title A] [id d] [section [title B] [id d] [paragraph @]]]",
            "[document [title A] [id d]] [section [title B] [id d]] [paragraph] @",
        ],
        &[16],
    ),
];

/// The text, 15, 17 and 18 go well, with the id that is there again or without.
pub fn sweep(sweeper: &mut Sweeper) {
    let must = Must::meet(2 * 2 * 13 * 13 * 13, 2 * 2 * 4 * 4 * 4, &[0, 2, 3, 4, 5, 8, 9, 10, 12, 15, 16, 17, 18]);
    sweeper.reads("three faults", must, |reads| {
        for (first, second) in FAULTS.into_iter().flat_map(|first| FAULTS.map(|second| (first, second))) {
            for (third, (frame, there)) in FAULTS.into_iter().flat_map(|third| FRAMES.map(|frame| (third, frame))) {
                let numbers = [there, &[first.1, second.1, third.1]].concat();
                let content = [first.0, second.0, third.0].join(&b' ');
                for imperative in SPELLINGS {
                    reads.expect(decided(&numbers), imperative, &framed(frame, imperative, &content));
                }
            }
        }
    });
}
