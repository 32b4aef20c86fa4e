//! A text for every number that a text alone decides; no text is answered by 19.

use oracle::names::{MOST_BYTES, NESTED_LEVELS};

/// A number, and a text in each spelling that is answered by it.
pub struct Sample {
    pub number: u32,
    pub texts: [Vec<u8>; 2],
}

/// How many there are: 0 to 12 and 15 to 18.
pub const COUNT: u64 = 17;

pub fn samples() -> Vec<Sample> {
    let by_text = NUMBERED.iter().map(|&(number, texts)| Sample { number, texts: texts.map(Vec::from) });
    by_text
        .chain([alike(1, vec![b' '; MOST_BYTES + 1]), alike(2, vec![0xFF]), alike(6, vec![b'['; NESTED_LEVELS + 1])])
        .collect()
}

fn alike(number: u32, text: Vec<u8>) -> Sample {
    Sample { number, texts: [text.clone(), text] }
}

const NUMBERED: [(u32, [&str; 2]); 14] = [
    (0, ["[document [title A]]"; 2]),
    (3, ["\u{1}"; 2]),
    (4, ["\"\""; 2]),
    (5, ["]"; 2]),
    (7, [""; 2]),
    (8, ["x"; 2]),
    (9, ["[document]"; 2]),
    (10, ["[document [title A] [id]]"; 2]),
    (
        11,
        [
            "[document [title A] [section [title B]] [part [title C]]]",
            "[document [title A]] [section [title B]] [part [title C]]",
        ],
    ),
    (12, ["[document [title A] [include x]]", "[document [title A]] [include x]"]),
    (
        15,
        [
            "[document [title A] [section [title B] [paragraph [table [summary] [head [name]] [body [row]]]]]]",
            "[document [title A]] [section [title B]] [paragraph] [table [summary] [head [name]] [body [row]]]",
        ],
    ),
    (
        16,
        [
            "[document [title A] [id x] [section [title B] [id x]]]",
            "[document [title A] [id x]] [section [title B] [id x]]",
        ],
    ),
    (
        17,
        [
            "[document [title A] [section [title B] [paragraph [link [target x]]]]]",
            "[document [title A]] [section [title B]] [paragraph] [link [target x]]",
        ],
    ),
    (
        18,
        [
            "[document [title A] [section [title B] [paragraph [id x] [footnote-ref [target x]]]]]",
            "[document [title A]] [section [title B]] [paragraph [id x]] [footnote-ref [target x]]",
        ],
    ),
];
