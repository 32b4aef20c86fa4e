//! Every byte at every place of a manual: in place of the byte there, and before it; and the manual without that byte,
//! from that byte on, and up to it.

use super::frame::SPELLINGS;
use crate::sweep::manual::SPELLED;
use crate::sweep::must::Must;
use crate::sweep::reading::Reads;
use crate::sweep::sweeper::Sweeper;

/// Numbers that one byte makes of a manual; no row changes its length by one byte. There is no second expression, for 7,
/// in an imperative text: it is there where the text is empty alone.
const NUMBERS: &[u32] = &[0, 2, 3, 4, 5, 7, 8, 9, 10, 16, 17, 18];
const WITHOUT_7: &[u32] = &[0, 2, 3, 4, 5, 8, 9, 10, 16, 17, 18];

pub fn sweep(sweeper: &mut Sweeper) {
    for imperative in SPELLINGS {
        let manual = SPELLED[usize::from(imperative)].as_bytes();
        let (name, places) = (["nested", "imperative"][usize::from(imperative)], manual.len() as u64);
        let numbers = if imperative { WITHOUT_7 } else { NUMBERS };
        let must = Must::meet_some(256 * places, 10 * places, numbers);
        sweeper.reads(&format!("another byte everywhere, {name}"), must, |reads| others(reads, imperative, manual));
        let must = Must::meet_some(256 * (places + 1), 10 * places, numbers);
        sweeper.reads(&format!("one more byte everywhere, {name}"), must, |reads| more(reads, imperative, manual));
        let must = Must::meet_some(3 * places, places / 10, NUMBERS);
        sweeper.reads(&format!("fewer bytes everywhere, {name}"), must, |reads| fewer(reads, imperative, manual));
    }
}

fn others(reads: &mut Reads, imperative: bool, manual: &[u8]) {
    for (place, byte) in (0..manual.len()).flat_map(|place| (0..=255).map(move |byte| (place, byte))) {
        reads.text(imperative, &[&manual[..place], &[byte], &manual[place + 1..]].concat());
    }
}

fn more(reads: &mut Reads, imperative: bool, manual: &[u8]) {
    for (place, byte) in (0..=manual.len()).flat_map(|place| (0..=255).map(move |byte| (place, byte))) {
        reads.text(imperative, &[&manual[..place], &[byte], &manual[place..]].concat());
    }
}

fn fewer(reads: &mut Reads, imperative: bool, manual: &[u8]) {
    for place in 0..manual.len() {
        reads.text(imperative, &[&manual[..place], &manual[place + 1..]].concat());
        reads.text(imperative, &manual[place..]);
        reads.text(imperative, &manual[..place]);
    }
}
