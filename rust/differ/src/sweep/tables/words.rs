//! Every word of a manual's table with every other value that could be one.

use super::table_of;
use crate::sweep::manual;
use crate::sweep::must::Must;
use crate::sweep::sweeper::Sweeper;
use oracle::names::{END, KEY_OFFSET, KIND, MISSING, PARENT, RECORD_LENGTH, TEXT_LENGTH};

/// Kinds that other kinds could be: a list of the other sort, twice; the paragraph with an id a footnote, and the footnote
/// that nothing refers to a paragraph; the term in a cell either list; the term with a type a verbatim, and the verbatim a
/// term; the link one to another page, and that one an image; the reference a link, one to another page, or an image.
const KINDS: u64 = 2 + 1 + 1 + 2 + 1 + 1 + 1 + 1 + 3;
/// The footnote that is referred to could be a paragraph, but for the reference, which is then 18.
const KINDS_AT_FAULT: u64 = 1;
/// Of the kinds, one more or one less: the lists, the link, and the reference.
const NEXT_KINDS: u64 = 2 + 1 + 1;
/// The width, 7, and the height, 65,535, among the sizes, and as other values: one more, one less, 0, and 256 more.
const SIZES_THAT_FIT: u64 = 4 + 3 + 4 + 2;

const SIZES: [u32; 6] = [0, 1, 65_534, 65_535, 65_536, MISSING - 1];

/// The manual has 63 nodes and 74 pool bytes. For each node there are so many values, and 7 others for each word; less those
/// that are the word as it is: 9 a node among the values (not the root's parent nor sizes, but the height), and among
/// the others for 298 words of 0 and 125 of 4,294,967,295.
const CALLS: u64 = 63 * (27 + 2 * 65 + 6 * 76 + 2 * 6 + RECORD_LENGTH as u64 * 7) - (63 * 9 + 298 + 125);

pub fn sweep(sweeper: &mut Sweeper) {
    let sound = KINDS + NEXT_KINDS + SIZES_THAT_FIT;
    let must = Must::meet(CALLS, sound + KINDS_AT_FAULT, &[0, 18, 20]).sound(sound);
    sweeper.tables("words of a table", must, |tables| {
        let table = table_of(manual::NESTED);
        for (at, &present) in table.nodes.iter().enumerate() {
            let changes =
                values(at % RECORD_LENGTH, table.node_count, table.pool_count).into_iter().chain(others(present));
            for value in changes.filter(|&value| value != present) {
                let mut changed = table.clone();
                changed.nodes[at] = value;
                tables.table(&changed);
            }
        }
    });
}

/// What a word may be: any kind; any node; any place in the pool; a size.
fn values(word: usize, nodes: u32, pool: u32) -> Vec<u32> {
    match word {
        KIND => (0..=26).collect(),
        PARENT | END => (0..=nodes + 1).collect(),
        KEY_OFFSET..=TEXT_LENGTH => (0..=pool + 1).collect(),
        _ => SIZES.to_vec(),
    }
}

/// What is near a word, or far from it.
fn others(word: u32) -> [u32; 7] {
    let more = |by| word.wrapping_add(by);
    [more(1), word.wrapping_sub(1), 0, MISSING, word ^ 0x8000_0000, more(256), more(65_536)]
}
