//! Imperative texts: every run of commands after a document's, alone and with content between them.

use super::expressions::ELEMENTS;
use crate::sweep::must::Must;
use crate::sweep::reading::Reads;
use crate::sweep::sweeper::Sweeper;

/// The six blocks that follow the document among the elements.
const BLOCKS: &[&str] = ELEMENTS.split_at(7).0.split_at(1).1;

/// What stands between commands: two that may be content, and four that are refused wherever they stand.
const LOOSE: [&str; 6] = ["x", "[list-ordered]", "[id k]", "[title A]", "[include x]", "[document [title A]]"];

pub fn sweep(sweeper: &mut Sweeper) {
    blocks(sweeper);
    blocks_and_content(sweeper);
}

/// All runs of up to six commands: 1 + 6 + .. + 46,656. How many go well, by length, is counted by what is open
/// after a run: nothing but the document; a part; in it a section without content, with subsections, or with
/// paragraphs, formal items and footnotes; and the same three without a part. From each, one command leads to a part or
/// section as far as the document's sort allows, one to a subsection, three to the kinds below it.
const WELL: u64 = 1 + 2 + 7 + 30 + 135 + 614 + 2_809;

fn blocks(sweeper: &mut Sweeper) {
    let must = Must::meet(55_987, WELL, &[0, 8, 11, 16]);
    sweeper.reads("runs of commands", must, |reads| runs(reads, 6, BLOCKS));
}

/// All runs of up to four commands or others: 1 + 12 + 144 + 1,728 + 20,736. Counted as above, where content
/// goes well if a paragraph, formal item or footnote is open.
const WELL_WITH_CONTENT: u64 = 1 + 2 + 7 + 36 + 207;

fn blocks_and_content(sweeper: &mut Sweeper) {
    let must = Must::meet(22_621, WELL_WITH_CONTENT, &[0, 8, 11, 12, 16]);
    sweeper.reads("runs of commands and content", must, |reads| runs(reads, 4, &[BLOCKS, &LOOSE].concat()));
}

/// All runs of up to so many pieces, after a document's command.
fn runs(reads: &mut Reads, most: usize, pieces: &[&str]) {
    let mut texts = vec![String::from("[document [title A]]")];
    for _ in 0..most {
        texts.iter().for_each(|text| reads.text(true, text.as_bytes()));
        texts = texts.iter().flat_map(|text| pieces.iter().map(move |piece| format!("{text} {piece}"))).collect();
    }
    texts.iter().for_each(|text| reads.text(true, text.as_bytes()));
}
