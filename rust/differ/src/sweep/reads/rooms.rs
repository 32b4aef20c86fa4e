//! Memory lent around what a text needs, and slices of every length for the answer.

use super::frame::SPELLINGS;
use super::samples::{self, samples, Sample};
use crate::call::NO_ANSWER;
use crate::read;
use crate::sweep::manual;
use crate::sweep::must::{goes_well, Must};
use crate::sweep::reading::Reads;
use crate::sweep::sweeper::Sweeper;
use oracle::names::RECORD_LENGTH;
use oracle::random::ReadCase;

const RECORD: isize = RECORD_LENGTH as isize;

pub fn sweep(sweeper: &mut Sweeper) {
    around(sweeper);
    none(sweeper);
    answers(sweeper);
}

/// More or fewer words, places and pool bytes than needed. Up to 10 words more hold no further node.
const MORE_WORDS: [isize; 6] = [-RECORD, -1, 0, 1, RECORD - 1, RECORD];
const MORE_PLACES: [isize; 3] = [-1, 0, 1];
const MORE_POOL: [isize; 3] = [-1, 0, 1];

/// The samples that go well, and a manual: 0, 15, 16, 17, 18 and 0.
fn around(sweeper: &mut Sweeper) {
    let must = Must::meet(6 * 2 * 6 * 3 * 3, 6 * 2 * 4 * 2 * 2, &[0, 13, 14, 15, 16, 17, 18]);
    sweeper.reads("room around what is needed", must, |reads| {
        let manual = Sample { number: 0, texts: manual::SPELLED.map(Vec::from) };
        for sample in samples().iter().filter(|sample| goes_well(sample.number)).chain([&manual]) {
            SPELLINGS.into_iter().for_each(|imperative| around_one(reads, imperative, sample));
        }
    });
}

fn around_one(reads: &mut Reads, imperative: bool, sample: &Sample) {
    let needed = exactly(sample, imperative);
    for (words, places) in MORE_WORDS.into_iter().flat_map(|words| MORE_PLACES.map(|places| (words, places))) {
        for pool in MORE_POOL {
            let number = match (words < 0 || places < 0, pool < 0) {
                (true, _) => 13,
                (false, true) => 14,
                (false, false) => sample.number,
            };
            let more = |needed: usize, more: isize| needed.saturating_add_signed(more);
            let [words, places, pool] =
                [more(needed.words, words), more(needed.places, places), more(needed.pool, pool)];
            reads.lent(number, &ReadCase { words, places, pool, ..needed.clone() }, read::WORDS);
        }
    }
}

/// The sample with just the room that it needs.
fn exactly(sample: &Sample, imperative: bool) -> ReadCase {
    let text = sample.texts[usize::from(imperative)].clone();
    let needed = oracle::read(&text, imperative, &mut [], &mut [], &mut []);
    let (nodes, pool) = (needed.nodes as usize, needed.pool as usize);
    ReadCase { text, imperative, words: nodes * RECORD_LENGTH, places: nodes, pool }
}

/// Every sample with no words, no places, no pool, with none of them, and with words for a record but one. A text that
/// is refused before 13 is refused alike.
fn none(sweeper: &mut Sweeper) {
    let must = Must::meet(samples::COUNT * 2 * 5, 0, &[1, 2, 3, 4, 5, 6, 7, 8, 9, 10, 11, 12, 13, 14]);
    sweeper.reads("no room", must, |reads| {
        for sample in &samples() {
            SPELLINGS.into_iter().for_each(|imperative| none_for_one(reads, imperative, sample));
        }
    });
}

fn none_for_one(reads: &mut Reads, imperative: bool, sample: &Sample) {
    let needed = exactly(sample, imperative);
    let ReadCase { words, places, pool, .. } = needed;
    let short = [
        (0, places, pool, 13),
        (words, 0, pool, 13),
        (words, places, 0, 14),
        (0, 0, 0, 13),
        (RECORD_LENGTH - 1, 9, 9, 13),
    ];
    for (words, places, pool, number) in short {
        let number = if goes_well(sample.number) { number } else { sample.number };
        reads.lent(number, &ReadCase { words, places, pool, ..needed.clone() }, read::WORDS);
    }
}

/// Every sample with 0 to 9 words for its answer: below six nothing is read.
fn answers(sweeper: &mut Sweeper) {
    let numbers: Vec<u32> = (0..=18).filter(|number| !matches!(number, 13 | 14)).chain([NO_ANSWER]).collect();
    let must = Must::meet(samples::COUNT * 2 * 10, 5 * 2 * 4, &numbers);
    sweeper.reads("words for the answer", must, |reads| {
        for (sample, words) in samples().iter().flat_map(|sample| (0..10).map(move |words| (sample, words))) {
            let number = if words < read::WORDS { NO_ANSWER } else { sample.number };
            SPELLINGS.into_iter().for_each(|imperative| reads.lent(number, &exactly(sample, imperative), words));
        }
    });
}
