//! A case for reading, made from one seed.

use super::damage::{damage_bytes, damage_expressions};
use super::documents::{deep_or_crowded, grown};
use super::expression::render;
use super::grow::mix_sorts;
use super::rng::Random;
use super::spell::spell;
use super::tree::Element;
use crate::names::{MOST_BYTES, RECORD_LENGTH};
use crate::Answer;

/// A text and the lengths of the memory lent for it.
#[derive(Clone, Debug)]
pub struct ReadCase {
    pub text: Vec<u8>,
    pub imperative: bool,
    pub words: usize,
    pub places: usize,
    pub pool: usize,
}

/// An answer and all lent memory after the read.
#[derive(Clone, Debug, PartialEq, Eq)]
pub struct ReadOutcome {
    pub answer: Answer,
    pub nodes: Vec<u32>,
    pub places: Vec<u32>,
    pub pool: Vec<u8>,
}

impl ReadCase {
    pub fn new(seed: u64) -> Self {
        let random = &mut Random::new(seed);
        let imperative = random.chance(50);
        let text = random_text(random, imperative);
        let needed = crate::read(&text, imperative, &mut [], &mut [], &mut []);
        let [words, places, pool] = room(random, needed.nodes as usize, needed.pool as usize);
        ReadCase { text, imperative, words, places, pool }
    }

    pub fn run(&self) -> ReadOutcome {
        self.run_with(crate::read)
    }

    /// Runs any reader on memory that holds the same pattern before each run.
    pub fn run_with<R>(&self, reader: R) -> ReadOutcome
    where
        R: FnOnce(&[u8], bool, &mut [u32], &mut [u32], &mut [u8]) -> Answer,
    {
        let mut nodes: Vec<u32> = (0..self.words).map(|at| 0xA5A5_0000 + at as u32).collect();
        let mut places: Vec<u32> = (0..self.places).map(|at| 0x5A5A_0000 + at as u32).collect();
        let mut pool: Vec<u8> = (0..self.pool).map(|at| 0xC3 ^ at as u8).collect();
        let answer = reader(&self.text, self.imperative, &mut nodes, &mut places, &mut pool);
        ReadOutcome { answer, nodes, places, pool }
    }
}

fn random_text(random: &mut Random, imperative: bool) -> Vec<u8> {
    match random.below(100) {
        0 => long_text(random, imperative),
        1 | 2 => {
            let blanks: &[u8] = random.pick(&[&b""[..], b" ", b"\n\t", b"\r\n", b"x", b"[] []", b"\"a\"\"b\""]);
            blanks.to_vec()
        }
        3..=8 => {
            let document = deep_or_crowded(random);
            text_of(random, &document, imperative)
        }
        _ => {
            let mut document = grown(random, 55);
            if random.chance(7) {
                mix_sorts(random, &mut document);
            }
            damaged_text(random, &document, imperative)
        }
    }
}

fn text_of(random: &mut Random, document: &Element, imperative: bool) -> Vec<u8> {
    let run = spell(random, document, imperative);
    render(random, &run).0
}

/// A text with no damage, with damage to expressions, or with damage to bytes.
fn damaged_text(random: &mut Random, document: &Element, imperative: bool) -> Vec<u8> {
    let mut run = spell(random, document, imperative);
    let way = random.below(100);
    if (40..75).contains(&way) {
        (0..random.between(1, 2)).for_each(|_| damage_expressions(random, &mut run));
    }
    let (mut text, _) = render(random, &run);
    if way >= 70 {
        (0..random.between(1, 3)).for_each(|_| damage_bytes(random, &mut text));
    }
    text
}

/// A text about as long as a text may be.
fn long_text(random: &mut Random, imperative: bool) -> Vec<u8> {
    let document = grown(random, 10);
    let mut text = damaged_text(random, &document, imperative);
    let over = random.below(3_000);
    let length = random.pick(&[MOST_BYTES, MOST_BYTES + 1, MOST_BYTES + 1, MOST_BYTES + over]);
    let padding = random.pick(&[&b" "[..], b"\n", b"\r\n", "\u{e9}".as_bytes(), b"x \n", b"\xff"]);
    let missing = length.saturating_sub(text.len());
    let at = random.pick(&[0, text.len()]);
    text.splice(at..at, padding.iter().copied().cycle().take(missing));
    text
}

/// Words, places and pool bytes lent: often exactly enough, one short, none, or ample.
fn room(random: &mut Random, nodes: usize, pool: usize) -> [usize; 3] {
    let mut room = [enough(random, nodes) * RECORD_LENGTH, enough(random, nodes), enough(random, pool)];
    if room[0] == nodes * RECORD_LENGTH && random.chance(30) {
        // Not enough for one more node.
        room[0] += random.below(RECORD_LENGTH);
    }
    match random.below(10) {
        0 => room[0] = short(random, nodes * RECORD_LENGTH),
        1 => room[1] = short(random, nodes),
        2 => room[2] = short(random, pool),
        _ => {}
    }
    room
}

fn enough(random: &mut Random, needed: usize) -> usize {
    match random.chance(50) {
        true => needed,
        false => needed + random.below(40),
    }
}

fn short(random: &mut Random, needed: usize) -> usize {
    match random.below(4) {
        0 => 0,
        1 => random.below(needed + 1),
        _ => needed.saturating_sub(1),
    }
}
