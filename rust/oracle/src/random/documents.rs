//! The documents that cases are made from.

use super::grow::{crowded, deep, grow, Wanted};
use super::rng::Random;
use super::tree::Element;
use crate::names::MOST_NODES;

/// A document that is meant to have faults 15 to 18 that many times in a hundred, and well-formed else.
pub fn grown(random: &mut Random, faulty: usize) -> Element {
    let mut wanted = Wanted { nodes: random.pick(&[4, 12, 30, 30, 60, 120]), ..Wanted::default() };
    if random.chance(1) {
        wanted.nodes = 1_500;
    }
    if random.chance(faulty) {
        let (one, all) = (random.below(4), random.chance(20));
        wanted.nodes = wanted.nodes.max(40);
        wanted.bad_rows = all || one == 0;
        wanted.repeated_ids = all || one == 1;
        wanted.loose_links = all || one == 2;
        wanted.loose_references = all || one == 3;
    }
    grow(random, wanted)
}

/// A document at the limits of nesting or of node count.
pub fn deep_or_crowded(random: &mut Random) -> Element {
    if random.chance(85) {
        let levels = random.between(60, 68);
        return deep(random, levels);
    }
    let nodes = random.pick(&[MOST_NODES - 1, MOST_NODES, MOST_NODES + 1, 2 * MOST_NODES]);
    crowded(random, nodes)
}
