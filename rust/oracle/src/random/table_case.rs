//! A table, made from one seed.

use super::documents::{deep_or_crowded, grown};
use super::rng::Random;
use super::tree::FlatTable;
use crate::names::{MISSING, MOST_BYTES, MOST_NODES, RECORD_LENGTH};
use crate::Checked;

/// Node words and pool bytes, and how many nodes and bytes of them are said to be a table.
#[derive(Clone, Debug)]
pub struct TableCase {
    pub nodes: Vec<u32>,
    pub node_count: u32,
    pub pool: Vec<u8>,
    pub pool_count: u32,
}

impl TableCase {
    pub fn new(seed: u64) -> Self {
        TableCase::random(&mut Random::new(seed))
    }

    /// Of a document that has faults as often as not, with memory behind it, and damaged two times in five.
    pub fn random(random: &mut Random) -> Self {
        let document = match random.chance(4) {
            true => deep_or_crowded(random),
            false => grown(random, 50),
        };
        let mut case = TableCase::of(document.table());
        case.nodes.extend((0..random.few(15)).map(|at| at as u32));
        case.pool.extend((0..random.few(5)).map(|at| at as u8));
        if random.chance(40) {
            case.damage(random);
        }
        case
    }

    /// The table as it is.
    pub fn of(table: FlatTable) -> Self {
        let (node_count, pool_count) = (table.count() as u32, table.pool.len() as u32);
        TableCase { nodes: table.nodes, node_count, pool: table.pool, pool_count }
    }

    pub fn check(&self) -> Checked {
        crate::check(&self.nodes, self.node_count, &self.pool, self.pool_count)
    }

    fn damage(&mut self, random: &mut Random) {
        for _ in 0..random.between(1, 2) {
            match random.below(10) {
                0..=5 => self.damage_word(random),
                6..=8 => self.damage_pool(random),
                _ => self.damage_count(random),
            }
        }
    }

    /// Two words change places, a node gets another kind, or a word gets another value.
    fn damage_word(&mut self, random: &mut Random) {
        let used = self.nodes.len().min(self.node_count as usize * RECORD_LENGTH);
        if used == 0 {
            return;
        }
        let (at, other) = (random.below(used), random.below(used));
        match random.below(10) {
            0 => self.nodes.swap(at, other),
            1 | 2 => self.nodes[at - at % RECORD_LENGTH] = random.between(1, 25) as u32,
            _ => self.nodes[at] = random.pick(&other_values(self.nodes[at], self.nodes[other], at)),
        }
    }

    fn damage_pool(&mut self, random: &mut Random) {
        if !self.pool.is_empty() {
            let at = random.below(self.pool.len());
            self.pool[at] = random.pick(b" \n\"\\a0_-.~\x00\x7f\x80\xbf\xc3\xe2\xed\xf0\xff");
        }
    }

    fn damage_count(&mut self, random: &mut Random) {
        let count = match random.chance(50) {
            true => &mut self.node_count,
            false => &mut self.pool_count,
        };
        *count = match random.below(5) {
            0 => count.wrapping_sub(1),
            1 => count.wrapping_add(1),
            2 => 0,
            3 => count.wrapping_add(20),
            _ => random.pick(&[MISSING, 0x8000_0000, 0x1745_D175, MOST_NODES as u32 + 1, MOST_BYTES as u32 + 1]),
        };
    }
}

fn other_values(value: u32, other: u32, at: usize) -> [u32; 8] {
    let node = (at / RECORD_LENGTH) as u32;
    [value.wrapping_add(1), value.wrapping_sub(1), value ^ 0x8000_0000, 0, MISSING, other, node, 65_536]
}
