//! Ids of blocks, hashed: open addressing over node numbers, on the stack.

use crate::names::{KEY_OFFSET, MOST_NODES};
use crate::table::Table;

const SLOTS: usize = 2 * MOST_NODES;

pub struct Ids<'t> {
    table: Table<'t>,
    /// Node number plus 1, or 0 where free; at least half of those within the mask stay free.
    slots: [u16; SLOTS],
    mask: usize,
}

impl<'t> Ids<'t> {
    /// For a table of at most 4,096 nodes.
    pub fn new(table: Table<'t>) -> Self {
        let used = (2 * table.count()).next_power_of_two();
        Ids { table, slots: [0; SLOTS], mask: used - 1 }
    }

    /// Notes the block's id, unless an earlier block has it.
    pub fn insert(&mut self, block: usize) -> bool {
        match self.probe(self.table.string(block, KEY_OFFSET)) {
            Ok(_) => false,
            Err(free) => {
                self.slots[free] = block as u16 + 1;
                true
            }
        }
    }

    /// The block that has the id.
    pub fn find(&self, id: &[u8]) -> Option<usize> {
        self.probe(id).ok()
    }

    /// The block that has the id, or else the free slot where its search ended.
    fn probe(&self, id: &[u8]) -> Result<usize, usize> {
        let mut at = hash(id) as usize & self.mask;
        while self.slots[at] != 0 {
            let block = self.slots[at] as usize - 1;
            if self.table.string(block, KEY_OFFSET) == id {
                return Ok(block);
            }
            at = (at + 1) & self.mask;
        }
        Err(at)
    }
}

/// FNV-1a.
fn hash(id: &[u8]) -> u32 {
    id.iter().fold(0x811C_9DC5, |hash, &byte| (hash ^ u32::from(byte)).wrapping_mul(0x0100_0193))
}
