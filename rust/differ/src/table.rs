//! A table that is lent for reading: to the check, and to printing.

use crate::call::named;
use crate::lent::Lent;
use oracle::random::TableCase;

#[derive(Clone)]
pub struct LentTable {
    pub nodes: Lent<u32>,
    pub node_count: u32,
    pub pool: Lent<u8>,
    pub pool_count: u32,
}

impl LentTable {
    /// Lends what the case says.
    pub fn of(case: &TableCase, guards: usize) -> LentTable {
        LentTable {
            nodes: Lent::holding(&case.nodes, guards),
            node_count: case.node_count,
            pool: Lent::holding(&case.pool, guards),
            pool_count: case.pool_count,
        }
    }

    /// Names of the buffers that are not the same in both.
    pub fn unlike(&self, other: &LentTable) -> Vec<&'static str> {
        named([("nodes", self.nodes != other.nodes), ("pool", self.pool != other.pool)])
    }

    /// The table in short.
    pub fn input(&self) -> String {
        let lengths = [self.nodes.length(), self.pool.length()];
        format!("counts {} and {}, lent {lengths:?}", self.node_count, self.pool_count)
    }
}
