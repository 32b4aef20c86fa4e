//! The check of a table: 20, then 15 to 18, each with the node it is found at.

use crate::faults::first_fault;
use crate::names::{NOT_A_TABLE, OK};
use crate::verify::verify;

/// What the check returns. The node is 0 under 0 and 20.
#[derive(Clone, Copy, PartialEq, Eq, Debug)]
pub struct Checked {
    pub number: u32,
    pub node: u32,
}

/// Judges the table that the counts name, and changes nothing.
pub fn check(nodes: &[u32], node_count: u32, pool: &[u8], pool_count: u32) -> Checked {
    let Some(table) = verify(nodes, node_count, pool, pool_count) else {
        return Checked { number: NOT_A_TABLE, node: 0 };
    };
    match first_fault(table) {
        Some((number, node)) => Checked { number, node: node as u32 },
        None => Checked { number: OK, node: 0 },
    }
}
