//! Printing: 20, then 21, else the canonical spelling.

use crate::names::{NOT_A_TABLE, OK, OUTPUT_SHORT};
use crate::spelling::{Buffer, Length, Speller};
use crate::table::Table;
use crate::verify::verify;

/// What printing returns.
#[derive(Clone, Copy, PartialEq, Eq, Debug)]
pub struct Printed {
    pub number: u32,
    pub length: u32,
}

/// Spells a table canonically, with faults 15 to 18 or without. Under 20 and 21 the output is left as it was; later bytes always are.
pub fn print(nodes: &[u32], node_count: u32, pool: &[u8], pool_count: u32, out: &mut [u8]) -> Printed {
    let Some(table) = verify(nodes, node_count, pool, pool_count) else {
        return Printed { number: NOT_A_TABLE, length: 0 };
    };
    let length = spelled_length(table);
    let number = match out.get_mut(..length) {
        Some(rest) => {
            Speller { table, out: Buffer { rest } }.node(0);
            OK
        }
        None => OUTPUT_SHORT,
    };
    Printed { number, length: length as u32 }
}

fn spelled_length(table: Table) -> usize {
    let mut speller = Speller { table, out: Length::default() };
    speller.node(0);
    speller.out.0
}
