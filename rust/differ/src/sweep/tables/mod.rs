//! Families of tables.

mod counts;
mod depths;
mod faults;
mod least;
mod outputs;
mod pools;
mod strings;
mod trees;
mod words;

use super::sweeper::Sweeper;
use oracle::names::{MOST_BYTES, MOST_NODES, RECORD_LENGTH};
use oracle::random::TableCase;

pub fn sweep(sweeper: &mut Sweeper) {
    words::sweep(sweeper);
    pools::sweep(sweeper);
    strings::sweep(sweeper);
    trees::sweep(sweeper);
    depths::sweep(sweeper);
    counts::sweep(sweeper);
    faults::sweep(sweeper);
    outputs::sweep(sweeper);
}

/// The table of a nested text. Where the rules refuse the text the table is empty, so that the groups of
/// that table differ from what they state, or miss what they must meet, and the sweep goes on.
fn table_of(text: &str) -> TableCase {
    let (mut nodes, mut places, mut pool) =
        (vec![0; MOST_NODES * RECORD_LENGTH], vec![0; MOST_NODES], vec![0; MOST_BYTES]);
    let answer = oracle::read(text.as_bytes(), false, &mut nodes, &mut places, &mut pool);
    nodes.truncate(answer.nodes as usize * RECORD_LENGTH);
    pool.truncate(answer.pool as usize);
    TableCase { nodes, node_count: answer.nodes, pool, pool_count: answer.pool }
}

#[cfg(test)]
mod tests {
    use super::*;
    use crate::sweep::must::Must;

    /// A group whose table the rules refuse is reported, and does not end the sweep.
    #[test]
    fn a_text_that_is_refused_has_an_empty_table() {
        let table = table_of("[document [title A] [link [target x]]]");
        assert_eq!((table.nodes.len(), table.node_count, table.pool.len(), table.pool_count), (0, 0, 0, 0));
        let mut sweeper = Sweeper::new(0, 1);
        sweeper.tables("refused", Must::meet(1, 1, &[0]), |tables| tables.expect(0, &table));
        let mut missed = String::new();
        sweeper.groups[0].missed(&mut missed);
        assert_eq!((sweeper.groups[0].differ(), missed.is_empty()), (1, false));
    }
}
