//! Random cases, each of them made from one seed: documents, their spellings, damage, rooms and tables.
//!
//! [`ReadCase::new`], [`TableCase::new`] and [`PrintCase::new`] make a case, their `run` and `check` answer it, with all
//! memory that is written, and [`tally()`] counts how often each number comes up.

mod damage;
mod documents;
mod expression;
mod grow;
mod mend;
mod print_case;
mod read_case;
mod rng;
mod spell;
mod strings;
mod table_case;
mod tally;
mod tree;

pub use damage::{damage_bytes, damage_expressions};
pub use expression::{render, Expression};
pub use grow::{crowded, deep, grow, mix_sorts, Wanted};
pub use print_case::{PrintCase, PrintOutcome};
pub use read_case::{ReadCase, ReadOutcome};
pub use rng::Random;
pub use spell::spell;
pub use table_case::TableCase;
pub use tally::{tally, Counts, Tally};
pub use tree::{Element, FlatTable};
