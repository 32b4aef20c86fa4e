//! The rules of document 01 written a second time, independently of the verified code, for differential tests.
//!
//! [`read()`] takes a text into a flat node table, [`check()`] judges such a table, [`pair()`] does both in turn,
//! [`print()`] spells a table canonically, and [`random`] makes cases for all of them. Reading allocates nothing: a first
//! walk judges and counts, a second one fills the lent memory.

mod bytes;
mod check;
mod fault;
mod faults;
mod find;
mod head;
mod ids;
mod imperative;
mod kind;
mod lead;
pub mod names;
mod pair;
mod place;
mod print;
pub mod random;
mod read;
mod scan;
mod sink;
mod spelling;
mod table;
mod value;
mod verify;
mod walk;

pub use check::{check, Checked};
pub use kind::Kind;
pub use pair::pair;
pub use print::{print, Printed};
pub use read::{read, Answer};
