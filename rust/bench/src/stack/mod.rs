//! How much stack a call of the archive takes: such figures as `include/structural.h` names.

mod painted;

use crate::case::{Action, Side};
use crate::deep;
use crate::spell::spell;
use crate::work::Work;
use structural::Spelling;

/// Sizes of the texts, in KiB: each may have another share of what a call takes from the stack.
const SIZES: [usize; 3] = [1, 12, 64];

pub const HEAD: &str = "| text | read nested | read imperative | check | print | no call |
|---|--:|--:|--:|--:|--:|";

/// The columns but the last.
const CALLS: [(Spelling, Action); 4] = [
    (Spelling::Nested, Action::Read),
    (Spelling::Imperative, Action::Read),
    (Spelling::Nested, Action::Check),
    (Spelling::Nested, Action::Print),
];

/// Prints the bytes that a thread takes which makes one call, over lists to the deepest level, and one that makes none.
pub fn stack() -> Result<(), String> {
    println!("{HEAD}");
    let none = painted::taken(|| ())?;
    for kib in SIZES {
        let bytes: Result<Vec<String>, String> = CALLS.into_iter().map(|call| taken(kib, call)).collect();
        println!("| {kib} KiB | {} | {none} |", bytes?.join(" | "));
    }
    Ok(())
}

/// Bytes of stack of one call, after the calls that it needs were made elsewhere.
fn taken(kib: usize, (spelling, action): (Spelling, Action)) -> Result<String, String> {
    let mut work = Work::lend(spell(&deep::manual(kib * 1024), spelling).into_bytes(), spelling);
    for each in Action::ALL {
        let number = work.turn_to(each).run(Side::Archive);
        if number != 0 {
            return Err(format!("{kib} KiB: {} answers {number}", each.name()));
        }
    }
    work.turn_to(action);
    painted::taken(|| work.run(Side::Archive)).map(|bytes| bytes.to_string())
}

#[cfg(test)]
mod tests {
    use super::*;

    /// A call takes more than a thread does of itself.
    #[test]
    fn calls_take_stack() {
        let none = painted::taken(|| ()).unwrap();
        for call in CALLS {
            let bytes: usize = taken(1, call).unwrap().parse().unwrap();
            assert!(bytes > none, "{bytes}, {none}");
        }
    }
}
