//! What a call costs over a small text.

use super::{call, instructions};
use crate::case::{Action, Case, Side};
use crate::input::Input;
use crate::small::Small;
use crate::timing::nanoseconds;
use crate::work::Work;

/// A call over 100 bytes was asked to take fewer instructions than this: a read that answers 0, and one that refuses.
const READ: u64 = 8_000;
const REFUSED: u64 = 15_000;

pub const HEAD: &str = "| text | call | answer | bytes | archive instructions | asked for, fewer than | archive ns |
|---|---|--:|--:|--:|--:|--:|";

const ROWS: [(Small, Action); 6] = [
    (Small::Least, Action::Read),
    (Small::Short, Action::Read),
    (Small::Short, Action::Print),
    (Small::NotAllowed, Action::Read),
    (Small::BadString, Action::Read),
    (Small::NotUtf8, Action::Read),
];

pub fn table() -> Result<(), String> {
    println!("{HEAD}");
    ROWS.into_iter().try_for_each(|(small, action)| row(small, action))
}

fn row(small: Small, action: Action) -> Result<(), String> {
    let case = Case::nested(Input::Small(small), action);
    let mut work = Work::new(case, Side::Archive)?;
    let (name, call, bytes) = (small.name(), call(case), work.bytes());
    let counted = instructions(case, Side::Archive)?.map_or("-".into(), |count| count.to_string());
    let time = nanoseconds(&mut work);
    println!("| {name} | {call} | {} | {bytes} | {counted} | {} | {time:.0} |", small.number(), asked(small, action));
    Ok(())
}

/// What was asked for, `-` for printing.
fn asked(small: Small, action: Action) -> String {
    match (action, small.number()) {
        (Action::Read, 0) => READ.to_string(),
        (Action::Read, _) => REFUSED.to_string(),
        _ => "-".into(),
    }
}
