//! Archive and oracle at the largest size.

use super::{call, figure, per_byte};
use crate::case::{Action, Case, Side};
use crate::sort::{Sort, SPELLINGS};
use crate::target::target;
use crate::timing::speeds;
use crate::work::Work;
use structural::Spelling;

pub const HEAD: &str = "\
| manual | call | bytes | archive MB/s | oracle MB/s | archive / oracle | archive i/B | oracle i/B | target i/B |
|---|---|--:|--:|--:|--:|--:|--:|--:|";

/// Check and print are measured once, as both spellings give the same table.
pub fn table() -> Result<(), String> {
    println!("{HEAD}");
    for sort in Sort::ALL {
        for spelling in SPELLINGS {
            row(sort, spelling, Action::Read)?;
        }
        for action in [Action::Check, Action::Print] {
            row(sort, Spelling::Nested, action)?;
        }
    }
    Ok(())
}

fn row(sort: Sort, spelling: Spelling, action: Action) -> Result<(), String> {
    let case = Case::manual(sort, spelling, 64, action);
    let mut work = Work::new(case, Side::Archive)?;
    let [archive, oracle] = speeds(&mut work);
    let speed = format!("{archive:.1} | {oracle:.1} | {:.3}", archive / oracle);
    let [ours, theirs] = [figure(per_byte(case, Side::Archive)?), figure(per_byte(case, Side::Oracle)?)];
    let (manual, call, target) = (sort.name(), call(case), figure(target(sort, spelling, action)));
    println!("| {manual} | {call} | {} | {speed} | {ours} | {theirs} | {target} |", work.bytes());
    Ok(())
}
