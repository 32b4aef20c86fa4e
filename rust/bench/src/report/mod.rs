//! The tables of `docs/BENCHMARKS.md`.

mod growth;
mod sides;
mod small;
mod unfavourable;

use crate::callgrind::Counts;
use crate::case::{Action, Case, Side};
use crate::input::Input;
use crate::sort::spelling_name;
use crate::work::Work;
use crate::{callgrind, check};

/// Checks the texts, then prints all tables.
pub fn report() -> Result<(), String> {
    check::check()?;
    if !callgrind::is_there() {
        eprintln!("valgrind is not there, so instructions are not counted: those columns have `-`.");
    }
    sides::table()?;
    println!();
    let ordinary = growth::table()?;
    println!();
    small::table()?;
    println!();
    unfavourable::table(&ordinary)
}

fn call(case: Case) -> String {
    match (case.action, case.input) {
        (Action::Read, Input::Manual(..)) => format!("read {}", spelling_name(case.spelling)),
        _ => case.action.name().into(),
    }
}

/// Instructions of one call; none where they cannot be counted.
fn instructions(case: Case, side: Side) -> Result<Option<u64>, String> {
    Counts::of(case, side)?.map(|counts| counts.total()).transpose()
}

/// Instructions a byte of one call; none where they cannot be counted.
fn per_byte(case: Case, side: Side) -> Result<Option<f64>, String> {
    let Some(total) = instructions(case, side)? else { return Ok(None) };
    let bytes = Work::new(case, side)?.bytes();
    Ok(Some(total as f64 / bytes as f64))
}

/// A figure with one digit behind the point, `-` where there is none.
fn figure(figure: Option<f64>) -> String {
    figure.map_or("-".into(), |figure| format!("{figure:.1}"))
}

#[cfg(test)]
mod tests {
    use super::*;
    use crate::stack;

    const PAGE: &str = include_str!("../../../../docs/BENCHMARKS.md");

    /// In the order in which they are printed, the stack's last.
    #[test]
    fn the_page_has_the_heads_of_all_tables() {
        let heads = [sides::HEAD, growth::HEAD, small::HEAD, unfavourable::HEAD, stack::HEAD];
        let places = heads.map(|head| PAGE.find(&format!("\n{head}\n")));
        assert!(places.iter().all(|place| place.is_some()) && places.is_sorted(), "{places:?}");
    }
}
