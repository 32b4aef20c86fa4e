//! Whether what will be measured is the same work on both sides.

use crate::case::{Action, Case, Side};
use crate::input::Input;
use crate::work::Work;
use structural::Spelling;

/// Every text is answered as it should be, and both sides get one table and one canonical spelling from its spellings.
pub fn check() -> Result<(), String> {
    Input::all().try_for_each(|(input, spellings)| check_input(input, &spellings))
}

fn check_input(input: Input, spellings: &[Spelling]) -> Result<(), String> {
    let mut first = None;
    for &spelling in spellings {
        let case = Case { input, spelling, action: Action::Read };
        for side in Side::ALL {
            let work = Work::new(case, side)?;
            let first = first.get_or_insert_with(|| work.results());
            if *first != work.results() {
                return Err(format!("{}: the {} makes something else of it", case.words().join(" "), side.name()));
            }
        }
    }
    Ok(())
}
