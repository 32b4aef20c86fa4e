//! What is aimed at.

use crate::case::Action;
use crate::sort::Sort;
use structural::Spelling;

/// Instructions a byte at 64 KiB of a reader and printer that an expert wrote in Rust, over the same manuals: no heap, one
/// pass for UTF-8, one for tokens and rules together, ids by their hash. No target was set for the check.
pub fn target(sort: Sort, spelling: Spelling, action: Action) -> Option<f64> {
    match (action, spelling) {
        (Action::Read, Spelling::Nested) => Some(read_nested(sort)),
        (Action::Read, Spelling::Imperative) => Some(read_imperative(sort)),
        (Action::Check, _) => None,
        (Action::Print, _) => Some(print(sort)),
    }
}

fn read_nested(sort: Sort) -> f64 {
    match sort {
        Sort::Prose => 4.9,
        Sort::Markup => 25.9,
        Sort::Links => 37.6,
        Sort::Lists => 20.6,
    }
}

fn read_imperative(sort: Sort) -> f64 {
    match sort {
        Sort::Prose => 4.9,
        Sort::Markup => 26.1,
        Sort::Links => 38.0,
        Sort::Lists => 20.6,
    }
}

fn print(sort: Sort) -> f64 {
    match sort {
        Sort::Prose => 5.8,
        Sort::Markup => 22.6,
        Sort::Links => 21.5,
        Sort::Lists => 19.1,
    }
}
