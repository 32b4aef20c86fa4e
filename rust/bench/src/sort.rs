//! The four sorts of manual, and the names of sorts and spellings on the command line.

use crate::manual::Manual;
use crate::{links, lists, markup, prose};
use structural::Spelling;

/// What most of a manual's bytes are.
#[derive(Clone, Copy, PartialEq, Eq)]
pub enum Sort {
    Prose,
    Markup,
    Links,
    Lists,
}

impl Sort {
    pub const ALL: [Sort; 4] = [Sort::Prose, Sort::Markup, Sort::Links, Sort::Lists];

    pub fn name(self) -> &'static str {
        match self {
            Sort::Prose => "prose",
            Sort::Markup => "markup",
            Sort::Links => "links",
            Sort::Lists => "lists",
        }
    }

    pub fn from_name(name: &str) -> Option<Sort> {
        Sort::ALL.into_iter().find(|sort| sort.name() == name)
    }

    pub fn manual(self, size: usize) -> Manual {
        match self {
            Sort::Prose => prose::manual(size),
            Sort::Markup => markup::manual(size),
            Sort::Links => links::manual(size),
            Sort::Lists => lists::manual(size),
        }
    }
}

pub const SPELLINGS: [Spelling; 2] = [Spelling::Nested, Spelling::Imperative];

pub fn spelling_name(spelling: Spelling) -> &'static str {
    match spelling {
        Spelling::Nested => "nested",
        Spelling::Imperative => "imperative",
    }
}
