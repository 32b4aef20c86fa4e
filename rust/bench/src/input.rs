//! The texts that calls are measured over.

use crate::case::{Action, SIZES};
use crate::small::Small;
use crate::sort::{Sort, SPELLINGS};
use crate::spell::spell;
use crate::unfavourable::Unfavourable;
use structural::Spelling;

/// A manual of so many KiB has both spellings, the others are nested.
#[derive(Clone, Copy, PartialEq, Eq)]
pub enum Input {
    Manual(Sort, usize),
    Small(Small),
    Unfavourable(Unfavourable),
}

impl Input {
    /// The groups' names on the command line.
    pub const SMALL: &'static str = "small";
    pub const UNFAVOURABLE: &'static str = "unfavourable";

    /// All that are no manuals.
    pub fn others() -> impl Iterator<Item = Input> {
        let small = Small::ALL.into_iter().map(Input::Small);
        small.chain(Unfavourable::ALL.into_iter().map(Input::Unfavourable))
    }

    /// All, each with the spellings that it has.
    pub fn all() -> impl Iterator<Item = (Input, Vec<Spelling>)> {
        let sizes = Sort::ALL.into_iter().flat_map(|sort| SIZES.map(|kib| Input::Manual(sort, kib)));
        let manuals = sizes.map(|manual| (manual, SPELLINGS.to_vec()));
        manuals.chain(Input::others().map(|input| (input, vec![Spelling::Nested])))
    }

    pub fn named(group: &str, name: &str) -> Option<Input> {
        match group {
            Input::SMALL => Small::ALL.into_iter().find(|each| each.name() == name).map(Input::Small),
            Input::UNFAVOURABLE => {
                Unfavourable::ALL.into_iter().find(|each| each.name() == name).map(Input::Unfavourable)
            }
            _ => None,
        }
    }

    /// Of its file, without the ending that says the spelling.
    pub fn name(self) -> String {
        match self {
            Input::Manual(sort, kib) => format!("{}-{kib}", sort.name()),
            Input::Small(small) => format!("{}-{}", Input::SMALL, small.name()),
            Input::Unfavourable(shape) => format!("{}-{}", Input::UNFAVOURABLE, shape.name()),
        }
    }

    pub fn text(self, spelling: Spelling) -> Vec<u8> {
        match self {
            Input::Manual(sort, kib) => spell(&sort.manual(kib * 1024), spelling).into_bytes(),
            Input::Small(small) => small.text(),
            Input::Unfavourable(shape) => shape.text().into_bytes(),
        }
    }

    /// What reading it answers.
    pub fn number(self) -> u32 {
        match self {
            Input::Manual(..) => 0,
            Input::Small(small) => small.number(),
            Input::Unfavourable(shape) => shape.number(),
        }
    }

    /// What can be done with it: one that is refused leaves no table.
    pub fn actions(self) -> &'static [Action] {
        match self.number() {
            0 => &Action::ALL,
            _ => &[Action::Read],
        }
    }
}
