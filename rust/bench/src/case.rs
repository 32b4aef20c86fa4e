//! What is measured: one call over one text.

use crate::input::Input;
use crate::sort::{spelling_name, Sort, SPELLINGS};
use structural::Spelling;

/// Sizes of manuals, in KiB; the last is the most that a text may have.
pub const SIZES: [usize; 4] = [8, 16, 32, 64];

#[derive(Clone, Copy, PartialEq, Eq)]
pub enum Action {
    Read,
    Check,
    Print,
}

impl Action {
    /// In the order in which each needs what those before it left.
    pub const ALL: [Action; 3] = [Action::Read, Action::Check, Action::Print];

    pub fn name(self) -> &'static str {
        match self {
            Action::Read => "read",
            Action::Check => "check",
            Action::Print => "print",
        }
    }

    fn from_name(name: &str) -> Option<Action> {
        Action::ALL.into_iter().find(|action| action.name() == name)
    }
}

/// Whose function is called.
#[derive(Clone, Copy, PartialEq, Eq)]
pub enum Side {
    Archive,
    Oracle,
}

impl Side {
    pub const ALL: [Side; 2] = [Side::Archive, Side::Oracle];

    pub fn name(self) -> &'static str {
        match self {
            Side::Archive => "archive",
            Side::Oracle => "oracle",
        }
    }
}

/// A text and what is done with it.
#[derive(Clone, Copy)]
pub struct Case {
    pub input: Input,
    pub spelling: Spelling,
    pub action: Action,
}

impl Case {
    /// Of a manual of so many KiB.
    pub fn manual(sort: Sort, spelling: Spelling, kib: usize, action: Action) -> Case {
        Case { input: Input::Manual(sort, kib), spelling, action }
    }

    /// Of an input in the nested spelling.
    pub fn nested(input: Input, action: Action) -> Case {
        Case { input, spelling: Spelling::Nested, action }
    }

    pub fn text(&self) -> Vec<u8> {
        self.input.text(self.spelling)
    }

    /// Of the words `SORT SPELLING SIZE ACTION`, or `GROUP NAME ACTION`.
    pub fn from_words(words: &[String]) -> Option<Case> {
        let (action, words) = words.split_last()?;
        let action = Action::from_name(action)?;
        match words {
            [sort, spelling, kib] => Some(Case::manual(
                Sort::from_name(sort)?,
                SPELLINGS.into_iter().find(|&each| spelling_name(each) == spelling)?,
                kib.parse().ok().filter(|kib| SIZES.contains(kib))?,
                action,
            )),
            [group, name] => {
                let input = Input::named(group, name).filter(|input| input.actions().contains(&action))?;
                Some(Case::nested(input, action))
            }
            _ => None,
        }
    }

    /// The words that [`Case::from_words`] takes.
    pub fn words(&self) -> Vec<String> {
        let action = self.action.name().to_string();
        match self.input {
            Input::Manual(sort, kib) => {
                vec![sort.name().into(), spelling_name(self.spelling).into(), kib.to_string(), action]
            }
            Input::Small(small) => vec![Input::SMALL.into(), small.name().into(), action],
            Input::Unfavourable(shape) => vec![Input::UNFAVOURABLE.into(), shape.name().into(), action],
        }
    }
}

#[cfg(test)]
mod tests {
    use super::*;

    #[test]
    fn words_name_their_case() {
        let manuals = SPELLINGS.map(|spelling| Case::manual(Sort::Markup, spelling, 16, Action::Check));
        let others =
            Input::others().flat_map(|input| input.actions().iter().map(move |&each| Case::nested(input, each)));
        for case in manuals.into_iter().chain(others) {
            let words = case.words();
            assert_eq!(Case::from_words(&words).map(|case| case.words()), Some(words));
        }
    }

    #[test]
    fn other_words_name_none() {
        for words in
            ["", "read", "markup nested 64", "markup nested 63 read", "small least fold", "small not-utf8 print"]
        {
            let words: Vec<String> = words.split_whitespace().map(String::from).collect();
            assert!(Case::from_words(&words).is_none());
        }
    }
}
