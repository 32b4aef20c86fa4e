//! `structural check`.

use crate::arguments::Drafts;
use crate::input::{self, Input};
use crate::output;
use crate::report::{self, Source};
use std::ffi::{OsStr, OsString};
use structural::{Draft, Spelling};

/// How the files did.
struct Tally {
    drafts: Drafts,
    well_formed: usize,
    /// Those whose faults are warnings.
    warned: usize,
    refused: usize,
    unread: usize,
    /// Whether all that was to be said could be.
    said: bool,
}

/// Checks all that the words name; whether nothing of it is refused.
pub fn all(words: &[OsString], choice: Option<Spelling>, drafts: Drafts) -> bool {
    let mut tally = Tally { drafts, well_formed: 0, warned: 0, refused: 0, unread: 0, said: true };
    for word in words {
        if input::is_folder(word) {
            tally.folder(word);
        } else {
            tally.input(&Input::named(word, choice));
        }
    }
    tally.close()
}

impl Tally {
    fn folder(&mut self, word: &OsStr) {
        let found = input::walk(word);
        if found.inputs.is_empty() && found.unread.is_empty() {
            self.unread(&format!("{}: no file in it ends in .sd or .sdi\n", word.to_string_lossy()));
        }
        for (folder, error) in &found.unread {
            self.unread(&report::unread(folder, error));
        }
        for input in &found.inputs {
            self.input(input);
        }
    }

    fn unread(&mut self, message: &str) {
        self.unread += 1;
        output::complain(message);
    }

    fn input(&mut self, input: &Input) {
        match input.load() {
            Ok(text) => self.text(&Source { name: input.name(), text: &text }, input.spelling()),
            Err(error) => self.unread(&report::unread(input.name(), &error)),
        }
    }

    fn text(&mut self, source: &Source, spelling: Spelling) {
        match structural::read_draft(source.text, spelling) {
            Ok(draft) => self.draft(source, &draft),
            Err(refusal) => {
                self.refused += 1;
                output::complain(&source.refused(&refusal));
            }
        }
    }

    fn draft(&mut self, source: &Source, draft: &Draft) {
        let faults = draft.faults();
        if faults.is_empty() {
            self.well_formed += 1;
            self.said &= output::say(&source.fine(draft));
            return;
        }
        output::complain(&source.faults(draft, &faults, self.drafts));
        match self.drafts {
            Drafts::Refused => self.refused += 1,
            Drafts::Taken => {
                self.warned += 1;
                self.said &= output::say(&source.faulty(draft, faults.len()));
            }
        }
    }

    /// Sums up where there was more than one file; whether all is well.
    fn close(self) -> bool {
        let files = self.well_formed + self.warned + self.refused;
        let summed = files + self.unread < 2 || output::say(&self.sum(files));
        self.refused == 0 && self.unread == 0 && self.said && summed
    }

    fn sum(&self, files: usize) -> String {
        let mut line = format!("{}: {} well-formed", report::counted(files, "file"), self.well_formed);
        if self.warned != 0 {
            line += &format!(", {} with faults", report::counted(self.warned, "draft"));
        }
        line += &format!(", {} refused", self.refused);
        if self.unread != 0 {
            line += &format!("; {} not read", self.unread);
        }
        line + "\n"
    }
}
