//! How fast the archive reads, checks and prints, beside the second implementation: the tables of `docs/BENCHMARKS.md`.

mod callgrind;
mod case;
mod check;
mod deep;
mod element;
mod input;
mod links;
mod lists;
mod manual;
mod markup;
mod once;
mod profile;
mod prose;
mod report;
mod small;
mod sort;
mod spell;
mod stack;
mod target;
mod timing;
mod unfavourable;
mod words;
mod work;
mod write;

use case::{Case, Side};
use std::path::Path;
use std::process::ExitCode;

const USAGE: &str = "usage: bench
       bench stack
       bench write DIR
       bench profile TEXT read|check|print
       bench once TEXT read|check|print archive|oracle
TEXT is SORT SPELLING SIZE, small NAME, or unfavourable NAME; SORT is prose, markup, links or lists;
SPELLING is nested or imperative; SIZE is 8, 16, 32 or 64 KiB; NAME is one that the tables have.";

fn main() -> ExitCode {
    let words: Vec<String> = std::env::args().skip(1).collect();
    match run(&words) {
        Ok(()) => ExitCode::SUCCESS,
        Err(error) => {
            eprintln!("{error}");
            ExitCode::FAILURE
        }
    }
}

fn run(words: &[String]) -> Result<(), String> {
    match words {
        [] => report::report(),
        [command] if command == "stack" => stack::stack(),
        [command, folder] if command == "write" => write::write(Path::new(folder)),
        [command, case @ ..] if command == "profile" => profile::profile(case_of(case)?),
        [command, case @ .., side] if command == "once" => once::once(case_of(case)?, side_of(side)?),
        _ => Err(USAGE.into()),
    }
}

fn case_of(words: &[String]) -> Result<Case, String> {
    Case::from_words(words).ok_or(USAGE.into())
}

fn side_of(word: &str) -> Result<Side, String> {
    Side::ALL.into_iter().find(|side| side.name() == word).ok_or(USAGE.into())
}
