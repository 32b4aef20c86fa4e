//! The command `structural`: checks, lists and tidies documents.
#![forbid(unsafe_code)]

mod arguments;
mod check;
mod excerpt;
mod input;
mod listing;
mod output;
mod report;
mod width;

use arguments::{Request, Task};
use input::Input;
use std::process::ExitCode;
use structural::Draft;

/// Exit status of a wrong call; 0 is that all is well and 1 that something is not.
const WRONG_CALL: u8 = 2;

fn main() -> ExitCode {
    match arguments::parse(std::env::args_os().skip(1)) {
        Ok(request) => status(answer(request)),
        Err(message) => {
            output::complain(&format!("structural: {message}\n{}\n", arguments::HINT));
            ExitCode::from(WRONG_CALL)
        }
    }
}

fn status(well: bool) -> ExitCode {
    if well {
        ExitCode::SUCCESS
    } else {
        ExitCode::FAILURE
    }
}

/// Does what is asked; whether all went well.
fn answer(request: Request) -> bool {
    match request {
        Request::Help => output::say(arguments::HELP),
        Request::Version => output::say(arguments::VERSION),
        Request::Check(words, choice, drafts) => check::all(&words, choice, drafts),
        Request::One(task, word, choice) => one(task, &Input::named(&word, choice)),
    }
}

fn one(task: Task, input: &Input) -> bool {
    match report::read(input) {
        Ok(draft) => output::say(&written(task, &draft)),
        Err(message) => {
            output::complain(&message);
            false
        }
    }
}

fn written(task: Task, draft: &Draft) -> String {
    match task {
        Task::List => listing::lines(draft),
        Task::Fmt => draft.print() + "\n",
    }
}
