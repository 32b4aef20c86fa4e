//! The words of a call.

use std::ffi::{OsStr, OsString};
use structural::Spelling;

/// What `--help` prints.
pub const HELP: &str = "\
structural: check, list and tidy documents of the language Structural 3.0.0

  structural check FILE..   say of each file whether it is a well-formed document, and show every
                            fault of its rows, ids and links (15 to 18); of a folder, all files in
                            it that end in .sd or .sdi
  structural list FILE      one line a node: number, kind, parent, end, the kind's name, and
                            its id or target, size, type and text
  structural fmt FILE       the canonical spelling, on standard output

list and fmt take drafts: documents that may still have faults of rows, ids and links.

A file that ends in .sdi is read in the imperative spelling, any other in the nested one (.sd).
FILE is - for standard input.

  --imperative   read the files named, and standard input, in the imperative spelling whatever
                 their endings; in a folder the endings decide
  --draft        check: faults of rows, ids and links (15 to 18) are warnings
  --             what follows is a file, whatever its name
  --help, --version

Exit status: 0 nothing is refused; 1 a file is refused or cannot be read; 2 wrong usage. Under
check a file that is not well-formed is refused, under check --draft, list and fmt it is not.
";

/// What `--version` prints: the version of this package, and that of the language.
pub const VERSION: &str = concat!("structural ", env!("CARGO_PKG_VERSION"), " (language 3.0.0)\n");

/// What stands below a message about a wrong call.
pub const HINT: &str = "\
usage: structural [--imperative] check [--draft] FILE.. | list FILE | fmt FILE
structural --help says more.";

/// A task for one file.
#[derive(Clone, Copy, Debug, PartialEq, Eq)]
pub enum Task {
    List,
    Fmt,
}

/// What becomes of a document with faults 15 to 18.
#[derive(Clone, Copy, Debug, Default, PartialEq, Eq)]
pub enum Drafts {
    #[default]
    Refused,
    /// Its faults are warnings.
    Taken,
}

/// A call that was understood. The spelling is the one that an option chose, if any.
#[derive(Debug, PartialEq, Eq)]
pub enum Request {
    Help,
    Version,
    Check(Vec<OsString>, Option<Spelling>, Drafts),
    One(Task, OsString, Option<Spelling>),
}

/// The words that are no options, and what the options chose.
#[derive(Default)]
struct Words {
    plain: Vec<OsString>,
    spelling: Option<Spelling>,
    drafts: Drafts,
    early: Option<Early>,
}

/// What is answered without looking at the rest of the call.
enum Early {
    Help,
    Version,
}

/// What a call asks for, or what is wrong with it.
pub fn parse(words: impl Iterator<Item = OsString>) -> Result<Request, String> {
    let words = sort(words)?;
    match words.early {
        Some(Early::Help) => return Ok(Request::Help),
        Some(Early::Version) => return Ok(Request::Version),
        None => {}
    }
    let mut plain = words.plain.into_iter();
    let task = plain.next().ok_or("no task is named")?;
    let files: Vec<OsString> = plain.collect();
    match (task.to_str(), words.drafts) {
        (Some("check"), drafts) => check(files, words.spelling, drafts),
        (Some("list" | "fmt"), Drafts::Taken) => Err("--draft goes with check; list and fmt take drafts".to_string()),
        (Some("list"), _) => one(Task::List, files, words.spelling),
        (Some("fmt"), _) => one(Task::Fmt, files, words.spelling),
        (Some("help"), _) => Ok(Request::Help),
        _ => Err(format!("unknown task: {}", task.to_string_lossy())),
    }
}

fn sort(words: impl Iterator<Item = OsString>) -> Result<Words, String> {
    let mut sorted = Words::default();
    let mut options = true;
    for word in words {
        if options && word == "--" {
            options = false;
        } else if options && is_option(&word) {
            sorted.take(&word)?;
        } else {
            sorted.plain.push(word);
        }
    }
    Ok(sorted)
}

impl Words {
    fn take(&mut self, option: &OsStr) -> Result<(), String> {
        match option.to_str() {
            Some("--imperative") => self.spelling = Some(Spelling::Imperative),
            Some("--draft") => self.drafts = Drafts::Taken,
            Some("--help" | "-h") => self.early = Some(Early::Help),
            Some("--version" | "-V") => self.early = Some(Early::Version),
            _ => return Err(format!("unknown option: {}", option.to_string_lossy())),
        }
        Ok(())
    }
}

/// A word that starts with a hyphen, but for the hyphen that is standard input.
fn is_option(word: &OsStr) -> bool {
    word != "-" && word.as_encoded_bytes().starts_with(b"-")
}

fn check(files: Vec<OsString>, spelling: Option<Spelling>, drafts: Drafts) -> Result<Request, String> {
    if files.is_empty() {
        return Err("check wants a file or a folder".to_string());
    }
    if files.iter().filter(|file| *file == "-").count() > 1 {
        return Err("standard input can be read once".to_string());
    }
    Ok(Request::Check(files, spelling, drafts))
}

fn one(task: Task, files: Vec<OsString>, spelling: Option<Spelling>) -> Result<Request, String> {
    let name = match task {
        Task::List => "list",
        Task::Fmt => "fmt",
    };
    match <[OsString; 1]>::try_from(files) {
        Ok([file]) => Ok(Request::One(task, file, spelling)),
        Err(_) => Err(format!("{name} wants one file")),
    }
}

#[cfg(test)]
mod tests {
    use super::*;

    fn parsed(words: &[&str]) -> Result<Request, String> {
        parse(words.iter().map(OsString::from))
    }

    #[test]
    fn tasks() {
        let both = |drafts| Ok(Request::Check(vec!["a".into(), "b".into()], None, drafts));
        assert_eq!(parsed(&["check", "a", "b"]), both(Drafts::Refused));
        assert_eq!(parsed(&["check", "a", "--draft", "b"]), both(Drafts::Taken));
        assert_eq!(parsed(&["list", "-"]), Ok(Request::One(Task::List, "-".into(), None)));
        assert_eq!(parsed(&["fmt", "a.sd"]), Ok(Request::One(Task::Fmt, "a.sd".into(), None)));
    }

    #[test]
    fn options_stand_anywhere_up_to_two_hyphens() {
        let imperative = Some(Spelling::Imperative);
        for words in [["--imperative", "fmt", "a"], ["fmt", "--imperative", "a"], ["fmt", "a", "--imperative"]] {
            assert_eq!(parsed(&words), Ok(Request::One(Task::Fmt, "a".into(), imperative)));
        }
        let file = Ok(Request::One(Task::Fmt, "--imperative".into(), None));
        assert_eq!(parsed(&["fmt", "--", "--imperative"]), file);
        assert_eq!(parsed(&["check", "--help"]), Ok(Request::Help));
        assert_eq!(parsed(&["--version"]), Ok(Request::Version));
    }

    #[test]
    fn wrong_calls() {
        for words in [
            &[] as &[&str],
            &["check"],
            &["check", "-", "-"],
            &["list"],
            &["list", "a", "b"],
            &["fmt"],
            &["tidy", "a"],
            &["check", "--nested", "a"],
            &["check", "-x"],
            &["check", "--draft"],
            &["fmt", "--draft", "a"],
            &["list", "--draft", "a"],
        ] {
            assert!(parsed(words).is_err(), "{words:?}");
        }
    }
}
