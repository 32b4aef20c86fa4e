//! What is read: files, standard input, and the files of a folder.

use std::ffi::OsStr;
use std::fs::{self, File};
use std::io::{self, Read};
use std::path::{Path, PathBuf};
use structural::lent::MAX_TEXT;
use structural::Spelling;

/// The word for standard input.
const STANDARD_INPUT: &str = "-";

/// A file or standard input, and the spelling that it is read in.
#[derive(Debug, PartialEq, Eq)]
pub struct Input {
    name: PathBuf,
    spelling: Spelling,
}

impl Input {
    /// What a word of the call names, in the spelling chosen, else in that of its ending, else nested.
    pub fn named(word: &OsStr, choice: Option<Spelling>) -> Input {
        let name = PathBuf::from(word);
        let spelling = choice.or_else(|| Spelling::of_file(&name)).unwrap_or(Spelling::Nested);
        Input { name, spelling }
    }

    /// The name to show.
    pub fn name(&self) -> &Path {
        &self.name
    }

    pub fn spelling(&self) -> Spelling {
        self.spelling
    }

    /// The text, or as much of it as shows that it is too long.
    pub fn load(&self) -> io::Result<Vec<u8>> {
        if self.name.as_os_str() == STANDARD_INPUT {
            start(io::stdin().lock())
        } else {
            start(File::open(&self.name)?)
        }
    }
}

fn start(from: impl Read) -> io::Result<Vec<u8>> {
    let mut text = Vec::new();
    from.take(MAX_TEXT as u64 + 1).read_to_end(&mut text)?;
    Ok(text)
}

/// Whether a word of the call names a folder.
pub fn is_folder(word: &OsStr) -> bool {
    word != STANDARD_INPUT && Path::new(word).is_dir()
}

/// What a folder has, and those below it.
#[derive(Default)]
pub struct Found {
    /// The files that have an ending of a document, by name.
    pub inputs: Vec<Input>,
    /// The folders that cannot be read.
    pub unread: Vec<(PathBuf, io::Error)>,
}

/// Walks a folder and those below it. Links to folders are not followed.
pub fn walk(folder: &OsStr) -> Found {
    let mut found = Found::default();
    let mut open = vec![PathBuf::from(folder)];
    while let Some(folder) = open.pop() {
        if let Err(error) = found.enter(&folder, &mut open) {
            found.unread.push((folder, error));
        }
    }
    found.inputs.sort_by(|a, b| a.name.cmp(&b.name));
    found
}

impl Found {
    /// Takes the files of one folder, and leaves those in it for later.
    fn enter(&mut self, folder: &Path, open: &mut Vec<PathBuf>) -> io::Result<()> {
        for entry in fs::read_dir(folder)? {
            let entry = entry?;
            let (path, kind) = (entry.path(), entry.file_type()?);
            if kind.is_dir() {
                open.push(path);
            } else if kind.is_file() || (kind.is_symlink() && !path.is_dir()) {
                self.take(path);
            }
        }
        Ok(())
    }

    fn take(&mut self, name: PathBuf) {
        if let Some(spelling) = Spelling::of_file(&name) {
            self.inputs.push(Input { name, spelling });
        }
    }
}
