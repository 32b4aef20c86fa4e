//! Instructions of one call, counted by valgrind's callgrind in a process of its own.

use crate::case::{Case, Side};
use crate::once::MEASURED;
use std::path::{Path, PathBuf};
use std::process::{Command, Stdio};
use std::{env, fs, process};

/// What callgrind wrote; the file is gone when this is.
pub struct Counts {
    file: PathBuf,
}

impl Drop for Counts {
    fn drop(&mut self) {
        // A file that is left in the folder for temporary ones does no harm.
        let _ = fs::remove_file(&self.file);
    }
}

impl Counts {
    /// Runs this program's `once` under callgrind; `None` where valgrind is missing.
    pub fn of(case: Case, side: Side) -> Result<Option<Counts>, String> {
        if !is_there() {
            return Ok(None);
        }
        let words = case.words();
        let file = env::temp_dir().join(format!("bench-{}-{}-{}", process::id(), words.join("-"), side.name()));
        let counts = Counts { file };
        let mut command = Command::new("valgrind");
        command.args(["--tool=callgrind", &format!("--toggle-collect={MEASURED}")]);
        command.arg(format!("--callgrind-out-file={}", counts.file.display()));
        command.arg(env::current_exe().map_err(|error| error.to_string())?);
        let output = command.arg("once").args(words).arg(side.name()).output().map_err(|error| error.to_string())?;
        match output.status.success() {
            true => Ok(Some(counts)),
            false => Err(String::from_utf8_lossy(&output.stderr).into_owned()),
        }
    }

    pub fn file(&self) -> &Path {
        &self.file
    }

    /// All instructions of the call.
    pub fn total(&self) -> Result<u64, String> {
        let text = fs::read_to_string(&self.file).map_err(|error| error.to_string())?;
        let total = |line: &str| line.strip_prefix("summary: ").or(line.strip_prefix("totals: "))?.trim().parse().ok();
        text.lines().find_map(total).ok_or(format!("no total in what callgrind wrote to {}", self.file.display()))
    }
}

/// Whether valgrind can be run.
pub fn is_there() -> bool {
    let quiet = Command::new("valgrind").arg("--version").stdout(Stdio::null()).stderr(Stdio::null()).status();
    quiet.is_ok_and(|status| status.success())
}
