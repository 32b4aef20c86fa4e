//! The generated texts as files, for profiling by hand.

use crate::case::{Action, Case, Side};
use crate::input::Input;
use crate::work::Work;
use std::fs;
use std::path::Path;
use structural::Spelling;

/// Writes each text to a folder, and says what it has.
pub fn write(folder: &Path) -> Result<(), String> {
    fs::create_dir_all(folder).map_err(|error| format!("{}: {error}", folder.display()))?;
    for (input, spellings) in Input::all() {
        for spelling in spellings {
            write_one(folder, Case { input, spelling, action: Action::Read })?;
        }
    }
    Ok(())
}

fn write_one(folder: &Path, case: Case) -> Result<(), String> {
    let work = Work::new(case, Side::Archive)?;
    let ending = if case.spelling == Spelling::Nested { "sd" } else { "sdi" };
    let file = folder.join(format!("{}.{ending}", case.input.name()));
    fs::write(&file, case.text()).map_err(|error| format!("{}: {error}", file.display()))?;
    println!("{}: {} bytes, {} nodes", file.display(), work.bytes(), work.nodes());
    Ok(())
}
