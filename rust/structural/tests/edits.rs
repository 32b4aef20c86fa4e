//! The edits of `crates/*/must-fail/`: each still fits the files that it changes. `rt ci` tries them.

mod common;

use common::{file, string};
use std::collections::BTreeMap;
use std::fs::read_dir;

/// The names in a folder of the repository; none where there is no such folder.
fn names_in(folder: &str) -> Vec<String> {
    let entries = read_dir(file(folder)).into_iter().flatten();
    entries.map(|entry| entry.unwrap().file_name().into_string().unwrap()).collect()
}

/// Makes the replacements of an edit, in order, each in the file named last before it, as `rt must-fail` does.
fn replace(folder: &str, edit: &str) -> Result<(), String> {
    let mut files = BTreeMap::new();
    let (mut changed, mut old, mut replaced) = (String::new(), "", 0);
    for line in edit.lines() {
        if let Some(name) = line.strip_prefix("file: ") {
            changed = format!("{folder}/{name}");
        } else if let Some(text) = line.strip_prefix("old: ") {
            old = text;
        } else if let Some(new) = line.strip_prefix("new:") {
            let text = files.entry(changed.clone()).or_insert_with_key(|name| string(name));
            match text.matches(old).count() {
                1 => *text = text.replace(old, new.strip_prefix(' ').unwrap_or(new)),
                found => return Err(format!("`{old}` stands {found} times in {changed}")),
            }
            replaced += 1;
        }
    }
    (replaced > 0).then_some(()).ok_or("there is no replacement".to_string())
}

#[test]
fn edits_fit() {
    let mut tried = 0;
    for name in names_in("crates") {
        let folder = format!("crates/{name}");
        for edit in names_in(&format!("{folder}/must-fail")) {
            let edit = format!("{folder}/must-fail/{edit}");
            replace(&folder, &string(&edit)).unwrap_or_else(|why| panic!("{edit}: {why}"));
            tried += 1;
        }
    }
    assert!(tried > 0, "no crate has an edit");
}
