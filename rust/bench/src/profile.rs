//! Which functions of the archive the instructions of one call are spent in.

use crate::callgrind::Counts;
use crate::case::{Case, Side};
use crate::work::Work;
use std::collections::BTreeMap;
use std::process::Command;

const SHOWN: usize = 25;

/// Prints the functions with the most instructions of their own, and how many a byte that is.
pub fn profile(case: Case) -> Result<(), String> {
    let bytes = Work::new(case, Side::Archive)?.bytes() as f64;
    let counts = Counts::of(case, Side::Archive)?.ok_or("valgrind is not there")?;
    let total = counts.total()?;
    let words = case.words().join(" ");
    let mut lines = format!("{words}: {bytes} bytes, {total} instructions, {:.2} a byte\n", total as f64 / bytes);
    for (instructions, function) in functions(&annotated(&counts)?).into_iter().take(SHOWN) {
        lines += &format!("{:>9.2} {instructions:>12} {function}\n", instructions as f64 / bytes);
    }
    // At once, so that `head` may close the pipe.
    print!("{lines}");
    Ok(())
}

fn annotated(counts: &Counts) -> Result<String, String> {
    let output = Command::new("callgrind_annotate").args(["--threshold=100", "--auto=no"]).arg(counts.file()).output();
    let output = output.map_err(|error| format!("callgrind_annotate: {error}"))?;
    Ok(String::from_utf8_lossy(&output.stdout).into_owned())
}

/// The functions with their own instructions, most first; a function and its recursive calls are one.
fn functions(text: &str) -> Vec<(u64, String)> {
    let mut counts = BTreeMap::new();
    for (count, function) in text.lines().filter_map(counted) {
        *counts.entry(function).or_insert(0) += count;
    }
    let mut functions: Vec<(u64, String)> = counts.into_iter().map(|(function, count)| (count, function)).collect();
    functions.sort_by(|a, b| b.cmp(a));
    functions
}

/// Of a line such as `1,234 (12.3%)  file:function'2 [object]`.
fn counted(line: &str) -> Option<(u64, String)> {
    let (count, rest) = line.trim_start().split_once(' ')?;
    let count = count.replace(',', "").parse().ok()?;
    let (_percent, place) = rest.split_once(')')?;
    let (_file, function) = place.split_once(':')?;
    let function = function.split(" [").next()?;
    Some((count, function.split('\'').next()?.to_string()))
}
