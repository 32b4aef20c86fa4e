//! Running the programs.
#![allow(dead_code, unused_imports)]

#[path = "../../../structural/tests/common/repository.rs"]
mod repository;

pub use repository::bytes;

use repository::file;
use std::io::Write;
use std::process::{Command, Stdio};
use std::thread::sleep;
use std::time::Duration;

/// All three read standard input alike, and answer alike what they do not accept.
pub const ALL: [&str; 3] = ["list_nested", "list_imperative", "print_canonical"];

/// What a program prints where standard input holds these pieces, with a pause after each but the last.
pub fn run_on_pieces(program: &str, pieces: &[&[u8]]) -> String {
    let path = file("crates").join(program).join("out").join(program);
    assert!(path.is_file(), "{} is not there. Run `rt run` in crates/{program}.", path.display());
    let mut command = Command::new(path);
    command.stdin(Stdio::piped()).stdout(Stdio::piped()).stderr(Stdio::piped());
    let mut child = command.spawn().unwrap_or_else(|error| panic!("{program}: {error}"));
    let mut input = child.stdin.take().unwrap();
    for (place, piece) in pieces.iter().enumerate() {
        if place > 0 {
            sleep(Duration::from_millis(50));
        }
        // A program that has read enough ends before the rest of its input is written.
        let _ = input.write_all(piece);
    }
    drop(input);
    let output = child.wait_with_output().unwrap();
    assert!(output.status.success() && output.stderr.is_empty(), "{program}: {output:?}");
    String::from_utf8(output.stdout).unwrap()
}

pub fn run(program: &str, text: impl AsRef<[u8]>) -> String {
    run_on_pieces(program, &[text.as_ref()])
}

pub fn list_nested(text: impl AsRef<[u8]>) -> String {
    run("list_nested", text)
}

pub fn list_imperative(text: impl AsRef<[u8]>) -> String {
    run("list_imperative", text)
}

pub fn print_canonical(text: impl AsRef<[u8]>) -> String {
    run("print_canonical", text)
}

/// Of two long texts the place where they first differ; `assert_eq` would print both.
pub fn assert_same(printed: &str, expected: &str) {
    let same = printed.bytes().zip(expected.bytes()).take_while(|(a, b)| a == b).count();
    let (lengths, whole) = ((printed.len(), expected.len()), same == printed.len() && same == expected.len());
    assert!(whole, "what is printed differs from what is expected after {same} bytes; their lengths: {lengths:?}");
}

/// A document of so many nodes, in either spelling: its title holds all but two of them, one letter each.
pub fn letters(nodes: usize) -> String {
    format!("[document [title{}]]", " a".repeat(nodes - 2))
}

/// A small document, in either spelling, with spaces behind it up to this length.
pub fn padded(length: usize) -> String {
    let document = "[document [title A]]";
    document.to_string() + &" ".repeat(length - document.len())
}

/// A document of 32,768 bytes, in either spelling, whose title is this character 32,750 times: brackets, names and the
/// space between two symbols take 18 bytes at least, so no text fills more of the pool.
pub fn full(character: &str) -> String {
    let text = format!("[document[title {}]]", character.repeat(32_750));
    assert_eq!(text.len(), 32_768);
    text
}
