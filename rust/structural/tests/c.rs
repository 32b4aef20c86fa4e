//! `include/structural.h` compiles without a warning, and so do programs that call all that it declares.

mod common;

use common::{file, PAIRS};
use std::fs::{self, File};
use std::path::{Path, PathBuf};
use std::process::{Command, Output};
use structural::{read_draft, Spelling};

fn archive() -> PathBuf {
    let folder = std::env::var_os("STRUCTURAL_LIB_DIR").map_or(file("target/staticlib"), PathBuf::from);
    folder.join("libstructural.a")
}

fn made(name: &str) -> PathBuf {
    Path::new(env!("CARGO_TARGET_TMPDIR")).join(name)
}

fn run(command: &mut Command) -> Output {
    command.output().unwrap_or_else(|error| panic!("{command:?}: {error}"))
}

const STRICT: [&str; 4] = ["-Wall", "-Wextra", "-Werror", "-pedantic"];

#[test]
fn header_compiles_as_c_and_cpp() {
    for (compiler, language, standard) in [("cc", "c", "c99"), ("cc", "c", "c11"), ("c++", "c++", "c++11")] {
        let mut command = Command::new(compiler);
        command.args(["-x", language, &format!("-std={standard}"), "-fsyntax-only"]);
        let output = run(command.args(STRICT).arg(file("include/structural.h")));
        assert!(output.status.success(), "{}", String::from_utf8_lossy(&output.stderr));
    }
}

/// Compiles a program of the repository with the archive.
fn compiled(source: &str, name: &str) -> PathBuf {
    let program = made(name);
    let mut compile = Command::new("cc");
    compile.arg("-std=c99").args(STRICT).arg("-I").arg(file("include"));
    let output = run(compile.arg(file(source)).arg(archive()).arg("-o").arg(&program));
    assert!(output.status.success(), "{}", String::from_utf8_lossy(&output.stderr));
    program
}

/// What a program prints in the repository's root with these words, on this file as standard input, and its exit status.
fn answered(program: &Path, words: &[&str], input: &Path) -> (String, i32) {
    let input = File::open(input).unwrap();
    let output = run(Command::new(program).args(words).current_dir(file(".")).stdin(input));
    (String::from_utf8(output.stdout).unwrap(), output.status.code().unwrap())
}

#[test]
fn example_compiles_and_answers() {
    let program = compiled("examples/read.c", "read");
    let answers = |words: &[&str]| answered(&program, words, Path::new("/dev/null"));
    let manual = ("ok: 595 nodes, 11675 pool bytes\n".to_string(), 0);
    assert_eq!(answers(&["examples/crew-manual.sd"]), manual);
    assert_eq!(answers(&["examples/crew-manual.sdi"]), manual);
    assert_eq!(answered(&program, &["--imperative", "-"], &file("examples/crew-manual.sdi")), manual);
    let twice = "examples/duplicate-id.sd:7:3: 16: a block has the id of an earlier block\n";
    assert_eq!(answers(&["examples/duplicate-id.sd"]), (twice.to_string(), 1));
    let missing = "examples/draft-manual.sd:19:7: 17: a link's target is the id of no block\n";
    assert_eq!(answers(&["examples/draft-manual.sd"]), (missing.to_string(), 1));
    let nested = "examples/anchoring.sd:4:3: 8: an expression that is not allowed here\n";
    assert_eq!(answers(&["--imperative", "examples/anchoring.sd"]), (nested.to_string(), 1));
    let empty = "-:1:1: 7: no expression, or in a nested text a second one\n";
    assert_eq!(answers(&["-"]), (empty.to_string(), 1));
    let long = "-:1:65537: 1: the text has more than 65,536 bytes\n";
    assert_eq!(answered(&program, &["-"], Path::new("/dev/zero")), (long.to_string(), 1));
    assert_eq!(answers(&["no-such-file"]), (String::new(), 1));
    assert_eq!(answers(&["examples"]), (String::new(), 1));
    assert_eq!(answers(&[]), (String::new(), 2));
    assert_eq!(answers(&["--imperative"]), (String::new(), 2));
    assert_eq!(answers(&["a", "b"]), (String::new(), 2));
}

#[test]
fn printing_from_c_is_printing_from_here() {
    let program = compiled("rust/structural/tests/print.c", "print");
    for example in PAIRS.into_iter().chain(["duplicate-id", "draft-manual"]) {
        let name = file(&format!("examples/{example}.sd"));
        let draft = read_draft(fs::read(&name).unwrap(), Spelling::Nested).unwrap();
        assert_eq!(answered(&program, &[], &name), (draft.print(), 0), "{example}");
    }
    assert_eq!(answered(&program, &[], &file("examples/anchoring.sdi")), (String::new(), 7));
}

/// In duplicate-id.sd each of the first two sections has a title, its text, a paragraph and its text, so that the
/// second section is node 8. In draft-manual.sd 43 nodes are before the link: document, title, text, section, title,
/// text, paragraph, text, reference, text; of the table itself, summary and text, head with three names and texts,
/// body, and three rows of three cells and texts, 1 + 2 + 7 + 1 + 21; text.
#[test]
fn checking_from_c() {
    let program = compiled("rust/structural/tests/check.c", "check");
    for (example, answers) in [
        ("crew-manual.sd", "0 595 11675\n0 0\n"),
        ("duplicate-id.sd", "0 21 277\n16 8\n"),
        ("draft-manual.sd", "0 56 617\n17 43\n"),
        ("anchoring.sdi", "7 0 0\n"),
    ] {
        let name = file(&format!("examples/{example}"));
        assert_eq!(answered(&program, &[], &name), (answers.to_string(), 0), "{example}");
    }
}
