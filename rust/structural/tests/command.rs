//! The command `structural`.

mod common;

use common::{bytes, file, string};
use std::fs;
use std::io::Write;
use std::path::PathBuf;
use std::process::{Command, Stdio};

/// What a call printed, and its exit status.
#[derive(Debug, PartialEq, Eq)]
struct Run {
    out: String,
    err: String,
    status: i32,
}

fn run_in(folder: PathBuf, words: &[&str], input: &[u8]) -> Run {
    let mut command = Command::new(env!("CARGO_BIN_EXE_structural"));
    command.args(words).current_dir(folder);
    let mut child = command
        .stdin(Stdio::piped())
        .stdout(Stdio::piped())
        .stderr(Stdio::piped())
        .spawn()
        .expect("the command starts");
    // A call that reads no standard input may have ended by now.
    let _ = child.stdin.take().unwrap().write_all(input);
    let output = child.wait_with_output().unwrap();
    Run {
        out: String::from_utf8(output.stdout).unwrap(),
        err: String::from_utf8(output.stderr).unwrap(),
        status: output.status.code().unwrap(),
    }
}

/// In the repository's root.
fn run(words: &[&str]) -> Run {
    run_in(file("."), words, b"")
}

/// On a text, as standard input.
fn run_on(words: &[&str], text: impl AsRef<[u8]>) -> Run {
    run_in(file("."), words, text.as_ref())
}

fn accepted(out: &str) -> Run {
    Run { out: out.to_string(), err: String::new(), status: 0 }
}

fn refused(err: &str) -> Run {
    Run { out: String::new(), err: err.to_string(), status: 1 }
}

/// A new folder for a test, with these files in it.
fn folder(name: &str, files: &[(&str, &str)]) -> PathBuf {
    let folder = PathBuf::from(env!("CARGO_TARGET_TMPDIR")).join(name);
    let _ = fs::remove_dir_all(&folder);
    fs::create_dir_all(&folder).unwrap();
    for (name, text) in files {
        let path = folder.join(name);
        fs::create_dir_all(path.parent().unwrap()).unwrap();
        fs::write(path, text).unwrap();
    }
    folder
}

const NESTED: &str = "[document [title A] [section [title B]]]";
const IMPERATIVE: &str = "[document [title A]] [section [title B]]";

#[test]
fn check_of_one_file() {
    let manual = "ok: 595 nodes, 11675 pool bytes\n";
    for name in ["examples/crew-manual.sd", "examples/crew-manual.sdi"] {
        assert_eq!(run(&["check", name]), accepted(&format!("{name}: {manual}")));
    }
    assert_eq!(run_on(&["check", "-"], bytes("examples/crew-manual.sd")), accepted(&format!("-: {manual}")));
    let imperative = run_on(&["check", "--imperative", "-"], bytes("examples/crew-manual.sdi"));
    assert_eq!(imperative, accepted(&format!("-: {manual}")));
}

const REPEATED: &str = "\
examples/duplicate-id.sd:7:3: 16: a block has the id of an earlier block
  7 |   [section
    |   ^
examples/duplicate-id.sd:3:3: note: the first block with the id wave-limit
  3 |   [section
    |   ^
";

const MISSING: &str = "\
examples/draft-manual.sd:19:7: 17: a link's target is the id of no block
  19 |       [link [target heavy-weather] \"Heavy weather\"]
     |       ^
  target: heavy-weather
";

/// A message as `--draft` has it: the number of a fault stands behind the word.
fn warned(message: &str) -> String {
    [": 15: ", ": 16: ", ": 17: ", ": 18: "]
        .into_iter()
        .fold(message.to_string(), |message, number| message.replace(number, &format!(": warning{number}")))
}

#[test]
fn check_of_a_folder() {
    let refused = run(&["check", "examples"]);
    assert_eq!((refused.err, refused.status), (format!("{MISSING}{REPEATED}"), 1));
    let lines: Vec<&str> = refused.out.lines().collect();
    assert_eq!(lines[0], "examples/anchoring.sd: ok: 66 nodes, 630 pool bytes");
    assert_eq!(lines[1], "examples/anchoring.sdi: ok: 66 nodes, 630 pool bytes");
    assert_eq!((lines.len(), lines.last()), (9, Some(&"10 files: 8 well-formed, 2 refused")));

    let taken = run(&["check", "--draft", "examples"]);
    assert_eq!((taken.err, taken.status), (warned(&format!("{MISSING}{REPEATED}")), 0));
    let lines: Vec<&str> = taken.out.lines().collect();
    assert_eq!(lines[4], "examples/draft-manual.sd: draft: 56 nodes, 617 pool bytes, 1 fault");
    assert_eq!(lines[5], "examples/duplicate-id.sd: draft: 21 nodes, 277 pool bytes, 1 fault");
    assert_eq!((lines.len(), lines.last()), (11, Some(&"10 files: 8 well-formed, 2 drafts with faults, 0 refused")));
}

#[test]
fn folders_are_walked_by_name() {
    let files = [("b/d.sdi", IMPERATIVE), ("b/a.sd", NESTED), ("a.txt", "no document"), ("c.sd", NESTED)];
    let folder = folder("walked", &files);
    let expected = "./b/a.sd: ok: 6 nodes, 2 pool bytes\n./b/d.sdi: ok: 6 nodes, 2 pool bytes\n\
                    ./c.sd: ok: 6 nodes, 2 pool bytes\n3 files: 3 well-formed, 0 refused\n";
    assert_eq!(run_in(folder.clone(), &["check", "."], b""), accepted(expected));
    // In a folder the endings decide.
    assert_eq!(run_in(folder, &["check", "--imperative", "."], b""), accepted(expected));
}

#[test]
#[cfg(unix)]
fn links_in_a_folder() {
    let folder = folder("linked", &[("real/a.sd", NESTED)]);
    std::os::unix::fs::symlink("..", folder.join("real/again")).unwrap();
    std::os::unix::fs::symlink("a.sd", folder.join("real/b.sd")).unwrap();
    std::os::unix::fs::symlink("nowhere", folder.join("real/c.sd")).unwrap();
    let run = run_in(folder, &["check", "real"], b"");
    let out = "real/a.sd: ok: 6 nodes, 2 pool bytes\nreal/b.sd: ok: 6 nodes, 2 pool bytes\n\
               2 files: 2 well-formed, 0 refused; 1 not read\n";
    assert_eq!((run.out.as_str(), run.status), (out, 1));
    assert!(run.err.starts_with("real/c.sd: cannot be read: "));
}

#[test]
fn option_goes_before_the_ending() {
    let folder = folder("endings", &[("a.sd", IMPERATIVE), ("a.txt", IMPERATIVE), ("b.txt", NESTED), ("--b", NESTED)]);
    let check = |words: &[&str]| run_in(folder.clone(), words, b"").status;
    assert_eq!(check(&["check", "--imperative", "a.sd", "a.txt"]), 0);
    assert_eq!(check(&["check", "a.sd"]), 1);
    assert_eq!(check(&["check", "a.txt"]), 1);
    assert_eq!(check(&["check", "b.txt"]), 0);
    assert_eq!(check(&["check", "--", "--b"]), 0);
    assert_eq!(check(&["check", "--b"]), 2);
}

#[test]
fn unread_files() {
    let folder = folder("unread", &[("a.sd", NESTED), ("empty/x.txt", "")]);
    let run = run_in(folder.clone(), &["check", "none.sd", "a.sd", "empty"], b"");
    let out = "a.sd: ok: 6 nodes, 2 pool bytes\n1 file: 1 well-formed, 0 refused; 2 not read\n";
    assert_eq!((run.out.as_str(), run.status), (out, 1));
    let lines: Vec<&str> = run.err.lines().collect();
    assert!(lines[0].starts_with("none.sd: cannot be read: "));
    assert_eq!(lines[1], "empty: no file in it ends in .sd or .sdi");
    for task in ["list", "fmt"] {
        for name in ["none.sd", "empty"] {
            let run = run_in(folder.clone(), &[task, name], b"");
            assert!(run.err.starts_with(&format!("{name}: cannot be read: ")), "{run:?}");
            assert_eq!((run.out.as_str(), run.status), ("", 1));
        }
    }
}

/// The first four fields of each line, and the whole first line.
fn four_fields(listing: &str) -> String {
    let fields = |line: &str| line.split(' ').take(4).collect::<Vec<_>>().join(" ") + "\n";
    listing.lines().map(fields).collect()
}

#[test]
fn list_has_the_fields_of_the_listing_programs() {
    let listing = run_on(&["list", "-"], bytes("crates/list_nested/stdin"));
    assert_eq!((listing.err.as_str(), listing.status), ("", 0));
    assert_eq!(four_fields(&listing.out), string("crates/list_nested/stdout"));
    let listing = run_on(&["list", "--imperative", "-"], bytes("crates/list_imperative/stdin"));
    assert_eq!(four_fields(&listing.out), string("crates/list_imperative/stdout"));
}

#[test]
fn list_names_what_a_node_has() {
    let text = r#"[document [title "A \u0007\""] [type t] [id d] [section [title S] [paragraph
        [image [target u/v] [size 007 9] [type w] é] [link [target d] "\n"]]]]"#;
    let expected = "\
nodes 11 pool 15
0 1 - 11 document id d type t
1 8 0 3 title
2 9 1 3 text \"A \\u0007\\\"\"
3 3 0 11 section
4 8 3 6 title
5 9 4 6 text \"S\"
6 5 3 11 paragraph
7 11 6 9 image target \"u/v\" size 7 9 type w
8 9 7 9 text \"é\"
9 13 6 11 link target \"d\"
10 9 9 11 text \"\\n\"
";
    assert_eq!(run_on(&["list", "-"], text), accepted(expected));
}

#[test]
fn fmt_is_the_canonical_spelling() {
    let stored = string("crates/print_canonical/stdout");
    assert_eq!(run_on(&["fmt", "-"], bytes("crates/print_canonical/stdin")), accepted(&stored));
    assert_eq!(run_on(&["fmt", "-"], &stored), accepted(&stored));
    for example in common::PAIRS {
        let nested = run(&["fmt", &format!("examples/{example}.sd")]);
        assert_eq!((nested.err.as_str(), nested.status), ("", 0));
        assert_eq!(run(&["fmt", &format!("examples/{example}.sdi")]), nested);
    }
}

#[test]
fn refusals_of_list_and_fmt() {
    let expected = "\
-:1:19: 5: a closing bracket without its partner, or a list that is not closed
  1 | [document [title A)]
    |                   ^
";
    for task in ["list", "fmt"] {
        assert_eq!(run_on(&[task, "-"], "[document [title A)]"), refused(expected));
    }
}

/// Seven faults, in the order of their nodes: 17, 18 (of a section), 15 twice, 16, 17 and 16. The last reference is to
/// the footnote, whose id is the document's too.
const SEVERAL: &str = "\
[document [title A] [id a]]
[section [title B] [id b]]
[paragraph] [link [target x]] [footnote-ref [target b]]
[table [summary] [head [name]]
  [body [row] [row [cell]] [row [cell] [cell]]]]
[footnote [id a]]
[paragraph [id c]] [link [target c]]
[footnote-ref [target a]] [link [target y]]
[section [title C] [id b]]
";

const FAULTS: &str = "\
-:3:13: 17: a link's target is the id of no block
  3 | [paragraph] [link [target x]] [footnote-ref [target b]]
    |             ^
  target: x
-:3:31: 18: a footnote reference's target is the id of no footnote
  3 | [paragraph] [link [target x]] [footnote-ref [target b]]
    |                               ^
  target: b
-:2:1: note: a section has that id, and is no footnote
  2 | [section [title B] [id b]]
    | ^
-:5:9: 15: a row has another number of cells than its table's head has names
  5 |   [body [row] [row [cell]] [row [cell] [cell]]]]
    |         ^
  cells in the row: 0; names in the head: 1
-:5:28: 15: a row has another number of cells than its table's head has names
  5 |   [body [row] [row [cell]] [row [cell] [cell]]]]
    |                            ^
  cells in the row: 2; names in the head: 1
-:6:1: 16: a block has the id of an earlier block
  6 | [footnote [id a]]
    | ^
-:1:1: note: the first block with the id a
  1 | [document [title A] [id a]]
    | ^
-:8:27: 17: a link's target is the id of no block
  8 | [footnote-ref [target a]] [link [target y]]
    |                           ^
  target: y
-:9:1: 16: a block has the id of an earlier block
  9 | [section [title C] [id b]]
    | ^
-:2:1: note: the first block with the id b
  2 | [section [title B] [id b]]
    | ^
";

#[test]
fn every_fault_is_shown() {
    assert_eq!(run_on(&["check", "--imperative", "-"], SEVERAL), refused(FAULTS));
    // As warnings with --draft, whatever the order of the options.
    let out = "-: draft: 28 nodes, 13 pool bytes, 7 faults\n";
    for words in [["check", "--draft", "--imperative", "-"], ["--imperative", "check", "-", "--draft"]] {
        assert_eq!(run_on(&words, SEVERAL), Run { out: out.to_string(), err: warned(FAULTS), status: 0 });
    }
}

/// What is no draft is refused with --draft as without, by one number and with status 1; a well-formed file is fine.
#[test]
fn drafts_are_not_all_texts() {
    for text in
        ["", "[document [title A] [section [title B] [paragraph [link [target x]]]]", "[document [title A) [id x]]"]
    {
        let plain = run_on(&["check", "-"], text);
        assert_eq!((plain.status, plain.out.as_str(), plain.err.lines().count()), (1, "", 3), "{plain:?}");
        assert_eq!(run_on(&["check", "--draft", "-"], text), plain);
    }
    assert_eq!(run_on(&["check", "--draft", "-"], NESTED), accepted("-: ok: 6 nodes, 2 pool bytes\n"));
}

#[test]
fn sums_of_drafts() {
    let fault = NESTED.replace("B]", "B] [paragraph [link [target x]]]");
    let files = [("a.sd", NESTED), ("b.sd", fault.as_str()), ("c.sd", "[document]")];
    let folder = folder("drafts", &files);
    let last = |words: &[&str]| {
        let run = run_in(folder.clone(), words, b"");
        (run.out.lines().last().unwrap().to_string(), run.status)
    };
    let sum = |line: &str, status| (line.to_string(), status);
    assert_eq!(last(&["check", "a.sd", "b.sd"]), sum("2 files: 1 well-formed, 1 refused", 1));
    assert_eq!(
        last(&["check", "--draft", "a.sd", "b.sd"]),
        sum("2 files: 1 well-formed, 1 draft with faults, 0 refused", 0)
    );
    assert_eq!(last(&["check", "--draft", "."]), sum("3 files: 1 well-formed, 1 draft with faults, 1 refused", 1));
    assert_eq!(last(&["check", "--draft", "a.sd", "a.sd"]), sum("2 files: 2 well-formed, 0 refused", 0));
}

#[test]
fn list_and_fmt_of_a_draft() {
    let text = "[document [title A] [id x]] [section [title B] [id x]] [paragraph] [link [target y]]";
    let listing = "\
nodes 8 pool 5
0 1 - 8 document id x
1 8 0 3 title
2 9 1 3 text \"A\"
3 3 0 8 section id x
4 8 3 6 title
5 9 4 6 text \"B\"
6 5 3 8 paragraph
7 13 6 8 link target \"y\"
";
    assert_eq!(run_on(&["list", "--imperative", "-"], text), accepted(listing));
    let canonical =
        "[document [title \"A\"] [id x] [section [title \"B\"] [id x] [paragraph [link [target \"y\"]]]]]\n";
    assert_eq!(run_on(&["fmt", "--imperative", "-"], text), accepted(canonical));
    assert_eq!(run_on(&["fmt", "-"], canonical), accepted(canonical));
}

#[test]
fn caret_under_tabs_and_wide_characters() {
    let text = "[document [title \"½ é—\"]\r\n\t[section [title 章]\r\n\t\t[paragraph \"né\t章\" [item]]]]\r\n";
    let expected = "\
-:3:21: 8: an expression that is not allowed here
  3 | \t\t[paragraph \"né\t章\" [item]]]]
    | \t\t              \t    ^
";
    assert_eq!(run_on(&["check", "-"], text), refused(expected));
}

#[test]
fn targets_are_named() {
    let text = "[document [title A]]\n[section [title B] [id b]]\n[paragraph] [link [target c] x]";
    let expected = "\
-:3:13: 17: a link's target is the id of no block
  3 | [paragraph] [link [target c] x]
    |             ^
  target: c
";
    assert_eq!(run_on(&["check", "--imperative", "-"], text), refused(expected));
    let text = "[document [title A]]\n[section [title B] [id b]]\n[paragraph] [footnote-ref [target c]]";
    let expected = "\
-:3:13: 18: a footnote reference's target is the id of no footnote
  3 | [paragraph] [footnote-ref [target c]]
    |             ^
  target: c
";
    assert_eq!(run_on(&["check", "--imperative", "-"], text), refused(expected));
    let text = text.replace("target c", "target b");
    let note = "  target: b
-:2:1: note: a section has that id, and is no footnote
  2 | [section [title B] [id b]]
    | ^
";
    let expected = expected.replace("target c", "target b").replace("  target: c\n", note);
    assert_eq!(run_on(&["check", "--imperative", "-"], text), refused(&expected));
}

#[test]
fn other_notes() {
    let text = "[document [title A]] [section [title B]] [paragraph]\n\
                [table [summary] [head [name] [name]] [body [row [cell]]]]";
    let expected = "\
-:2:45: 15: a row has another number of cells than its table's head has names
  2 | [table [summary] [head [name] [name]] [body [row [cell]]]]
    |                                             ^
  cells in the row: 1; names in the head: 2
";
    assert_eq!(run_on(&["check", "--imperative", "-"], text), refused(expected));

    let text = format!("[document [title\n{}]]", "a ".repeat(5000));
    let expected = "\
-:1:1: 13: more nodes than 4,096, or than the node words or the place list hold
  1 | [document [title
    | ^
  the document has 5002 nodes; at most 4096 are read
";
    assert_eq!(run_on(&["check", "-"], text), refused(expected));

    let expected = "\
-:1:2: 7: no expression, or in a nested text a second one
  1 | \u{FFFD}[document [title A]]
    |  ^
  the text starts with a byte order mark, which is an expression of its own
";
    assert_eq!(run_on(&["check", "-"], "\u{FEFF}[document [title A]]"), refused(expected));
}

#[test]
fn texts_that_are_not_shown_as_they_are() {
    let expected = "-:2:3: 2: the text is not UTF-8\n  2 | ab\u{FFFD}\u{FFFD}c\n    |   ^\n";
    assert_eq!(run_on(&["check", "-"], b"x\nab\xFF\xFEc\n"), refused(expected));
    let expected = "-:1:2: 3: a character that is forbidden outside strings\n  1 | a␛[2J\n    |  ^\n";
    assert_eq!(run_on(&["check", "-"], b"a\x1B[2J"), refused(expected));
    let expected = "-:1:1: 7: no expression, or in a nested text a second one\n  1 | \n    | ^\n";
    assert_eq!(run_on(&["check", "-"], b""), refused(expected));
    let long = run_on(&["check", "-"], vec![b'a'; 100_000]);
    assert!(long.err.starts_with("-:1:65537: 1: the text has more than 65,536 bytes\n  1 | …aaa"), "{long:?}");
}

#[test]
fn wrong_calls() {
    for words in [
        &[] as &[&str],
        &["check"],
        &["list"],
        &["fmt", "a", "b"],
        &["check", "-", "-"],
        &["tidy", "a"],
        &["check", "--nested", "a"],
        &["fmt", "--draft", "a"],
    ] {
        let run = run(words);
        assert_eq!((run.out.as_str(), run.status), ("", 2), "{words:?}");
        assert!(run.err.starts_with("structural: ") && run.err.contains("\nusage: structural "), "{run:?}");
    }
}

#[test]
fn help_and_version() {
    for words in [&["--help"] as &[&str], &["-h"], &["help"], &["check", "--help"]] {
        let run = run(words);
        assert_eq!((run.err.as_str(), run.status), ("", 0));
        assert!(run.out.contains("structural check FILE..") && run.out.contains("--draft"));
    }
    assert_eq!(run(&["--version"]), accepted("structural 0.2.0 (language 3.0.0)\n"));
}

#[test]
#[cfg(target_os = "linux")]
fn output_that_cannot_be_written() {
    let full = fs::OpenOptions::new().write(true).open("/dev/full").unwrap();
    let mut command = Command::new(env!("CARGO_BIN_EXE_structural"));
    let output = command.args(["fmt", "examples/anchoring.sd"]).current_dir(file(".")).stdout(full).output().unwrap();
    assert_eq!(output.status.code(), Some(1));
    assert!(String::from_utf8(output.stderr).unwrap().starts_with("structural: standard output cannot be written: "));
}

/// A reader that takes one line and leaves, as `head -1` does, is no failure.
#[test]
fn output_that_nobody_reads() {
    let mut command = Command::new(env!("CARGO_BIN_EXE_structural"));
    command.args(["list", "examples/crew-manual.sd"]).current_dir(file("."));
    let mut child = command.stdout(Stdio::piped()).stderr(Stdio::piped()).spawn().unwrap();
    drop(child.stdout.take());
    let output = child.wait_with_output().unwrap();
    assert_eq!((output.status.code(), output.stderr), (Some(0), Vec::new()));
}
