//! The one line that each program prints on what it does not accept.

mod common;

use common::{full, letters, list_imperative, list_nested, padded, print_canonical, run, run_on_pieces, ALL};

/// A text in both spellings, and the line that all programs print on it.
fn refused(nested: &str, imperative: &str, line: &str) {
    assert_eq!(list_nested(nested), line, "{nested}");
    assert_eq!(print_canonical(nested), line, "{nested}");
    assert_eq!(list_imperative(imperative), line, "{imperative}");
}

/// A text that is refused in either spelling.
fn refused_in_both(text: &str, line: &str) {
    refused(text, text, line);
}

/// A draft in both spellings: the line that the listing programs print on it, and what it is tidied to.
fn draft(nested: &str, imperative: &str, line: &str, spelling: &str) {
    assert_eq!(list_nested(nested), line, "{nested}");
    assert_eq!(list_imperative(imperative), line, "{imperative}");
    assert_eq!(print_canonical(nested), format!("{spelling}\n"), "{nested}");
}

/// A draft of one section of one paragraph that holds the content.
fn draft_in_paragraph(content: &str, line: &str, spelling: &str) {
    let nested = format!("[document [title A] [id x] [section [title B] [paragraph\n{content}]]]");
    let imperative = format!("[document [title A] [id x]] [section [title B]] [paragraph]\n{content}");
    let start = "[document [title \"A\"] [id x] [section [title \"B\"] [paragraph";
    draft(&nested, &imperative, line, &format!("{start} {spelling}]]]"));
}

#[test]
fn nothing_to_read() {
    refused_in_both("", "refused 7 1:1\n");
    refused_in_both(" \n\n ", "refused 7 3:2\n");
}

/// The column counts characters of one to four bytes, from the line's start.
#[test]
fn line_and_column() {
    let title = "[document [title \"Zürich 東京\"]";
    let id = " [section [title \"é😀\"] [id \"ä b\"]]";
    refused(&format!("{title}\n{id}]"), &format!("{title}]\n{id}"), "refused 10 2:24\n");
    refused_in_both("[document\r\n\t[title é\u{1}", "refused 3 2:10\n");
}

#[test]
fn ill_formed_bytes() {
    for program in ALL {
        assert_eq!(run(program, b"[document [title \xC3\xA9\xED\xA0\x80]]"), "refused 2 1:19\n", "{program}");
    }
}

/// They are found in the table that reading filled: the listing programs refuse it, and it is tidied all the same.
#[test]
fn faults_of_the_table() {
    let head = "[table [summary] [head [name] [name]] [body\n[row [cell] [cell]]";
    draft_in_paragraph(
        &format!("{head}\n  [row [cell]]]]"),
        "refused 15 4:3\n",
        "[table [summary] [head [name] [name]] [body [row [cell] [cell]] [row [cell]]]]",
    );
    draft_in_paragraph("é [link [target y]]", "refused 17 2:3\n", "\"é\" [link [target \"y\"]]");
    draft_in_paragraph("[footnote-ref [target x]]", "refused 18 2:1\n", "[footnote-ref [target \"x\"]]");
    let repeated = "[section [title B] [id x]]";
    draft(
        &format!("[document [title A] [id x]\n{repeated}]"),
        &format!("[document [title A] [id x]]\n{repeated}"),
        "refused 16 2:1\n",
        "[document [title \"A\"] [id x] [section [title \"B\"] [id x]]]",
    );
}

#[test]
fn one_node_too_many() {
    refused_in_both(&letters(1_025), "refused 13 1:1\n");
}

/// A text of 32,768 bytes is read, here up to its end.
#[test]
fn longest_text() {
    refused_in_both(&"\n".repeat(32_768), "refused 7 32769:1\n");
    refused_in_both(&" ".repeat(32_768), "refused 7 1:32769\n");
}

#[test]
fn too_long() {
    for length in [32_769, 65_535, 65_536, 65_537, 200_000] {
        refused_in_both(&padded(length), "too long\n");
        refused_in_both(&"]".repeat(length), "too long\n");
    }
    refused_in_both(&(full("a") + " "), "too long\n");
}

/// A text that comes in pieces is one text.
#[test]
fn pieces() {
    for program in ALL {
        assert_eq!(run_on_pieces(program, &[b"[document", b" [title", b"]]\n", b"]"]), "refused 5 2:1\n", "{program}");
        assert_eq!(run_on_pieces(program, &[&[b' '; 32_768], b" "]), "too long\n", "{program}");
    }
}
