//! The program `print_canonical` on documents: the canonical spelling and a line end.

mod common;

use common::{assert_same, bytes, full, letters, padded, print_canonical};

#[test]
fn smallest_document() {
    assert_eq!(print_canonical("(document(title))"), "[document [title]]\n");
}

#[test]
fn order_and_sizes() {
    let image = "(image (target u) (size 007 65535) (type t) x \"y z\")";
    let text = format!("[document [title A] [type t] [id i]\n\n  [section [title] [paragraph {image}]]]\n");
    let image = "[image [target \"u\"] [size 7 65535] [type t] \"x\" \"y z\"]";
    let spelling = format!("[document [title \"A\"] [id i] [type t] [section [title] [paragraph {image}]]]\n");
    assert_eq!(print_canonical(text), spelling);
}

#[test]
fn escapes() {
    let text = r#"[document [title "\"\n\r\t\u005C\u0001\u007F\u00E9" \]]"#;
    let spelling = r#"[document [title "\"\n\r\t\u005c\u0001\u007fé" "\u005c"]]"#;
    assert_eq!(print_canonical(text), format!("{spelling}\n"));
}

#[test]
fn as_many_nodes_as_there_is_room_for() {
    assert_same(&print_canonical(letters(1_024)), &format!("[document [title{}]]\n", " \"a\"".repeat(1_022)));
}

#[test]
fn longest_text() {
    assert_eq!(print_canonical(padded(32_768)), "[document [title \"A\"]]\n");
}

/// No spelling is longer: a byte of a text makes six at most, and as few as can be stand outside of the one text.
#[test]
fn longest_spelling() {
    let spelling = format!("[document [title \"{}\"]]\n", "\\u005c".repeat(32_750));
    assert_eq!(spelling.len(), 196_522);
    assert_same(&print_canonical(full("\\")), &spelling);
}

/// What is printed is printed again as it is, of a manual and of one with an id that is there twice.
#[test]
fn manuals() {
    for manual in ["examples/crew-manual.sd", "examples/duplicate-id.sd"] {
        let spelling = print_canonical(bytes(manual));
        assert!(spelling.starts_with("[document [title \""), "{spelling}");
        assert_same(&print_canonical(&spelling), &spelling);
    }
}
