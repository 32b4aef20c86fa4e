//! Documents that are built: 200 paragraphs with ids, links, images and lists, nested and imperative ([`long`]), and
//! the most nodes ([`most`]).

use crate::cases::Case;
use crate::common::padded;
use structural::Spelling;

/// A paragraph's link and the image in it, and a list, as a person writes them.
fn linked(n: usize, to: usize) -> String {
    format!(" [link [target p{to}] x (image (target u/{n}) (size 00{n} 1))] [list-unordered [item a {n}][item]]")
}

/// Paragraph `n`, which links to paragraph `to`.
fn nested(n: usize, to: usize) -> String {
    format!("(paragraph (type t) (id p{n}) w\n{})\n", linked(n, to))
}

fn imperative(n: usize, to: usize) -> String {
    format!("[paragraph [type t] [id \"p{n}\"]] w\n{}", linked(n, to))
}

fn canonical(n: usize, to: usize) -> String {
    format!(
        " [paragraph [id p{n}] [type t] \"w\" [link [target \"p{to}\"] \"x\" [image [target \"u/{n}\"] [size {n} 1]]] \
         [list-unordered [item \"a\" \"{n}\"] [item]]]"
    )
}

/// Paragraphs 100 to 299: no number has a zero in front. Each links to another one.
fn paragraphs(written: fn(usize, usize) -> String) -> String {
    (0..200).map(|k| written(100 + k, 100 + (k * 7 + 3) % 200)).collect()
}

fn long() -> [Case; 2] {
    let want = format!("[document [title \"A\"] [section [title \"B\"]{}]]", paragraphs(canonical)).into_bytes();
    let text = format!("(document (title A) (section (title B) {}))", paragraphs(nested));
    let commands = format!("(document (title A)) (section (title B)) {}", paragraphs(imperative));
    [
        Case::large(Spelling::Nested, padded(&text, 40_000), want.clone()),
        Case::large(Spelling::Imperative, padded(&commands, 40_000), want),
    ]
}

/// A document whose title has so many texts of one letter, from a to z by turns, as symbols or quoted, and then `tail`.
pub fn titled(count: usize, quoted: bool, tail: &str) -> String {
    let text = |letter: char| if quoted { format!(" \"{letter}\"") } else { format!(" {letter}") };
    let texts: String = ('a'..='z').cycle().take(count).map(text).collect();
    format!("[document [title{texts}{tail}")
}

/// A title of 4,094 texts: 4,096 nodes.
fn most() -> Case {
    let text = padded(&titled(4_094, false, "]]"), 20_000);
    Case::large(Spelling::Nested, text, titled(4_094, true, "]]").into_bytes())
}

/// 2 and 1 documents.
pub fn many() -> Vec<Case> {
    let [first, second] = long();
    vec![first, second, most()]
}
