//! Drafts that have a fault 15 to 18: each is read, refused by the check with the node, printed and read back.
//! [`nested`] has 6 cases and [`imperative`] 4.

use crate::memory::{Room, Table};
use structural::{number, Spelling};

/// The number and the node that the check of a text answers.
type Fault = (u32, u32, &'static [u8]);

fn faulty(spelling: Spelling, faults: &[Fault]) {
    for (number, node, text) in faults {
        let table = Table::read(text, spelling, number::OK, Room::new(300, 30, 60));
        table.checks(*number, *node);
        table.comes_back();
    }
}

// Nodes 0 to 6 are document, title, text, section, title, text, paragraph; 7 is what stands in the paragraph. In a
// table 8 and 9 are the summary and its text, 10 is the head.

const NESTED: [Fault; 6] = [
    (
        15,
        16,
        b"[document [title A] [section [title B] [paragraph [table [summary S] [head [name M] [name N]] \
[body [row [cell c]]]]]]]",
    ),
    (
        15,
        17,
        b"[document [title A] [section [title B] [paragraph [table [summary S] [head [name M]] \
[body [row [cell c]] [row [cell d] [cell]]]]]]]",
    ),
    (16, 3, b"[document [title A] [id x] [section [title B] [id x]]]"),
    (17, 7, b"[document [title A] [section [title B] [paragraph [link [target x]]]]]"),
    (18, 7, b"[document [title A] [section [title B] [paragraph [footnote-ref [target x]]]]]"),
    (18, 7, b"[document [title A] [section [title B] [paragraph [id x] [footnote-ref [target x]]]]]"),
];

#[test]
fn nested() {
    faulty(Spelling::Nested, &NESTED);
}

const IMPERATIVE: [Fault; 4] = [
    (15, 14, b"[document [title A]] [section [title B]] [paragraph] [table [summary S] [head [name M]] [body [row]]]"),
    (16, 3, b"[document [title A] [id x]] [section [title B] [id x]]"),
    (17, 7, b"[document [title A]] [section [title B]] [paragraph] [link [target x]]"),
    (18, 7, b"[document [title A]] [section [title B]] [paragraph [id x]] [footnote-ref [target x]]"),
];

#[test]
fn imperative() {
    faulty(Spelling::Imperative, &IMPERATIVE);
}
