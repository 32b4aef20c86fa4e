//! Every kind with every choice of strings and sizes, and every character in a text and in a target.

use super::least::{document, kinds, least};
use crate::sweep::judging::Tables;
use crate::sweep::must::Must;
use crate::sweep::sweeper::Sweeper;
use oracle::names::{KIND, MISSING, RECORD_LENGTH, WIDTH};
use oracle::random::{Element, TableCase};
use oracle::Kind;

pub fn sweep(sweeper: &mut Sweeper) {
    choices(sweeper);
    texts(sweeper);
    targets(sweeper);
}

/// None, an id, a target that is no id, and neither.
const NAMES: [&str; 4] = ["", "r", "u/", " "];
/// None, a type, and no type.
const TYPES: [&str; 3] = ["", "t", "t-"];
const TEXTS: [&str; 2] = ["", "x"];
/// None, two sizes, and two that are none.
const SIZES: [[u32; 2]; 5] = [[MISSING, MISSING], [0, 0], [65_535, 65_535], [0, 65_536], [MISSING, 0]];

/// How many choices fit a kind, by number. Document to subsection have an id or none and a type or none. Paragraph,
/// formal item and footnote stand beside a footnote with that id, so that the first two have none, and the third cannot
/// be without a fault. Term, verbatim and table have a type or none; an image one of two targets, a type or none, and one of three sizes.
const FITTING: [u64; 25] = [4, 4, 4, 4, 2, 2, 0, 1, 1, 2, 12, 2, 1, 2, 1, 1, 1, 1, 2, 1, 1, 1, 1, 1, 1];

/// These three with the id of that footnote, and a type or none.
const REPEATED: u64 = 3 * 2;

fn choices(sweeper: &mut Sweeper) {
    let sound: u64 = FITTING.iter().sum();
    let must = Must::meet(25 * 4 * 3 * 2 * 5, sound + REPEATED, &[0, 16, 20]).sound(sound);
    sweeper.tables("strings and sizes of every kind", must, |tables| {
        for (kind, name) in kinds().flat_map(|kind| NAMES.map(|name| (kind, name))) {
            for (class, text) in TYPES.into_iter().flat_map(|class| TEXTS.map(|text| (class, text))) {
                SIZES.into_iter().for_each(|size| choice(tables, kind, [name, class, text], size));
            }
        }
    });
}

fn choice(tables: &mut Tables, kind: Kind, [name, class, text]: [&str; 3], size: [u32; 2]) {
    let values = Element { name: name.into(), class: class.into(), text: text.into(), ..least(kind, 0) };
    let mut case = TableCase::of(document(values).table());
    let node = node_of(&case, kind);
    case.nodes[node * RECORD_LENGTH + WIDTH..][..2].copy_from_slice(&size);
    tables.table(&case);
}

/// The last node of that kind: the swept one stands behind those that are put around it.
fn node_of(case: &TableCase, kind: Kind) -> usize {
    case.nodes.chunks(RECORD_LENGTH).rposition(|record| record[KIND] == kind.number()).expect("it is in the document")
}

/// Every character up to U+0FFF, and some beyond.
fn characters() -> impl Iterator<Item = char> {
    let beyond = [0xD7FF, 0xE000, 0xFEFF, 0xFFFD, 0xFFFE, 0xFFFF, 0x1_0000, 0x1_F600, 0xF_FFFF, 0x10_FFFF];
    (0..0x1000).chain(beyond).filter_map(char::from_u32)
}

/// Alone and between others in a text.
fn texts(sweeper: &mut Sweeper) {
    let must = Must::meet(2 * (4_096 + 10), 2 * (4_096 + 10), &[0]);
    sweeper.tables("characters of a text", must, |tables| {
        for character in characters() {
            for text in [format!("{character}"), format!("a{character}f")] {
                tables.expect(0, &TableCase::of(document(Element::of_text(text)).table()));
            }
        }
    });
}

/// Alone and between others in the target of an image: 0x21 to 0x7E go well.
fn targets(sweeper: &mut Sweeper) {
    let must = Must::meet(2 * (4_096 + 10), 2 * 94, &[0, 20]);
    sweeper.tables("characters of a target", must, |tables| {
        for character in characters() {
            let number = if ('!'..='~').contains(&character) { 0 } else { 20 };
            for name in [format!("{character}"), format!("a{character}f")] {
                let image = Element { name, ..Element::new(Kind::Image) };
                tables.expect(number, &TableCase::of(document(image).table()));
            }
        }
    });
}
