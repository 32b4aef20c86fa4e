//! Change request 1: documents with faults 15 to 18 are read and printed, and the check finds the faults.

mod common;

use common::{in_paragraph, printed, read_alone, read_amply, Read};
use oracle::names::{END, MISSING, RECORD_LENGTH};
use oracle::{check, Answer, Checked};

/// A text with a fault: its number, its node, that node's place, line and column, and the counts.
struct Faulty {
    text: String,
    fault: Checked,
    at: [u32; 3],
    counts: [u32; 2],
}

/// Worked out by hand. Nodes 0 to 6 are document, title, text, section, title, text and paragraph.
fn faulty() -> [Faulty; 5] {
    let inside = |content: &str| in_paragraph(content).0;
    let fault = |number, node| Checked { number, node };
    let table = "\n[table [summary] [head [name] [name]] [body [row [cell] [cell]]\n  [row [cell]]]]";
    let loose = "[footnote-ref [target x]] é [link [target y]] [link [target z]]";
    [
        // Table 7, summary, head and names to 11, body 12, row 13 and cells, row 16.
        Faulty { text: inside(table), fault: fault(15, 16), at: [117, 3, 3], counts: [18, 2] },
        Faulty {
            text: "[document [title A] [id x]\n[section [title B] [id x]]]".into(),
            fault: fault(16, 3),
            at: [27, 2, 1],
            counts: [6, 4],
        },
        // The reference, 7, comes first in the text, and 17 before 18.
        Faulty { text: inside(loose), fault: fault(17, 9), at: [79, 1, 79], counts: [11, 7] },
        Faulty { text: inside("[footnote-ref [target x]]"), fault: fault(18, 7), at: [50, 1, 51], counts: [8, 3] },
        // The paragraph's id is on no footnote.
        Faulty {
            text: "[document [title A] [section [title B] [paragraph [id x] [footnote-ref [target x]]]]]".into(),
            fault: fault(18, 7),
            at: [57, 1, 58],
            counts: [8, 4],
        },
    ]
}

fn checked(read: &Read) -> Checked {
    check(&read.nodes, read.answer.nodes, &read.pool, read.answer.pool)
}

#[test]
fn faulty_texts_are_read() {
    for Faulty { text, counts: [nodes, pool], .. } in faulty() {
        let wanted = Answer { number: 0, place: 0, line: 1, column: 1, nodes, pool };
        assert_eq!(read_alone(text.as_bytes(), false).answer, wanted, "{text}");
    }
}

#[test]
fn the_check_names_the_node() {
    for Faulty { text, fault, .. } in faulty() {
        assert_eq!(checked(&read_alone(text.as_bytes(), false)), fault, "{text}");
    }
    let well = read_alone(b"[document [title A]]", false);
    assert_eq!(checked(&well), Checked { number: 0, node: 0 });
}

#[test]
fn the_pair_answers_a_place_of_the_text() {
    for Faulty { text, fault, at: [place, line, column], counts: [nodes, pool] } in faulty() {
        let wanted = Answer { number: fault.number, place, line, column, nodes, pool };
        assert_eq!(read_amply(text.as_bytes(), false).answer, wanted, "{text}");
    }
}

/// Where reading refuses there is no check of what is in the memory.
#[test]
fn a_refusal_is_that_of_the_read() {
    for text in ["", "[document]", "[document [title A] [section [title B] [id \"\"]]]"] {
        assert_eq!(read_amply(text.as_bytes(), false), read_alone(text.as_bytes(), false), "{text}");
    }
}

#[test]
fn drafts_print_and_read_back() {
    for Faulty { text, fault, .. } in faulty() {
        let read = read_alone(text.as_bytes(), false);
        let again = read_alone(&printed(&read), false);
        assert_eq!((&again.nodes, &again.pool, checked(&again)), (&read.nodes, &read.pool, fault), "{text}");
    }
}

/// 20 comes before 15 to 18: a word changed, a count one off, none, or beyond what is lent.
#[test]
fn what_is_no_table_is_20() {
    let no_table = Checked { number: 20, node: 0 };
    for Faulty { text, counts: [nodes, pool], .. } in faulty() {
        let read = read_alone(text.as_bytes(), false);
        let longer = ([&read.nodes[..], &[0; RECORD_LENGTH]].concat(), [&read.pool[..], b"a"].concat());
        for (nodes, pool) in [(0, pool), (nodes - 1, pool), (nodes + 1, pool), (nodes, pool + 1), (MISSING, pool)] {
            assert_eq!(check(&longer.0, nodes, &longer.1, pool), no_table, "{text}: {nodes} {pool}");
            assert_eq!(check(&read.nodes, nodes, &read.pool, pool), no_table, "{text}: {nodes} {pool}");
        }
        assert_ne!(check(&longer.0, nodes, &longer.1, pool), no_table, "{text}");
        let mut damaged = read.nodes.clone();
        damaged[END] += 1;
        assert_eq!(check(&damaged, nodes, &read.pool, pool), no_table, "{text}");
    }
}
