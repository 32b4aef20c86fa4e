//! Drafts: texts with faults 15 to 18, each read alone, checked, and by the pair; every fault of a draft; and tables
//! that are no draft's. What is expected was worked out by hand from the rules.

mod common;

use common::{check_of, print_into, string, Room};
use structural::lent::{Answer, Checked};
use structural::{number, read, read_draft, Draft, Fault, Spelling};

/// A text, its node and pool counts, number and node of its first fault, and place, line and column of that node.
struct Case {
    spelling: Spelling,
    text: &'static str,
    counts: (u32, u32),
    fault: (u32, u32),
    at: (u32, u32, u32),
}

/// In all of them nodes 0 to 2 are the document, its title and the title's text.
const CASES: [Case; 10] = [
    // Section 3 to 5, paragraph 6, table 7, summary 8, head 9 with names 10 and 11, body 12; row 13 has two cells, row
    // 16 one.
    Case {
        spelling: Spelling::Nested,
        text: "[document [title é]\n[section [title B] [paragraph\n[table [summary] [head [name] [name]]\n\
               [body [row [cell] [cell]] [row [cell]]]]]]]",
        counts: (18, 3),
        fault: (15, 16),
        at: (115, 4, 27),
    },
    // A head of no names over a row of one cell: table 7, summary 8, head 9, body 10, row 11.
    Case {
        spelling: Spelling::Imperative,
        text: "[document [title A]] [section [title B]] [paragraph]\n[table [summary] [head] [body [row [cell]]]]",
        counts: (13, 2),
        fault: (15, 11),
        at: (83, 2, 31),
    },
    Case {
        spelling: Spelling::Nested,
        text: "[document [title A] [id x] [section [title B] [id x]]]",
        counts: (6, 4),
        fault: (16, 3),
        at: (27, 1, 28),
    },
    // The third block that has the id is not the first fault.
    Case {
        spelling: Spelling::Imperative,
        text: "[document [title A]]\n[section [title B] [id s]]\n[paragraph [id s]] é [footnote [id s]]",
        counts: (9, 7),
        fault: (16, 6),
        at: (48, 3, 1),
    },
    // A link may name the document; the target of an image is no id.
    Case {
        spelling: Spelling::Nested,
        text: "[document [title A] [id d] [section [title B] [paragraph [link [target d]] [image [target e]]\n\
               é [link [target e]]]]]",
        counts: (11, 8),
        fault: (17, 10),
        at: (97, 2, 3),
    },
    // A link that is first by node, and a block that is first by number.
    Case {
        spelling: Spelling::Nested,
        text: "[document [title A] [id x] [section [title B] [paragraph [link [target z]]] [paragraph [id x]]]]",
        counts: (9, 5),
        fault: (16, 8),
        at: (76, 1, 77),
    },
    // A reference that is first by node, and a link that is first by number.
    Case {
        spelling: Spelling::Nested,
        text: "[document [title A] [section [title B] [paragraph [footnote-ref [target q]] [link [target q]]]]]",
        counts: (9, 4),
        fault: (17, 8),
        at: (76, 1, 77),
    },
    Case {
        spelling: Spelling::Nested,
        text: "[document [title A] [section [title B] [paragraph [id x] [footnote-ref [target x]]]]]",
        counts: (8, 4),
        fault: (18, 7),
        at: (57, 1, 58),
    },
    // The footnote comes later than the first reference, and has another id than the second names.
    Case {
        spelling: Spelling::Imperative,
        text: "[document [title A]] [section [title B]] [paragraph] [footnote-ref [target f]]\n\
               [footnote-ref [target g]] [footnote [id f]]",
        counts: (10, 5),
        fault: (18, 8),
        at: (79, 2, 1),
    },
    // All four at once: 15 is the number that decides.
    Case {
        spelling: Spelling::Nested,
        text: "[document [title A] [id x] [section [title B] [id x] [paragraph [link [target y]] \
               [footnote-ref [target x]]\n[table [summary] [head [name]] [body [row]]]]]]",
        counts: (15, 6),
        fault: (15, 14),
        at: (145, 2, 38),
    },
];

impl Case {
    /// What reading alone answers.
    fn alone(&self) -> Answer {
        Answer { number: 0, place: 0, line: 1, column: 1, nodes: self.counts.0, pool: self.counts.1 }
    }

    fn by_the_pair(&self) -> Answer {
        let (place, line, column) = self.at;
        Answer { number: self.fault.0, place, line, column, ..self.alone() }
    }

    fn draft(&self) -> Draft {
        read_draft(self.text, self.spelling).unwrap_or_else(|refusal| panic!("{}: {refusal}", self.text))
    }

    fn first(&self) -> Fault {
        Fault { number: self.fault.0, node: self.fault.1 as usize }
    }
}

#[test]
fn read_alone_checked_and_by_the_pair() {
    for case in &CASES {
        let (number, node) = case.fault;
        let mut room = Room::ample(case.text.as_bytes(), case.spelling);
        let answer = room.read(case.text.as_bytes(), case.spelling);
        assert_eq!(answer, case.alone(), "{}", case.text);
        assert_eq!(room.check(answer.nodes, answer.pool), Checked { number, node }, "{}", case.text);
        assert_eq!(room.pair(case.text.as_bytes(), case.spelling), case.by_the_pair(), "{}", case.text);
    }
}

#[test]
fn package_answers_the_same() {
    for case in &CASES {
        let draft = case.draft();
        assert_eq!(draft.check(), Err(case.first()), "{}", case.text);
        assert_eq!(draft.faults().into_iter().min(), Some(case.first()), "{}", case.text);
        let node = draft.node(case.first().node).unwrap();
        let at = (node.place() as u32, node.position().line, node.position().column);
        assert_eq!(at, case.at, "{}", case.text);
        let refusal = read(case.text, case.spelling).unwrap_err();
        assert_eq!(refusal.answer(), case.by_the_pair(), "{}", case.text);
        assert_eq!(refusal.node().map(|node| node.number()), Some(case.first().node), "{}", case.text);
        assert_eq!(refusal.draft(), Some(&draft), "{}", case.text);
    }
}

#[test]
fn drafts_are_printed_and_read_back() {
    for case in &CASES {
        let draft = case.draft();
        let again = read_draft(draft.print(), Spelling::Nested).unwrap();
        assert_eq!((again.words(), again.pool()), (draft.words(), draft.pool()), "{}", case.text);
        assert_eq!((again.check(), again.print()), (draft.check(), draft.print()), "{}", case.text);
    }
    let canonical = "[document [title \"A\"] [id x] [section [title \"B\"] [id x]]]";
    assert_eq!(CASES[2].draft().print(), canonical);
}

/// A count too many or too few, and one word that is not the node's: of no draft, whatever its faults.
#[test]
fn tables_of_no_draft() {
    for case in &CASES {
        let draft = case.draft();
        let (words, pool, (nodes, bytes)) = (draft.words(), draft.pool().as_bytes(), case.counts);
        let (longer, more) = ([words, &[9; 11]].concat(), [pool, b"a"].concat());
        for (nodes, bytes) in
            [(nodes + 1, bytes), (nodes - 1, bytes), (0, bytes), (nodes, bytes + 1), (nodes, bytes - 1)]
        {
            assert_eq!(check_of(words, nodes, pool, bytes), (number::NOT_A_TABLE, 0), "{nodes} {bytes}");
            assert_eq!(check_of(&longer, nodes, &more, bytes), (number::NOT_A_TABLE, 0), "{nodes} {bytes}");
        }
        assert_eq!(check_of(&longer, nodes, &more, bytes), case.fault, "what lies past the counts is not looked at");
        // The root's kind, the title's parent, the root's end.
        for (word, value) in [(0, 2), (12, 1), (2, nodes + 1)] {
            let mut damaged = words.to_vec();
            damaged[word] = value;
            assert_eq!(check_of(&damaged, nodes, pool, bytes), (number::NOT_A_TABLE, 0), "word {word}");
            let (printed, _) = print_into(&damaged, nodes, pool, bytes, 500);
            assert_eq!((printed.number, printed.length), (number::NOT_A_TABLE, 0), "word {word}");
        }
    }
}

/// Where reading refuses, that is the answer of the pair and of both functions of the package.
#[test]
fn texts_that_are_no_drafts() {
    for (text, number, place) in [("[document]", 9, 0), ("[document [title A] [id x] [id x]]", 8, 27)] {
        let wanted = Answer { number, place, line: 1, column: place + 1, nodes: 0, pool: 0 };
        assert_eq!(Room::new(99, 9, 9).pair(text.as_bytes(), Spelling::Nested), wanted);
        let refusal = read_draft(text, Spelling::Nested).unwrap_err();
        assert_eq!((refusal.answer(), refusal.draft()), (wanted, None));
        assert_eq!(read(text, Spelling::Nested), Err(refusal));
    }
}

fn fault(number: u32, node: usize) -> Fault {
    Fault { number, node }
}

fn faults(text: &str) -> Vec<Fault> {
    read_draft(text, Spelling::Imperative).unwrap().faults()
}

/// Nodes: document 0 to 2; section 3 to 5; paragraph 6, link 7, reference 8, table 9, summary 10, head 11, name 12,
/// body 13, rows 14, 15 with cell 16, 17 with cells 18 and 19; footnote 20; paragraph 21, link 22, reference 23, link
/// 24; section 25 to 27.
#[test]
fn every_fault_in_the_order_of_the_nodes() {
    let text = "[document [title A] [id a]] [section [title B] [id b]]
        [paragraph] [link [target x]] [footnote-ref [target b]]
        [table [summary] [head [name]] [body [row] [row [cell]] [row [cell] [cell]]]]
        [footnote [id a]]
        [paragraph [id c]] [link [target c]] [footnote-ref [target a]] [link [target y]]
        [section [title C] [id b]]";
    // The reference 23 is to the footnote 20, though the document has that id first.
    let expected = [(17, 7), (18, 8), (15, 14), (15, 17), (16, 20), (17, 24), (16, 25)].map(|(n, node)| fault(n, node));
    assert_eq!(faults(text), expected);
    let draft = read_draft(text, Spelling::Imperative).unwrap();
    assert_eq!(draft.check(), Err(fault(15, 14)));
    assert_eq!(draft.node(14).unwrap().row_length(), Some((0, 1)));
    assert_eq!((draft.node(13).unwrap().row_length(), draft.node(16).unwrap().row_length()), (None, None));
}

/// A row is held against the head of its own table: node 7 is the first table with head 9, name 10, body 11 and row
/// 12; cell 13, list 14, item 15; 16 is the inner table with summary 17, head 18, names 19 and 20, body 21, row 22,
/// cell 23; row 24 of the first table with cell 25; 26 is the table without a head.
#[test]
fn heads_of_several_tables() {
    let text = "[document [title A]] [section [title B]] [paragraph]
        [table [summary] [head [name]] [body
            [row [cell [list-ordered [item [table [summary] [head [name] [name]] [body [row [cell]]]]]]]]
            [row [cell]]]]
        [table [summary] [body [row [cell] [cell]] [row]]]";
    assert_eq!(faults(text), [fault(15, 22)]);
}

#[test]
fn well_formed_drafts_have_no_fault() {
    for name in common::PAIRS {
        let draft = read_draft(string(&format!("examples/{name}.sd")), Spelling::Nested).unwrap();
        assert_eq!((draft.check(), draft.faults()), (Ok(()), Vec::new()), "{name}");
        assert_eq!(draft.clone().into_document().map(|document| document.into_draft()), Ok(draft), "{name}");
    }
}

/// The draft becomes a document once what its refusal names is mended; the refusal keeps the draft.
#[test]
fn drafts_become_documents() {
    let text = string("examples/draft-manual.sd");
    let refusal = read_draft(&text, Spelling::Nested).unwrap().into_document().unwrap_err();
    assert_eq!(refusal.to_string(), "19:7: 17: a link's target is the id of no block");
    assert_eq!((refusal.target(), refusal.node().unwrap().number()), (Some("heavy-weather"), 43));
    assert_eq!(read(&text, Spelling::Nested).as_ref(), Err(&refusal));
    let draft = refusal.into_draft().unwrap();
    assert_eq!(draft.faults(), [fault(17, 43)]);

    let section = r#"[section [title "Heavy weather"] [id heavy-weather]]]"#;
    let mended = draft.print().strip_suffix(']').unwrap().to_string() + section;
    let document = read_draft(mended, Spelling::Nested).unwrap().into_document().unwrap();
    // A section, its title and the title's text.
    assert_eq!(document.count(), draft.count() + 3);
    assert_eq!((document.check(), document.faults()), (Ok(()), Vec::new()));
}

#[test]
fn faults_are_shown_by_number_and_meaning() {
    assert_eq!(fault(17, 43).to_string(), "17: a link's target is the id of no block");
    assert_eq!(fault(15, 0).meaning(), number::meaning(number::ROW_LENGTH));
}
