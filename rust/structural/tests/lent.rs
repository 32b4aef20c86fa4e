//! Lent memory: rooms of all sizes with guards around them, outputs, and damaged tables. Drafts are in `drafts.rs`.

mod common;

use common::{check_of, print_into, spellings, Room, PAIRS};
use structural::lent::{NODE_WORDS, NONE};
use structural::{number, read, read_draft, Document, Spelling};

#[test]
fn rooms() {
    for (text, spelling) in PAIRS.into_iter().flat_map(spellings) {
        let document = read(&text, spelling).unwrap();
        let (count, bytes) = (document.count(), document.pool().len());
        let (words, records) = (count * NODE_WORDS, count);
        for (nodes, places, pool, wanted) in [
            (words, records, bytes, number::OK),
            (words + 10, records + 1, bytes + 1, number::OK),
            (words - 1, records, bytes, number::NODES_SHORT),
            (words, records - 1, bytes, number::NODES_SHORT),
            (words, records, bytes - 1, number::POOL_SHORT),
            (words, records, 0, number::POOL_SHORT),
            (words - 1, records, 0, number::NODES_SHORT),
            (0, 0, 0, number::NODES_SHORT),
        ] {
            let mut room = Room::new(nodes, places, pool);
            let answer = room.read(&text, spelling);
            assert_eq!((answer.number, answer.nodes, answer.pool), (wanted, count as u32, bytes as u32));
            if wanted == number::OK {
                let filled = room.filled(answer);
                assert_eq!(filled, (document.words(), document.places(), document.pool().as_bytes()));
            }
        }
    }
}

/// Every text that lacks one byte of an example, or has another in its place, is answered by the pair as by `read`, and
/// each draft comes back from its canonical spelling.
#[test]
fn damaged_texts() {
    let mut numbers = [0; 20];
    for (text, spelling) in ["anchoring", "man-overboard"].into_iter().flat_map(spellings) {
        for place in 0..text.len() {
            let mut shorter = text.clone();
            shorter.remove(place);
            let mut other = text.clone();
            other[place] = b"([])\" \x00\xC3x\\"[place % 10];
            for damaged in [shorter, other] {
                numbers[one_text(&damaged, spelling) as usize] += 1;
            }
        }
    }
    for number in [0, 2, 3, 4, 5, 8, 9, 10, 17, 18] {
        assert_ne!(numbers[number], 0, "number {number} did not come up");
    }
}

fn one_text(text: &[u8], spelling: Spelling) -> u32 {
    let mut room = Room::ample(text, spelling);
    let answer = room.pair(text, spelling);
    match read(text, spelling) {
        Ok(_) => assert_eq!(answer.number, number::OK),
        Err(refusal) => assert_eq!(refusal.answer(), answer),
    }
    match read_draft(text, spelling) {
        Ok(draft) => {
            assert!(number::fills(answer.number));
            assert_eq!(draft.faults().iter().min().map_or(0, |fault| fault.number), answer.number);
            assert_eq!(read_draft(draft.print(), Spelling::Nested).as_ref(), Ok(&draft));
        }
        Err(refusal) => assert_eq!(refusal.answer(), answer),
    }
    answer.number
}

#[test]
fn outputs() {
    for (text, spelling) in PAIRS.into_iter().flat_map(spellings) {
        let document = read(&text, spelling).unwrap();
        let canonical = document.print();
        for length in [0, 1, canonical.len() - 1] {
            let (printed, _) = print_of(&document, length);
            assert_eq!((printed.number, printed.length as usize), (number::OUTPUT_SHORT, canonical.len()));
        }
        for length in [canonical.len(), canonical.len() + 1, canonical.len() + 1000] {
            let (printed, written) = print_of(&document, length);
            assert_eq!((printed.number, printed.length as usize), (number::OK, canonical.len()));
            assert_eq!(written, canonical.as_bytes());
        }
    }
}

fn print_of(document: &Document, length: usize) -> (structural::lent::Printed, Vec<u8>) {
    let (nodes, bytes) = (document.count() as u32, document.pool().len() as u32);
    print_into(document.words(), nodes, document.pool().as_bytes(), bytes, length)
}

#[test]
fn counts_beyond_what_is_lent() {
    let document = read("[document [title A] [id x]]", Spelling::Nested).unwrap();
    let (words, pool) = (document.words(), document.pool().as_bytes());
    for (nodes, bytes) in [(0, 2), (2, 2), (4, 2), (3, 1), (3, 3), (NONE, 2), (3, NONE), (390_451_573, 2), (0, 0)] {
        let (printed, _) = print_into(words, nodes, pool, bytes, 100);
        assert_eq!((printed.number, printed.length), (number::NOT_A_TABLE, 0), "{nodes} {bytes}");
        assert_eq!(check_of(words, nodes, pool, bytes), (number::NOT_A_TABLE, 0), "{nodes} {bytes}");
    }
    // What lies past the counts is not looked at.
    let longer: Vec<u32> = words.iter().copied().chain([7; 20]).collect();
    assert_eq!(print_into(&longer, 3, b"xA\xFF\xFF", 2, 100).0.number, number::OK);
    assert_eq!(check_of(&longer, 3, b"xA\xFF\xFF", 2), (number::OK, 0));
}

/// A text that uses every word of a record.
const ALL_WORDS: &str = "[document [title A] [type t] [id d] [section [title S] [id s] [paragraph [id p]
    [image [target u] [size 7 9] [type w] alt] [link [target s] x] [footnote-ref [target f]]
    [list-ordered [item é] [item]]
    [table [summary] [head [name N]] [body [row [cell 1]]]]] [footnote [id f] [verbatim [type v] \"\\n\"]]]]";

/// Whatever words and pool: printing and the check refuse them with 20, or they are the table of the draft that their
/// spelling reads as, and the check answers the first of its faults. The number is the check's.
fn damaged(words: &[u32], pool: &[u8]) -> u32 {
    let (nodes, bytes) = ((words.len() / NODE_WORDS) as u32, pool.len() as u32);
    let (printed, written) = print_into(words, nodes, pool, bytes, 2000);
    let (number, node) = check_of(words, nodes, pool, bytes);
    if printed.number == number::OK {
        let draft = read_draft(&written, Spelling::Nested).expect("what is printed can be read");
        assert_eq!((draft.words(), draft.pool().as_bytes()), (words, pool));
        let first = draft.faults().into_iter().min().map_or((number::OK, 0), |fault| (fault.number, fault.node as u32));
        assert_eq!((number, node), first);
    } else {
        assert_eq!((printed.number, printed.length), (number::NOT_A_TABLE, 0));
        assert_eq!((number, node), (number::NOT_A_TABLE, 0));
    }
    number
}

#[test]
fn damaged_words() {
    let document = read(ALL_WORDS, Spelling::Nested).unwrap();
    let pool = document.pool().as_bytes();
    let mut refused = 0;
    for index in 0..document.words().len() {
        let word = document.words()[index];
        for other in [0, 1, 5, 9, 13, 25, 26, word.wrapping_add(1), word.wrapping_sub(1), 65_535, 65_536, NONE] {
            let mut words = document.words().to_vec();
            words[index] = other;
            let answered = damaged(&words, pool);
            refused += u32::from(answered == number::NOT_A_TABLE);
            assert!(other != word || answered == number::OK);
        }
    }
    assert!(refused > 3000, "{refused}");
}

/// An id or a target may become that of another node, or of none: 16, 17 and 18 come up. No row changes.
#[test]
fn damaged_pools() {
    let document = read(ALL_WORDS, Spelling::Nested).unwrap();
    let mut numbers = [0; 21];
    for index in 0..document.pool().len() {
        for other in [0, b' ', b'"', b'-', b'/', b'a', b's', b'\\', 0x80, 0xC3, 0xFF] {
            let mut pool = document.pool().as_bytes().to_vec();
            pool[index] = other;
            numbers[damaged(document.words(), &pool) as usize] += 1;
        }
    }
    for number in [0, 16, 17, 18, 20] {
        assert_ne!(numbers[number], 0, "number {number} did not come up");
    }
}
