//! Every manual of `examples/` that has both spellings, printed, read back and printed again: the table is the same,
//! and so is the spelling. Those are 8 cases ([`manuals`]).

mod common;

use common::file;
use std::fs;
use std::path::{Path, PathBuf};
use structural::lent::{self, Answer, MAX_NODES, MAX_TEXT, NODE_WORDS};
use structural::{number, Spelling};

/// Room for the largest document, with zeros in it, and what a read into it answered.
struct Memory {
    nodes: Vec<u32>,
    pool: Vec<u8>,
    answer: Answer,
}

impl Memory {
    fn read(text: &[u8], spelling: Spelling) -> Memory {
        let (mut nodes, mut places) = (vec![0; MAX_NODES * NODE_WORDS], vec![0; MAX_NODES]);
        let mut pool = vec![0; 65_536];
        let answer = lent::read(text, spelling, &mut nodes, &mut places, &mut pool);
        assert_eq!(answer.number, number::OK);
        Memory { nodes, pool, answer }
    }

    fn printed(&self) -> Vec<u8> {
        let mut out = vec![0; MAX_TEXT];
        let printed = lent::print(&self.nodes, self.answer.nodes, &self.pool, self.answer.pool, &mut out);
        assert_eq!(printed.number, number::OK);
        out.truncate(printed.length as usize);
        out
    }

    fn counts(&self) -> (u32, u32) {
        (self.answer.nodes, self.answer.pool)
    }
}

/// What was printed reads as the same table, with zeros behind it, and that prints as the same bytes.
fn comes_back(text: &[u8], spelling: Spelling) {
    let first = Memory::read(text, spelling);
    let printed = first.printed();
    let second = Memory::read(&printed, Spelling::Nested);
    assert_eq!(second.counts(), first.counts());
    assert!(second.nodes == first.nodes && second.pool == first.pool);
    assert_eq!(String::from_utf8(second.printed()), String::from_utf8(printed));
}

/// The files that have both spellings, `.sd` and `.sdi`.
fn manuals() -> Vec<(PathBuf, Spelling)> {
    let both = |name: &Path| {
        [(name.with_extension("sd"), Spelling::Nested), (name.with_extension("sdi"), Spelling::Imperative)]
    };
    let names = fs::read_dir(file("examples")).unwrap().map(|entry| entry.unwrap().path());
    names.filter(|name| name.extension().is_some_and(|end| end == "sdi")).flat_map(|name| both(&name)).collect()
}

#[test]
fn every_manual_comes_back() {
    let manuals = manuals();
    assert_eq!(manuals.len(), 8);
    for (name, spelling) in manuals {
        eprintln!("{}", name.display());
        comes_back(&fs::read(&name).unwrap(), spelling);
    }
}
