//! What several tests use.
#![allow(dead_code, unused_imports)]

#[path = "../../../structural/tests/common/definitions.rs"]
pub mod definitions;
pub mod plain;
#[path = "../../../structural/tests/common/repository.rs"]
mod repository;

pub use repository::{bytes, file};

use oracle::names::{END, KIND, MOST_BYTES, MOST_NODES, PARENT, RECORD_LENGTH};
use oracle::{pair, print, read, Answer};

/// An answer with the used part of the lent memory.
#[derive(Debug, PartialEq, Eq)]
pub struct Read {
    pub answer: Answer,
    pub nodes: Vec<u32>,
    pub places: Vec<u32>,
    pub pool: Vec<u8>,
}

/// How many random cases there are: so many as ORACLE_CASES says, or as take seconds.
pub fn cases() -> u64 {
    std::env::var("ORACLE_CASES").ok().and_then(|count| count.parse().ok()).unwrap_or(4_000)
}

/// [`read`] and [`pair`].
type Reader = fn(&[u8], bool, &mut [u32], &mut [u32], &mut [u8]) -> Answer;

/// Reads and checks, with room for every document there is.
pub fn read_amply(text: &[u8], imperative: bool) -> Read {
    amply(pair, text, imperative)
}

/// Reads alone, with the same room.
pub fn read_alone(text: &[u8], imperative: bool) -> Read {
    amply(read, text, imperative)
}

fn amply(reader: Reader, text: &[u8], imperative: bool) -> Read {
    let (mut nodes, mut places, mut pool) =
        (vec![0; MOST_NODES * RECORD_LENGTH], vec![0; MOST_NODES], vec![0; MOST_BYTES]);
    let answer = reader(text, imperative, &mut nodes, &mut places, &mut pool);
    let filled = matches!(answer.number, 0 | 15..=18);
    let (count, length) = if filled { (answer.nodes as usize, answer.pool as usize) } else { (0, 0) };
    nodes.truncate(count * RECORD_LENGTH);
    places.truncate(count);
    pool.truncate(length);
    Read { answer, nodes, places, pool }
}

pub fn nested(text: impl AsRef<[u8]>) -> Answer {
    read_amply(text.as_ref(), false).answer
}

pub fn imperative(text: impl AsRef<[u8]>) -> Answer {
    read_amply(text.as_ref(), true).answer
}

/// Number and place.
pub fn at(answer: Answer) -> (u32, u32) {
    (answer.number, answer.place)
}

/// Nested text of a document with one section of one paragraph that holds the content, and where that starts.
pub fn in_paragraph(content: &str) -> (String, u32) {
    let before = "[document [title A] [section [title B] [paragraph ";
    (format!("{before}{content}]]]"), before.len() as u32)
}

/// Number of the content in a paragraph, and its place from the start of the content.
pub fn paragraph(content: &str) -> (u32, u32) {
    let (text, start) = in_paragraph(content);
    let answer = nested(&text);
    (answer.number, answer.place.wrapping_sub(start))
}

/// The canonical spelling of a read table.
pub fn printed(read: &Read) -> Vec<u8> {
    let mut out = vec![0; 1 << 20];
    let (nodes, pool) = (read.answer.nodes, read.answer.pool);
    let answer = print(&read.nodes, nodes, &read.pool, pool, &mut out);
    assert_eq!(answer.number, 0);
    out.truncate(answer.length as usize);
    out
}

/// What the listing programs print (1,024 nodes, a pool of 32,768 bytes).
pub fn listing(text: &[u8], imperative: bool) -> String {
    if text.len() > 32_768 {
        return "too long\n".into();
    }
    let (mut nodes, mut places, mut pool) = (vec![0; 1_024 * RECORD_LENGTH], vec![0; 1_024], vec![0; 32_768]);
    let answer = pair(text, imperative, &mut nodes, &mut places, &mut pool);
    if answer.number != 0 {
        return format!("refused {} {}:{}\n", answer.number, answer.line, answer.column);
    }
    let mut lines = format!("nodes {} pool {}\n", answer.nodes, answer.pool);
    for (node, record) in nodes.chunks(RECORD_LENGTH).take(answer.nodes as usize).enumerate() {
        let parent = if node == 0 { "-".into() } else { record[PARENT].to_string() };
        lines += &format!("{node} {} {parent} {}\n", record[KIND], record[END]);
    }
    lines
}
