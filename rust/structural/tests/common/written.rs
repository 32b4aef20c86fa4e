//! Answers and tables as they are written by hand, and their comparison with what a read gives.

use super::Room;
use structural::lent::{Answer, NODE_WORDS, NONE};
use structural::Spelling;

/// The words of a list that ends with a full stop, `-` for 4,294,967,295.
pub fn list(line: &str) -> Vec<u32> {
    let words = line.strip_suffix('.').unwrap_or(line).split_whitespace();
    words.map(|word| if word == "-" { NONE } else { word.parse().unwrap() }).collect()
}

/// The words of rows that end with a semicolon; one cut short has no further strings and no size.
pub fn rows(line: &str) -> Vec<u32> {
    line.split_terminator(';').flat_map(row).collect()
}

fn row(row: &str) -> [u32; NODE_WORDS] {
    let mut words = [0, 0, 0, 0, 0, 0, 0, 0, 0, NONE, NONE];
    let written = list(row);
    words[..written.len()].copy_from_slice(&written);
    words
}

pub fn answer(words: &[u32]) -> Answer {
    Answer { number: words[0], place: words[1], line: words[2], column: words[3], nodes: words[4], pool: words[5] }
}

/// Node words, places and pool that a read has to leave.
pub type Table<'a> = (&'a [u32], &'a [u32], &'a [u8]);

/// Reads into marked memory, and checks. What is wanted is nine numbers, those of the answer of the pair and the lent
/// node words, places and pool bytes, and what is filled; everything else has to be marks still.
pub fn judge(name: &str, text: &[u8], spelling: Spelling, wanted: &str, table: Table) {
    let wanted = list(wanted);
    assert_eq!(wanted.len(), 9, "{name}");
    let mut room = Room::new(wanted[6] as usize, wanted[7] as usize, wanted[8] as usize);
    let answered = room.pair(text, spelling);
    assert_eq!(answered, answer(&wanted), "{name}");
    assert_eq!(room.filled(answered), table, "{name}");
}
