//! Marked memory: what reads and prints are lent, and what is left in it.

use structural::lent;
use structural::{number, Spelling};

/// The marks: what each memory is full of beforehand.
const WORD: u32 = 2_779_096_485;
const PLACE: u32 = 1_515_870_810;
const BYTE: u8 = 231;

/// How much of the output's memory lies before the part that is lent.
const BEFORE: usize = 8;

/// Memory for a read: node words, places and pool bytes, and what node words and pool are full of.
#[derive(Clone, Copy, Debug)]
pub struct Room {
    pub words: usize,
    pub places: usize,
    pub bytes: usize,
    pub word: u32,
    pub byte: u8,
}

impl Room {
    pub fn new(words: usize, places: usize, bytes: usize) -> Room {
        Room { words, places, bytes, word: WORD, byte: BYTE }
    }
}

/// All node words and pool bytes that were lent, and how many of them are said to be used.
#[derive(Clone, PartialEq)]
pub struct Table {
    pub words: Vec<u32>,
    pub nodes: u32,
    pub bytes: Vec<u8>,
    pub pool: u32,
}

impl Table {
    /// Reads a text, which has to be answered with this number.
    pub fn read(text: &[u8], spelling: Spelling, number: u32, room: Room) -> Table {
        let (mut words, mut bytes) = (vec![room.word; room.words], vec![room.byte; room.bytes]);
        let answer = lent::read(text, spelling, &mut words, &mut vec![PLACE; room.places], &mut bytes);
        assert_eq!(answer.number, number, "{}", String::from_utf8_lossy(text));
        Table { words, nodes: answer.nodes, bytes, pool: answer.pool }
    }

    /// A print into `size` bytes answers this number and this length, and writes `want` and nothing else.
    pub fn prints(&self, size: usize, number: u32, length: usize, want: &[u8]) {
        let mut out = vec![BYTE; if size < 1_000 { 1_024 } else { 66_000 }];
        let lent = &mut out[BEFORE..BEFORE + size];
        let printed = lent::print(&self.words, self.nodes, &self.bytes, self.pool, lent);
        assert_eq!((printed.number, printed.length as usize), (number, length));
        let (before, rest) = out.split_at(BEFORE);
        let (written, behind) = rest.split_at(want.len());
        assert_eq!(String::from_utf8_lossy(written), String::from_utf8_lossy(want));
        assert!(written == want && before.iter().chain(behind).all(|byte| *byte == BYTE));
    }

    /// The print spells `want`, with more bytes lent than it has.
    pub fn spells(&self, want: &[u8]) {
        self.prints(want.len() + 16, number::OK, want.len(), want);
    }

    /// The check answers this number and this node, and changes nothing.
    pub fn checks(&self, number: u32, node: u32) {
        let before = self.clone();
        let checked = lent::check(&self.words, self.nodes, &self.bytes, self.pool);
        assert_eq!((checked.number, checked.node), (number, node));
        assert!(*self == before, "the check changed the table");
    }

    /// It is no draft's table. The print says so with 20, length 0, and nothing written, also where nothing is lent;
    /// the check with 20 at node 0.
    pub fn refuses(&self) {
        self.prints(0, number::NOT_A_TABLE, 0, b"");
        self.prints(400, number::NOT_A_TABLE, 0, b"");
        self.checks(number::NOT_A_TABLE, 0);
    }

    /// The table is that of a well-formed document and is spelled so; it is to be refused where no spelling is wanted.
    pub fn answers(&self, want: &[u8]) {
        if want.is_empty() {
            self.refuses();
        } else {
            self.spells(want);
            self.checks(number::OK, 0);
        }
    }

    /// What is printed reads as the same counts, words and pool, into memory that is marked alike and longer, and that
    /// prints as the same bytes.
    pub fn comes_back(&self) {
        let mut out = vec![BYTE; 66_000];
        let printed = lent::print(&self.words, self.nodes, &self.bytes, self.pool, &mut out);
        assert_eq!(printed.number, number::OK);
        let spelling = &out[..printed.length as usize];
        let again = Table::read(spelling, Spelling::Nested, number::OK, Room::new(45_100, 4_100, 8_192));
        assert_eq!((again.nodes, again.pool), (self.nodes, self.pool));
        assert!(again.words.starts_with(&self.words), "other words");
        let (bytes, behind) = again.bytes.split_at(self.bytes.len());
        assert!(bytes == self.bytes && behind.iter().all(|byte| *byte == BYTE), "another pool");
        again.prints(spelling.len(), number::OK, spelling.len(), spelling);
    }
}
