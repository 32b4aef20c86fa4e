//! What a walk does with the nodes it meets: count them, or fill the lent memory.

use crate::kind::Kind;
use crate::names::{END, HEIGHT, RECORD_LENGTH, WIDTH};
use crate::table::{bare_record, STRINGS};
use crate::value::{decode, decoded_length};

/// A symbol or string in the text, quotes included.
#[derive(Clone, Copy)]
pub struct Spelled<'t> {
    pub bytes: &'t [u8],
    pub place: usize,
}

pub trait Sink {
    /// A node starts; its number is answered.
    fn open(&mut self, kind: Kind, parent: u32, place: usize) -> u32;
    /// The node's last descendant has been met.
    fn close(&mut self, node: u32);
    /// The node has that string, by the word of its record that keeps the offset.
    fn string(&mut self, node: u32, word: usize, value: Spelled);
    fn size(&mut self, node: u32, width: u32, height: u32);
}

/// The counts needed.
#[derive(Clone, Copy, Default, PartialEq, Eq, Debug)]
pub struct Count {
    pub nodes: u32,
    pub pool: u32,
}

impl Sink for Count {
    fn open(&mut self, _: Kind, _: u32, _: usize) -> u32 {
        self.nodes += 1;
        self.nodes - 1
    }

    fn close(&mut self, _: u32) {}

    fn string(&mut self, _: u32, _: usize, value: Spelled) {
        self.pool += decoded_length(value.bytes) as u32;
    }

    fn size(&mut self, _: u32, _: u32, _: u32) {}
}

/// Lent node words and places, long enough. Strings are noted by their place in the text until [`gather`].
pub struct Fill<'l> {
    pub words: &'l mut [u32],
    pub places: &'l mut [u32],
    pub count: u32,
}

impl Fill<'_> {
    fn record(&mut self, node: u32) -> &mut [u32] {
        &mut self.words[node as usize * RECORD_LENGTH..][..RECORD_LENGTH]
    }
}

impl Sink for Fill<'_> {
    fn open(&mut self, kind: Kind, parent: u32, place: usize) -> u32 {
        let node = self.count;
        self.record(node).copy_from_slice(&bare_record(kind, parent, node));
        self.places[node as usize] = place as u32;
        self.count += 1;
        node
    }

    fn close(&mut self, node: u32) {
        let end = self.count;
        self.record(node)[END] = end;
    }

    fn string(&mut self, node: u32, word: usize, value: Spelled) {
        self.record(node)[word] = value.place as u32;
        self.record(node)[word + 1] = value.bytes.len() as u32;
    }

    fn size(&mut self, node: u32, width: u32, height: u32) {
        self.record(node)[WIDTH] = width;
        self.record(node)[HEIGHT] = height;
    }
}

/// Decodes the strings into the pool, node by node, and turns places in the text into offsets in the pool.
pub fn gather(text: &[u8], words: &mut [u32], pool: &mut [u8]) {
    let mut used = 0;
    for record in words.chunks_exact_mut(RECORD_LENGTH) {
        for word in STRINGS {
            if record[word + 1] != 0 {
                let spelled = &text[record[word] as usize..][..record[word + 1] as usize];
                let length = decode(spelled, &mut pool[used..]);
                record[word] = used as u32;
                record[word + 1] = length as u32;
                used += length;
            }
        }
    }
}
