//! Words for texts, the same ones in every run.

const COMMON: [&str; 48] = [
    "the", "crew", "keeps", "watch", "while", "wind", "rises", "over", "open", "water", "and", "each", "sail", "is",
    "reefed", "before", "dusk", "so", "that", "nobody", "hurries", "anchor", "chain", "of", "harbour", "in", "a",
    "bridle", "to", "depth", "tide", "with", "lee", "shore", "current", "on", "deck", "lines", "must", "be", "clear",
    "float", "beam", "at", "night", "from", "helm", "course",
];

/// Words with letters beyond ASCII, as names of places have.
const FOREIGN: [&str; 8] = ["Ærø", "Fåborg", "Göteborg", "Málaga", "bouée", "Überhang", "jusqu’à", "Łeba"];

/// A stream of words.
pub struct Words {
    state: u64,
}

impl Words {
    pub fn new(seed: u64) -> Words {
        Words { state: seed }
    }

    /// A number below `limit`.
    pub fn below(&mut self, limit: usize) -> usize {
        self.state = self.state.wrapping_mul(6_364_136_223_846_793_005).wrapping_add(1_442_695_040_888_963_407);
        ((self.state >> 33) as usize) % limit
    }

    /// An ASCII word.
    pub fn word(&mut self) -> &'static str {
        COMMON[self.below(COMMON.len())]
    }

    /// A word, one in fifty with letters beyond ASCII.
    pub fn any_word(&mut self) -> &'static str {
        match self.below(50) {
            0 => FOREIGN[self.below(FOREIGN.len())],
            _ => self.word(),
        }
    }

    /// ASCII words of at least `least` bytes together.
    pub fn phrase(&mut self, least: usize) -> String {
        let mut phrase = self.word().to_string();
        while phrase.len() < least {
            phrase.push(' ');
            phrase.push_str(self.word());
        }
        phrase
    }

    /// ASCII words cut to `length` bytes.
    pub fn exactly(&mut self, length: usize) -> String {
        let mut phrase = self.phrase(length);
        phrase.truncate(length);
        phrase
    }

    /// Sentences of at least `least` bytes together.
    pub fn sentences(&mut self, least: usize) -> String {
        let mut text = self.sentence();
        while text.len() < least {
            text.push(' ');
            text += &self.sentence();
        }
        text
    }

    fn sentence(&mut self) -> String {
        let first = self.word();
        let mut sentence = first[..1].to_uppercase() + &first[1..];
        for count in 0..6 + self.below(10) {
            sentence.push_str(if count % 7 == 6 { ", " } else { " " });
            sentence.push_str(self.any_word());
        }
        sentence + "."
    }
}
