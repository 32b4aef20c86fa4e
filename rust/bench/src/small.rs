//! Texts of some hundred bytes, where what a call costs whatever the text has counts most.

use structural::number;

#[derive(Clone, Copy, PartialEq, Eq)]
pub enum Small {
    /// The least document with a text.
    Least,
    /// A document with an id and a link.
    Short,
    /// An item in a paragraph, near its end.
    NotAllowed,
    /// A bad escape near its end.
    BadString,
    /// A first byte that begins no character.
    NotUtf8,
}

impl Small {
    pub const ALL: [Small; 5] = [Small::Least, Small::Short, Small::NotAllowed, Small::BadString, Small::NotUtf8];

    pub fn name(self) -> &'static str {
        match self {
            Small::Least => "least",
            Small::Short => "short",
            Small::NotAllowed => "not-allowed",
            Small::BadString => "bad-string",
            Small::NotUtf8 => "not-utf8",
        }
    }

    pub fn text(self) -> Vec<u8> {
        match self {
            Small::Least => b"[document [title A]]".to_vec(),
            Small::Short => paragraph("[link [target n] \"aloft\"]").into_bytes(),
            Small::NotAllowed => paragraph("[link [target n] \"aloft\"] [item four]").into_bytes(),
            Small::BadString => paragraph("[link [target n] \"aloft: \\x.\"]").into_bytes(),
            Small::NotUtf8 => [b"\xFF", &Small::Short.text()[..]].concat(),
        }
    }

    /// What reading it answers.
    pub fn number(self) -> u32 {
        match self {
            Small::Least | Small::Short => number::OK,
            Small::NotAllowed => number::NOT_ALLOWED,
            Small::BadString => number::BAD_STRING,
            Small::NotUtf8 => number::NOT_UTF8,
        }
    }
}

/// A document whose one paragraph ends with this.
fn paragraph(end: &str) -> String {
    format!("[document [title Watch] [section [title Night] [id n] [paragraph \"Two on deck,\" {end}]]]")
}

#[cfg(test)]
mod tests {
    use super::Small;

    #[test]
    fn lengths() {
        assert_eq!(Small::ALL.map(|small| small.text().len()), [20, 108, 120, 113, 109]);
    }
}
