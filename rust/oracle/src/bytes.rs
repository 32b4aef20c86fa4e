//! What a byte is outside quoted strings, and the characters of ids, types and targets ("Characters and brackets").

#[derive(Clone, Copy, PartialEq, Eq, Debug)]
pub enum Class {
    Symbol,
    Blank,
    Return,
    Forbidden,
    Open,
    Close,
    Quote,
}

static CLASSES: [Class; 256] = classes();

const fn classes() -> [Class; 256] {
    let mut found = [Class::Symbol; 256];
    let mut byte = 0;
    while byte < 0x20 {
        found[byte] = Class::Forbidden;
        byte += 1;
    }
    found[b'\t' as usize] = Class::Blank;
    found[b'\n' as usize] = Class::Blank;
    found[b' ' as usize] = Class::Blank;
    found[b'\r' as usize] = Class::Return;
    found[b'(' as usize] = Class::Open;
    found[b'[' as usize] = Class::Open;
    found[b')' as usize] = Class::Close;
    found[b']' as usize] = Class::Close;
    found[b'"' as usize] = Class::Quote;
    found
}

pub fn class(byte: u8) -> Class {
    CLASSES[byte as usize]
}

/// The bracket that closes an open one.
pub fn partner(open: u8) -> u8 {
    if open == b'(' {
        b')'
    } else {
        b']'
    }
}

/// One past the symbol that starts at `at`.
pub fn symbol_end(text: &[u8], at: usize) -> usize {
    let rest = &text[at..];
    at + rest.iter().position(|&byte| class(byte) != Class::Symbol).unwrap_or(rest.len())
}

/// Characters of types: ASCII letters, digits, `_`.
pub fn of_type(byte: u8) -> bool {
    byte.is_ascii_alphanumeric() || byte == b'_'
}

/// Characters of ids and of the targets of link and footnote-ref.
pub fn of_id(byte: u8) -> bool {
    of_type(byte) || byte == b'-' || byte == b'.'
}

/// A URI target is one or more bytes 0x21 to 0x7E.
pub fn of_uri(byte: u8) -> bool {
    (0x21..=0x7E).contains(&byte)
}
