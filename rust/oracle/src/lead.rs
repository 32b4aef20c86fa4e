//! What the symbol that leads a list says: one probe of a table without collisions, then one comparison.

use crate::kind::{Kind, KINDS};

#[derive(Clone, Copy, PartialEq, Eq, Debug)]
pub enum Lead {
    Element(Kind),
    Id,
    Type,
    Target,
    Size,
    /// `include` or `import`.
    Include,
    /// No symbol, or one that names nothing.
    Other,
}

type Slot = (&'static str, Lead);

static SLOTS: [Slot; 128] = slots();

const PARAMETERS: [Slot; 6] = [
    ("id", Lead::Id),
    ("type", Lead::Type),
    ("target", Lead::Target),
    ("size", Lead::Size),
    ("include", Lead::Include),
    ("import", Lead::Include),
];

const fn slots() -> [Slot; 128] {
    let mut found = [("", Lead::Other); 128];
    let mut at = 0;
    while at < KINDS.len() {
        // A text (9) is no list, so `text` leads nothing.
        if !matches!(KINDS[at], Kind::Text) {
            found = with(found, (KINDS[at].name(), Lead::Element(KINDS[at])));
        }
        at += 1;
    }
    at = 0;
    while at < PARAMETERS.len() {
        found = with(found, PARAMETERS[at]);
        at += 1;
    }
    found
}

const fn with(mut slots: [Slot; 128], slot: Slot) -> [Slot; 128] {
    let at = hash(slot.0.as_bytes());
    assert!(slots[at].0.is_empty(), "two names share a slot");
    slots[at] = slot;
    slots
}

const fn hash(name: &[u8]) -> usize {
    (name.len() * 10 + name[0] as usize + name[name.len() / 2] as usize) % 128
}

/// The meaning of a symbol (of one byte or more) that leads a list. Names are exact bytes.
pub fn lead(symbol: &[u8]) -> Lead {
    let (name, meaning) = SLOTS[hash(symbol)];
    if name.as_bytes() == symbol {
        meaning
    } else {
        Lead::Other
    }
}

#[cfg(test)]
mod tests {
    use super::*;

    #[test]
    fn every_name_is_found() {
        for kind in KINDS {
            let wanted = if kind == Kind::Text { Lead::Other } else { Lead::Element(kind) };
            assert_eq!(lead(kind.name().as_bytes()), wanted);
        }
        for (name, meaning) in PARAMETERS {
            assert_eq!(lead(name.as_bytes()), meaning);
        }
        for name in ["Document", "x", "documents", "link-", "ID", "\u{e9}"] {
            assert_eq!(lead(name.as_bytes()), Lead::Other);
        }
    }
}
