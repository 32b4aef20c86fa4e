//! Paragraphs of plain text, as most pages of a manual are.

use crate::element::{around, titled, Element};
use crate::manual::Manual;
use crate::words::Words;
use structural::Kind;

/// A section for every ten paragraphs.
pub fn manual(size: usize) -> Manual {
    let mut words = Words::new(1);
    let mut manual = Manual::new(size);
    manual.add([titled(Kind::Document, "Handbook of the long passage")]);
    let mut count = 0;
    while manual.add(blocks(count, &mut words)) {
        count += 1;
    }
    manual.fill(&mut words)
}

fn blocks(count: usize, words: &mut Words) -> Vec<Element> {
    match count % 10 {
        0 => vec![titled(Kind::Section, words.phrase(20)), paragraph(count, words)],
        _ => vec![paragraph(count, words)],
    }
}

/// Some 600 bytes. Three escapes in ten paragraphs: one space that does not break, two quotation marks.
fn paragraph(count: usize, words: &mut Words) -> Element {
    let mut text = words.sentences(570);
    match count % 10 {
        2 => text += " Reef at 25\u{a0}kn.",
        7 => text += " The call is \"ready about\".",
        _ => {}
    }
    around(Kind::Paragraph, text)
}

#[cfg(test)]
mod tests {
    use crate::sort::Sort;
    use crate::spell::spell;
    use oracle::names::MOST_BYTES;
    use structural::Spelling;

    #[test]
    fn an_escape_in_about_2000_bytes() {
        let text = spell(&Sort::Prose.manual(MOST_BYTES), Spelling::Nested);
        assert!((27..=38).contains(&text.matches('\\').count()));
        assert!(!text.is_ascii());
    }
}
