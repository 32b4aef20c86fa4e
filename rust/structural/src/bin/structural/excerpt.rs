//! The line of a place, with a caret under the place.

use crate::width::{shown, width};

/// Most cells of a line that are shown, and how many of these are kept for what follows the place. A manual
/// may be a single line, and a line that a terminal wraps has its caret elsewhere.
const CELLS: usize = 70;
const FOLLOWING: usize = 30;

/// Most bytes that are looked at on either side of a place, which is enough for the cells. A line may be as long as
/// the text and have many places to be shown.
const NEAR: usize = 1_000;

/// Stands for what is left out of a line.
const LEFT_OUT: char = '…';

/// Two lines: that of the place with its number in front, and one with a caret under the place.
pub fn excerpt(text: &[u8], place: usize, line: u32) -> String {
    let (before, after) = text.split_at(place.min(text.len()));
    let (before, after) = cut(&Side::before(before), &Side::after(after));
    let number = line.to_string();
    let margin = " ".repeat(number.len());
    let blank = blank(&before);
    format!("  {number} | {before}{after}\n  {margin} | {blank}^\n")
}

/// A side of the line that a place is in: the characters near the place, and whether the line has more.
struct Side {
    near: Vec<char>,
    more: bool,
}

impl Side {
    /// Of what stands before a place.
    fn before(text: &[u8]) -> Side {
        let from = text.len().saturating_sub(NEAR);
        match text[from..].iter().rposition(|&byte| byte == b'\n') {
            Some(end) => Side { near: characters(&text[from + end + 1..]), more: false },
            None => Side { near: characters(&text[whole(text, from)..]), more: from != 0 },
        }
    }

    /// Of what stands from the place on, without the line end.
    fn after(text: &[u8]) -> Side {
        let to = text.len().min(NEAR);
        match text[..to].iter().position(|&byte| byte == b'\n') {
            Some(end) => {
                Side { near: characters(text[..end].strip_suffix(b"\r").unwrap_or(&text[..end])), more: false }
            }
            None => Side { near: characters(&text[..whole(text, to)]), more: to != text.len() },
        }
    }
}

/// The place, or in the middle of a character the next one where a character starts; at either end the end itself.
fn whole(text: &[u8], place: usize) -> usize {
    let starts = |place: &usize| !text.get(*place).is_some_and(|byte| (0x80..=0xBF).contains(byte));
    if place == 0 {
        return 0;
    }
    (place..text.len()).find(starts).unwrap_or(place)
}

/// What is shown before the place and from it on.
fn cut(before: &Side, after: &Side) -> (String, String) {
    let kept = cells(&after.near).min(FOLLOWING);
    let from = before.near.len() - fitting(before.near.iter().rev(), CELLS - kept);
    let to = fitting(after.near.iter(), CELLS - cells(&before.near[from..]));
    let mark = |cut: bool| cut.then_some(LEFT_OUT).into_iter();
    let first = mark(before.more || from != 0).chain(before.near[from..].iter().copied());
    let rest = after.near[..to].iter().copied().chain(mark(after.more || to != after.near.len()));
    (first.collect(), rest.collect())
}

fn cells(characters: &[char]) -> usize {
    characters.iter().copied().map(width).sum()
}

/// The characters to show of some bytes; those that are no UTF-8 too, each as U+FFFD.
fn characters(bytes: &[u8]) -> Vec<char> {
    String::from_utf8_lossy(bytes).chars().map(shown).collect()
}

/// How many of the characters fit.
fn fitting<'a>(characters: impl Iterator<Item = &'a char>, cells: usize) -> usize {
    let mut used = 0;
    characters
        .take_while(|&&character| {
            used += width(character);
            used <= cells
        })
        .count()
}

/// White space as wide as the characters; a tab stays one, so that it reaches as far as in the line above.
fn blank(shown: &str) -> String {
    let cells = |character| if character == '\t' { "\t".to_string() } else { " ".repeat(width(character)) };
    shown.chars().map(cells).collect()
}

#[cfg(test)]
mod tests {
    use structural::position;

    fn excerpt(text: &[u8], place: usize) -> String {
        super::excerpt(text, place, position(text, place).line)
    }

    #[test]
    fn caret_under_the_place() {
        assert_eq!(excerpt(b"one\ntwo three\nfour", 8), "  2 | two three\n    |     ^\n");
        assert_eq!(excerpt(b"", 0), "  1 | \n    | ^\n");
        assert_eq!(excerpt(b"ab\n", 3), "  2 | \n    | ^\n");
    }

    #[test]
    fn tabs_stay_tabs() {
        assert_eq!(excerpt(b"\t a\t[x", 4), "  1 | \t a\t[x\n    | \t  \t^\n");
    }

    #[test]
    fn a_character_of_several_bytes_is_one_column() {
        assert_eq!(excerpt("½ é—[x".as_bytes(), 8), "  1 | ½ é—[x\n    |     ^\n");
        assert_eq!(excerpt("章e\u{301}[x".as_bytes(), 6), "  1 | 章e\u{301}[x\n    |    ^\n");
    }

    #[test]
    fn line_ends_are_left_out() {
        assert_eq!(excerpt(b"ab\r\ncd\r\n", 4), "  2 | cd\n    | ^\n");
        assert_eq!(excerpt(b"ab\rcd\n", 2), "  1 | ab␍cd\n    |   ^\n");
        assert_eq!(excerpt(b"ab\r", 2), "  1 | ab␍\n    |   ^\n");
    }

    #[test]
    fn nothing_reaches_the_terminal_but_characters() {
        assert_eq!(excerpt(b"a\x1B[2J\x7F", 1), "  1 | a␛[2J␡\n    |  ^\n");
        assert_eq!(excerpt(b"ab\xFFc", 2), "  1 | ab\u{FFFD}c\n    |   ^\n");
        assert_eq!(excerpt("\u{202E}\u{9B}x".as_bytes(), 5), "  1 | \u{FFFD}\u{FFFD}x\n    |   ^\n");
    }

    #[test]
    fn long_lines_are_cut() {
        let line =
            |before: &str, after: &str, blank: usize| format!("  1 | {before}{after}\n    | {}^\n", " ".repeat(blank));
        let (many_a, many_b) = ("a".repeat(1000), "b".repeat(1000));
        let both = line(&format!("…{}", &many_a[..40]), &format!("{}…", &many_b[..30]), 41);
        assert_eq!(excerpt(format!("{many_a}{many_b}").as_bytes(), 1000), both);
        let at_the_end = line(&format!("…{}", &many_a[..69]), "]", 70);
        assert_eq!(excerpt(format!("{many_a}]").as_bytes(), 1000), at_the_end);
        let at_the_start = line("", &format!("{}…", &many_b[..70]), 0);
        assert_eq!(excerpt(many_b.as_bytes(), 0), at_the_start);
        assert_eq!(excerpt(&[b'a'; 70], 10), line(&many_a[..10], &many_a[..60], 10));
    }

    /// Marks take no cell, so that a side of more than 1,000 bytes would fit. U+0301 has two bytes: 1,000 before the
    /// place at 1,203 is the second byte of one, and 1,000 from it on is the second byte of another.
    #[test]
    fn sides_are_cut_between_characters() {
        let marks = |count: usize| "\u{301}".repeat(count);
        let text = format!("ab{}c[{}", marks(600), marks(600));
        let expected = format!("  1 | …{}c[{}…\n    |   ^\n", marks(499), marks(500));
        assert_eq!(excerpt(text.as_bytes(), 1_203), expected);
    }
}
