use std::fmt;

/// Line and column of a place, both from 1.
#[derive(Clone, Copy, Debug, PartialEq, Eq, Hash, PartialOrd, Ord)]
pub struct Position {
    /// 1 plus the line ends before the place.
    pub line: u32,
    /// 1 plus the code points between the line's start and the place.
    pub column: u32,
}

impl Position {
    /// Where a text begins.
    const START: Position = Position { line: 1, column: 1 };

    /// The position behind these bytes, the first of which is here.
    fn past(self, bytes: &[u8]) -> Position {
        let line_ends = bytes.iter().filter(|&&byte| byte == b'\n').count();
        let last = bytes.iter().rposition(|&byte| byte == b'\n');
        let (column, rest) = last.map_or((self.column, bytes), |end| (1, &bytes[end + 1..]));
        let characters = rest.iter().filter(|&&byte| !(0x80..=0xBF).contains(&byte)).count();
        Position { line: more(self.line, line_ends), column: more(column, characters) }
    }
}

fn more(number: u32, count: usize) -> u32 {
    number.saturating_add(u32::try_from(count).unwrap_or(u32::MAX))
}

/// `line:column`
impl fmt::Display for Position {
    fn fmt(&self, f: &mut fmt::Formatter<'_>) -> fmt::Result {
        write!(f, "{}:{}", self.line, self.column)
    }
}

/// Line and column of a place of a text, or of the text's end where it is shorter, counted as reading counts them.
///
/// ```
/// use structural::{position, Position};
/// assert_eq!(position("é\né[".as_bytes(), 5), Position { line: 2, column: 2 });
/// ```
pub fn position(text: &[u8], place: usize) -> Position {
    Position::START.past(&text[..place.min(text.len())])
}

/// Those of places that stand in the order of the text, by one pass over it.
pub(crate) fn positions(text: &[u8], places: &[u32]) -> Vec<Position> {
    let (mut from, mut at) = (0, Position::START);
    let next = |&place: &u32| {
        at = at.past(&text[from..place as usize]);
        from = place as usize;
        at
    };
    places.iter().map(next).collect()
}

#[cfg(test)]
mod tests {
    use super::*;

    #[test]
    fn positions_by_one_pass_are_those_of_each_place() {
        let text = "é\n\n[a é]\n\t[b".as_bytes();
        // Only places where a character begins: é has two bytes.
        let places = [0, 2, 3, 4, 5, 7, 9, 10, 11, 12];
        let each: Vec<Position> = places.iter().map(|&place| position(text, place as usize)).collect();
        assert_eq!(positions(text, &places), each);
        let by_hand = [(1, 1), (1, 2), (2, 1), (3, 1), (3, 2), (3, 4), (3, 5), (3, 6), (4, 1), (4, 2)];
        assert_eq!(each.iter().map(|at| (at.line, at.column)).collect::<Vec<_>>(), by_hand);
    }
}
