//! Line and column of a place.

/// Line: 1 plus the U+000A bytes before the place. Column: 1 plus the bytes outside 0x80 to 0xBF after the last of them.
pub fn line_and_column(text: &[u8], place: usize) -> (u32, u32) {
    let before = &text[..place];
    let start = before.iter().rposition(|&byte| byte == b'\n').map_or(0, |at| at + 1);
    let line = 1 + before[..start].iter().filter(|&&byte| byte == b'\n').count();
    let column = 1 + before[start..].iter().filter(|&&byte| byte & 0xC0 != 0x80).count();
    (line as u32, column as u32)
}
