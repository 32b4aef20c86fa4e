//! Searches for bytes, eight at a time.

const LOW: u64 = 0x0101_0101_0101_0101;
const HIGH: u64 = 0x8080_8080_8080_8080;

/// High bits of the bytes that are below `limit` (at most 0x80). The lowest of them is right; above it there may be more.
fn below(word: u64, limit: u8) -> u64 {
    word.wrapping_sub(LOW * u64::from(limit)) & !word & HIGH
}

/// The same for the bytes that equal one.
fn equal(word: u64, byte: u8) -> u64 {
    below(word ^ (LOW * u64::from(byte)), 1)
}

/// The first place from `at` on where `hits` has a bit; the last bytes go through it one by one.
fn search(text: &[u8], mut at: usize, hits: impl Fn(u64) -> u64) -> Option<usize> {
    while let Some(eight) = text.get(at..at + 8) {
        let found = hits(u64::from_le_bytes(eight.try_into().unwrap()));
        if found != 0 {
            return Some(at + found.trailing_zeros() as usize / 8);
        }
        at += 8;
    }
    let is_hit = |&byte: &u8| hits(LOW * u64::from(byte)) != 0;
    text.get(at..)?.iter().position(is_hit).map(|found| at + found)
}

/// The first backslash.
pub fn backslash(text: &[u8]) -> Option<usize> {
    search(text, 0, |word| equal(word, b'\\'))
}

/// The first quote or backslash from `at` on.
pub fn quote_or_backslash(text: &[u8], at: usize) -> Option<usize> {
    search(text, at, |word| equal(word, b'"') | equal(word, b'\\'))
}

/// The first byte from `at` on that the canonical spelling escapes: below U+0020, quote, backslash, U+007F.
pub fn escaped(text: &[u8], at: usize) -> Option<usize> {
    search(text, at, |word| below(word, 0x20) | equal(word, b'"') | equal(word, b'\\') | equal(word, 0x7F))
}

#[cfg(test)]
mod tests {
    use super::*;

    fn check(find: impl Fn(&[u8], usize) -> Option<usize>, is: impl Fn(u8) -> bool) {
        let other = (0..=255).find(|&byte| !is(byte) && byte >= b'a').unwrap();
        for length in 0..20 {
            for (place, byte) in (0..length).flat_map(|place| (0..=255).map(move |byte| (place, byte))) {
                for filler in [other, 0x80, 0xFF, b'!', b'#', b'[', b']', b'~', b' '] {
                    let mut text = vec![filler; length];
                    text[place] = byte;
                    for at in [0, 1, place, length] {
                        let wanted = (at..length).find(|&at| is(text[at]));
                        assert_eq!(find(&text, at), wanted, "{text:?} from {at}");
                    }
                }
            }
        }
    }

    #[test]
    fn finds_what_a_loop_finds() {
        check(quote_or_backslash, |byte| byte == b'"' || byte == b'\\');
        check(escaped, |byte| byte < 0x20 || matches!(byte, b'"' | b'\\' | 0x7F));
        check(|text, at| backslash(&text[at..]).map(|found| at + found), |byte| byte == b'\\');
    }
}
