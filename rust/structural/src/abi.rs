//! The four functions of libstructural.a, as `include/structural.h` declares them. All `unsafe` is here.
//!
//! What they ask of a caller, Rust's slices give: a pointer that is aligned and not null, as many elements
//! as the length says, and no overlap between one that is written and any other.

use crate::Spelling;

/// Words of an answer to reading: number, place, line, column, node count, pool count.
pub const READ_WORDS: usize = 6;

/// Words of an answer to the check: number, node.
pub const CHECK_WORDS: usize = 2;

/// Words of an answer to printing: number, length.
pub const PRINT_WORDS: usize = 2;

type Read = unsafe extern "C" fn(
    text: *const u8,
    text_length: usize,
    nodes: *mut u32,
    nodes_length: usize,
    places: *mut u32,
    places_length: usize,
    pool: *mut u8,
    pool_length: usize,
    answer: *mut u32,
    answer_length: usize,
) -> u32;

extern "C" {
    fn structural_read_nested(
        text: *const u8,
        text_length: usize,
        nodes: *mut u32,
        nodes_length: usize,
        places: *mut u32,
        places_length: usize,
        pool: *mut u8,
        pool_length: usize,
        answer: *mut u32,
        answer_length: usize,
    ) -> u32;

    fn structural_read_imperative(
        text: *const u8,
        text_length: usize,
        nodes: *mut u32,
        nodes_length: usize,
        places: *mut u32,
        places_length: usize,
        pool: *mut u8,
        pool_length: usize,
        answer: *mut u32,
        answer_length: usize,
    ) -> u32;

    fn structural_check(
        nodes: *const u32,
        nodes_length: usize,
        node_count: u32,
        pool: *const u8,
        pool_length: usize,
        pool_count: u32,
        answer: *mut u32,
        answer_length: usize,
    ) -> u32;

    fn structural_print(
        nodes: *const u32,
        nodes_length: usize,
        node_count: u32,
        pool: *const u8,
        pool_length: usize,
        pool_count: u32,
        out: *mut u8,
        out_length: usize,
        answer: *mut u32,
        answer_length: usize,
    ) -> u32;
}

fn reader(spelling: Spelling) -> Read {
    match spelling {
        Spelling::Nested => structural_read_nested,
        Spelling::Imperative => structural_read_imperative,
    }
}

/// Reads into what is lent; returns the number, and the answer's words in `answer`.
pub fn read(
    spelling: Spelling,
    text: &[u8],
    nodes: &mut [u32],
    places: &mut [u32],
    pool: &mut [u8],
    answer: &mut [u32],
) -> u32 {
    // SAFETY: each pointer and length are those of a slice, and the borrows keep the slices apart.
    unsafe {
        reader(spelling)(
            text.as_ptr(),
            text.len(),
            nodes.as_mut_ptr(),
            nodes.len(),
            places.as_mut_ptr(),
            places.len(),
            pool.as_mut_ptr(),
            pool.len(),
            answer.as_mut_ptr(),
            answer.len(),
        )
    }
}

/// Checks what is lent; returns the number, and the answer's words in `answer`.
pub fn check(nodes: &[u32], node_count: u32, pool: &[u8], pool_count: u32, answer: &mut [u32]) -> u32 {
    // SAFETY: each pointer and length are those of a slice, and the borrows keep the slices apart.
    unsafe {
        structural_check(
            nodes.as_ptr(),
            nodes.len(),
            node_count,
            pool.as_ptr(),
            pool.len(),
            pool_count,
            answer.as_mut_ptr(),
            answer.len(),
        )
    }
}

/// Prints into what is lent; returns the number, and the answer's words in `answer`.
pub fn print(nodes: &[u32], node_count: u32, pool: &[u8], pool_count: u32, out: &mut [u8], answer: &mut [u32]) -> u32 {
    // SAFETY: each pointer and length are those of a slice, and the borrows keep the slices apart.
    unsafe {
        structural_print(
            nodes.as_ptr(),
            nodes.len(),
            node_count,
            pool.as_ptr(),
            pool.len(),
            pool_count,
            out.as_mut_ptr(),
            out.len(),
            answer.as_mut_ptr(),
            answer.len(),
        )
    }
}

#[cfg(test)]
mod tests {
    use super::*;
    use crate::number;

    const MARK: u32 = 0xA5A5_A5A5;
    const TEXT: &[u8] = b"[document [title A]]";

    #[test]
    fn answer_too_short_touches_nothing() {
        for spelling in [Spelling::Nested, Spelling::Imperative] {
            for length in 0..READ_WORDS {
                let (mut nodes, mut places, mut pool) = ([MARK; 33], [MARK; 3], [0xA5; 1]);
                let mut answer = vec![MARK; length];
                let returned = read(spelling, TEXT, &mut nodes, &mut places, &mut pool, &mut answer);
                assert_eq!(returned, number::NO_ANSWER);
                assert!(nodes == [MARK; 33] && places == [MARK; 3] && pool == [0xA5; 1]);
                assert_eq!(answer, vec![MARK; length]);
            }
        }
    }

    #[test]
    fn check_answer_too_short_touches_nothing() {
        for length in 0..CHECK_WORDS {
            let (nodes, pool) = (nodes().concat(), b"A".to_vec());
            let mut answer = vec![MARK; length];
            assert_eq!(check(&nodes, 3, &pool, 1, &mut answer), number::NO_ANSWER);
            assert!(nodes == self::nodes().concat() && pool == b"A" && answer == vec![MARK; length]);
        }
    }

    #[test]
    fn print_answer_too_short_touches_nothing() {
        for length in 0..PRINT_WORDS {
            let mut out = [0xA5; 64];
            let mut answer = vec![MARK; length];
            let returned = print(&[], 0, &[], 0, &mut out, &mut answer);
            assert_eq!(returned, number::NO_ANSWER);
            assert!(out == [0xA5; 64] && answer == vec![MARK; length]);
        }
    }

    /// Place 0 is line 1, column 1; document, title and text; a pool of one byte.
    #[test]
    fn answers_that_are_long_enough_keep_their_later_words() {
        for (spelling, length) in
            [Spelling::Nested, Spelling::Imperative].into_iter().flat_map(|s| [6, 7, 9].map(|n| (s, n)))
        {
            let (mut nodes, mut places, mut pool) = ([MARK; 33], [MARK; 3], [0xA5; 1]);
            let mut answer = vec![MARK; length];
            let returned = read(spelling, TEXT, &mut nodes, &mut places, &mut pool, &mut answer);
            assert_eq!((returned, &answer[..6]), (number::OK, &[0, 0, 1, 1, 3, 1][..]));
            assert_eq!((places, &pool, &nodes[22..24]), ([0, 10, 17], b"A", &[9, 1][..]));
            assert_eq!(answer[6..], vec![MARK; length - 6]);
        }
    }

    /// The words of the same table: kind, parent, end, three strings, size.
    fn nodes() -> [[u32; 11]; 3] {
        let none = u32::MAX;
        [
            [1, none, 3, 0, 0, 0, 0, 0, 0, none, none],
            [8, 0, 3, 0, 0, 0, 0, 0, 0, none, none],
            [9, 1, 3, 0, 0, 0, 0, 0, 1, none, none],
        ]
    }

    /// The table is well-formed; two nodes of it are no table, since the root ends at 3.
    #[test]
    fn check_answers_that_are_long_enough_keep_their_later_words() {
        for (length, (count, wanted)) in [2, 3, 4].into_iter().flat_map(|n| [(3, 0), (2, 20)].map(|case| (n, case))) {
            let mut answer = vec![MARK; length];
            assert_eq!(check(&nodes().concat(), count, b"A", 1, &mut answer), wanted);
            assert_eq!((&answer[..2], &answer[2..]), (&[wanted, 0][..], &vec![MARK; length - 2][..]));
        }
    }

    #[test]
    fn print_answers_that_are_long_enough_keep_their_later_words() {
        for length in [2, 3, 4] {
            let mut out = [0xA5; 22];
            let mut answer = vec![MARK; length];
            assert_eq!(print(&nodes().concat(), 3, b"A", 1, &mut out, &mut answer), number::OK);
            assert_eq!((&answer[..2], &out), (&[0, 22][..], b"[document [title \"A\"]]"));
            assert_eq!(answer[2..], vec![MARK; length - 2]);
        }
    }
}
