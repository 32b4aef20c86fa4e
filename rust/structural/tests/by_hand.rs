//! Large and boundary cases whose whole answers were worked out on paper from document 01, none of them by a run.

mod common;

use common::{print_into, Room};
use structural::lent::{Answer, NODE_WORDS, NONE};
use structural::{number, Spelling};

/// What follows kind, parent and end in a record without strings and size.
const BARE: [u32; 8] = [0, 0, 0, 0, 0, 0, NONE, NONE];

const SPELLINGS: [Spelling; 2] = [Spelling::Nested, Spelling::Imperative];

/// Reads into so many node words, places and pool bytes, and checks. That nothing else is written, [`Room::pair`] sees.
fn read_into(text: &str, spelling: Spelling, [nodes, places, pool]: [usize; 3]) -> Answer {
    Room::new(nodes, places, pool).pair(text.as_bytes(), spelling)
}

/// An answer without a place: place 0 is line 1, column 1.
fn placeless(number: u32, nodes: u32, pool: u32) -> Answer {
    Answer { number, place: 0, line: 1, column: 1, nodes, pool }
}

/// On the first line of an ASCII text, the column is the place and 1.
fn on_first_line(number: u32, place: u32, nodes: u32, pool: u32) -> Answer {
    Answer { number, place, line: 1, column: place + 1, nodes, pool }
}

/// 13 has the counts needed, both exact, whatever is lent: none, room for 4,096 nodes, room for all of them.
fn needs_more_nodes(text: &str, spelling: Spelling, nodes: u32, pool: u32) {
    let all = nodes as usize;
    for lent in [[0, 0, 0], [4_096 * NODE_WORDS, 4_096, 65_536], [all * NODE_WORDS, all, pool as usize]] {
        assert_eq!(read_into(text, spelling, lent), placeless(13, nodes, pool), "{lent:?}");
    }
}

#[test]
fn counts_needed_under_13() {
    for spelling in SPELLINGS {
        // A document, its title, and 30,000 texts of one byte.
        let title = |text: &str, times| format!("[document [title{}]]", text.repeat(times));
        needs_more_nodes(&title(" a", 30_000), spelling, 30_002, 30_000);
        // 20,000 texts of two bytes: 60,018 bytes of text.
        needs_more_nodes(&title(" ab", 20_000), spelling, 20_002, 40_000);
        // 7,000 texts of U+20AC, which is three bytes of UTF-8.
        needs_more_nodes(&title("\"\\u20ac\"", 7_000), spelling, 7_002, 21_000);
        // One node too many: 4,095 texts.
        needs_more_nodes(&title(" a", 4_095), spelling, 4_097, 4_095);
        // As many nodes as there can be in 65,536 bytes: 16 before the texts, two for each of 32,759, two behind them.
        needs_more_nodes(&title(" a", 32_759), spelling, 32_761, 32_759);
    }
}

#[test]
fn counts_of_blocks_needed_under_13() {
    // Document and section, a title each, and 5,000 paragraphs; no string.
    let paragraphs = "[paragraph]".repeat(5_000);
    let nested = format!("[document[title][section[title]{paragraphs}]]");
    needs_more_nodes(&nested, Spelling::Nested, 5_004, 0);
    let imperative = format!("[document[title]][section[title]]{paragraphs}");
    needs_more_nodes(&imperative, Spelling::Imperative, 5_004, 0);
}

#[test]
fn counts_needed_under_14() {
    for spelling in SPELLINGS {
        // Document, title and text; id of 2 bytes, type of 1, text of 3.
        let small = "[document [title abc] [id de] [type f]]";
        for (pool, number) in [(0, 14), (1, 14), (5, 14), (6, 0), (7, 0)] {
            assert_eq!(read_into(small, spelling, [33, 3, pool]), placeless(number, 3, 6), "{pool}");
        }
        // 17 bytes before the text and two behind it leave 65,517 of 65,536.
        let large = format!("[document [title {}]]", "a".repeat(65_517));
        for (pool, number) in [(0, 14), (32_768, 14), (65_516, 14), (65_517, 0)] {
            assert_eq!(read_into(&large, spelling, [33, 3, pool]), placeless(number, 3, 65_517), "{pool}");
        }
        // Nodes are looked at first.
        assert_eq!(read_into(small, spelling, [32, 3, 5]), placeless(13, 3, 6));
        assert_eq!(read_into(small, spelling, [33, 2, 5]), placeless(13, 3, 6));
    }
}

/// The words of a document with a title of one text, which is all of the pool.
fn title_of(length: u32) -> Vec<u32> {
    let mut words = vec![1, NONE, 3];
    words.extend(BARE);
    words.extend([8, 0, 3]);
    words.extend(BARE);
    words.extend([9, 1, 3, 0, 0, 0, 0, 0, length, NONE, NONE]);
    words
}

#[test]
fn pools_of_65_536_bytes_are_printed() {
    let words = title_of(65_536);
    // `[document [title "` has 18 bytes, `"]]` has 3; U+0001 is spelled in 6.
    for (byte, length, spelled) in [(b'a', 65_557, "a"), (1, 393_237, "\\u0001")] {
        let pool = vec![byte; 65_536];
        let (printed, written) = print_into(&words, 3, &pool, 65_536, 400_000);
        assert_eq!((printed.number, printed.length), (0, length));
        assert_eq!(written, format!("[document [title \"{}\"]]", spelled.repeat(65_536)).as_bytes());
        let (printed, _) = print_into(&words, 3, &pool, 65_536, length as usize - 1);
        assert_eq!((printed.number, printed.length), (21, length));
    }
}

#[test]
fn pools_of_65_537_bytes_are_not() {
    let (printed, _) = print_into(&title_of(65_537), 3, &[b'a'; 65_537], 65_537, 70_000);
    assert_eq!((printed.number, printed.length), (20, 0));
    // What lies past the count is not looked at.
    let (printed, _) = print_into(&title_of(65_536), 3, &[b'a'; 65_537], 65_536, 70_000);
    assert_eq!((printed.number, printed.length), (0, 65_557));
}

/// A table with a head of so many names and one row of so many cells.
fn table(names: u32, cells: u32) -> String {
    let (names, cells) = (" [name]".repeat(names as usize), " [cell]".repeat(cells as usize));
    format!("[document [title] [section [title] [paragraph [table [summary] [head{names}] [body [row{cells}]]]]]]")
}

/// 68 bytes up to `[head`, 7 for each name, and `] [body ` are before the row. There are ten nodes but names and cells:
/// document, title, section, title, paragraph, table, summary, head, body, row. No node has a string.
fn row_of(names: u32, cells: u32) -> Answer {
    match names == cells {
        true => placeless(0, 10 + names + cells, 0),
        false => on_first_line(15, 68 + 7 * names + 8, 10 + names + cells, 0),
    }
}

#[test]
fn tables_of_1_to_40_columns() {
    for names in (1..=40).chain([255, 256, 257, 300, 1_000]) {
        for cells in [0, names - 1, names, names + 1, names + 256] {
            let text = table(names, cells);
            let room = [(10 + names + cells) as usize * NODE_WORDS, (10 + names + cells) as usize, 0];
            assert_eq!(read_into(&text, Spelling::Nested, room), row_of(names, cells), "{names} over {cells}");
        }
    }
}

#[test]
fn places_of_a_wide_row() {
    // Two names over two cells: the row is at 68 + 14 + 8, its cells 5 and 12 behind that.
    let mut room = Room::new(14 * NODE_WORDS, 14, 0);
    let answer = room.read(table(2, 2).as_bytes(), Spelling::Nested);
    let (words, places, _) = room.filled(answer);
    assert_eq!(places, [0, 10, 18, 27, 35, 46, 53, 63, 69, 76, 84, 90, 95, 102]);
    // Kind, parent and end.
    let heads: Vec<&[u32]> = words.chunks(NODE_WORDS).map(|record| &record[..3]).collect();
    let wanted: [[u32; 3]; 14] = [
        [1, NONE, 14],
        [8, 0, 2],
        [3, 0, 14],
        [8, 2, 4],
        [5, 2, 14],
        [19, 4, 14],
        [20, 5, 7],
        [21, 5, 10],
        [22, 7, 9],
        [22, 7, 10],
        [23, 5, 14],
        [24, 10, 14],
        [25, 11, 13],
        [25, 11, 14],
    ];
    assert_eq!(heads, wanted);
}

const LENGTHS: [u32; 7] = [1, 64, 65, 255, 256, 300, 1_000];

#[test]
fn long_ids_are_read_and_compared() {
    for length in LENGTHS {
        let id = "i".repeat(length as usize);
        let text = |other: &str| format!("[document [title] [id {id}] [section [title] [id {other}]]]");
        let room = [44, 4, 2 * length as usize];
        // Before the section are 22 bytes, the id, and `] `. Document and section have a title each.
        let repeated = on_first_line(16, 22 + length + 2, 4, 2 * length);
        assert_eq!(read_into(&text(&id), Spelling::Nested, room), repeated, "{length}");
        for other in [format!("j{}", &id[1..]), format!("{}j", &id[1..])] {
            assert_eq!(read_into(&text(&other), Spelling::Nested, room), placeless(0, 4, 2 * length), "{length}");
        }
        // One is the start of the other.
        let longer = [44, 4, 2 * length as usize + 1];
        assert_eq!(read_into(&text(&format!("{id}i")), Spelling::Nested, longer), placeless(0, 4, 2 * length + 1));
    }
}

#[test]
fn long_ids_are_referred_to() {
    for length in LENGTHS {
        let id = "i".repeat(length as usize);
        let room = [66, 6, 2 * length as usize];
        // Document, title, section, title; then paragraph, link and paragraph, or footnote and reference. 35 bytes are before
        // the paragraph and 46 before the link; 35 before the footnote, then `[footnote [id ` with 14, the id, and `] `.
        let link = |target: &str| {
            format!("[document [title] [section [title] [paragraph [link [target {target}]]] [paragraph [id {id}]]]]")
        };
        let reference = |target: &str| {
            format!("[document [title] [section [title] [footnote [id {id}] [footnote-ref [target {target}]]]]]")
        };
        let near = format!("{}j", &id[1..]);
        let seven = [77, 7, 2 * length as usize];
        assert_eq!(read_into(&link(&id), Spelling::Nested, seven), placeless(0, 7, 2 * length), "{length}");
        assert_eq!(read_into(&link(&near), Spelling::Nested, seven), on_first_line(17, 46, 7, 2 * length), "{length}");
        assert_eq!(read_into(&reference(&id), Spelling::Nested, room), placeless(0, 6, 2 * length), "{length}");
        let unknown = on_first_line(18, 35 + 14 + length + 2, 6, 2 * length);
        assert_eq!(read_into(&reference(&near), Spelling::Nested, room), unknown, "{length}");
    }
}

#[test]
fn pairs_of_surrogates_are_refused_at_the_first_backslash() {
    for spelling in SPELLINGS {
        for (inside, place) in [
            // `[document [title "` has 18 bytes.
            ("\\ud83d\\ude00", 18),
            ("\\uD83D\\uDE00", 18),
            ("\\ud800\\udc00", 18),
            ("\\udbff\\udfff", 18),
            ("\\ude00\\ud83d", 18),
            ("a\\uD83d\\uDe00", 19),
            ("\\u0041\\ud83d\\ude00", 24),
        ] {
            let text = format!("[document [title \"{inside}\"]]");
            assert_eq!(read_into(&text, spelling, [33, 3, 9]), on_first_line(4, place, 0, 0), "{inside}");
        }
        // The same character raw is four bytes, and those on either side of the surrogates three each.
        assert_eq!(read_into("[document [title \"\u{1f600}\"]]", spelling, [33, 3, 4]), placeless(0, 3, 4));
        assert_eq!(read_into("[document [title \"\\ud7ff\\ue000\"]]", spelling, [33, 3, 6]), placeless(0, 3, 6));
    }
}

/// The words of a document with an id, a type and a title of one text, whose strings have these lengths.
fn with_values(id: u32, class: u32, text: u32) -> Vec<u32> {
    let mut words = vec![1, NONE, 3, 0, id, id, class, 0, 0, NONE, NONE];
    words.extend([8, 0, 3]);
    words.extend(BARE);
    words.extend([9, 1, 3, 0, 0, 0, 0, id + class, text, NONE, NONE]);
    words
}

#[test]
fn outputs_are_exact() {
    // 17 bytes and the text, `]`, ` [id i]` and ` [type t]` with 7 and 9, `]`.
    let plain = (b"itA" as &[u8], with_values(1, 1, 1), "[document [title \"A\"] [id i] [type t]]", 38);
    // 17 + 2 quotes, then 6 for each of U+0000, U+001F, U+007F and the backslash, 2 for each of quote, U+000A, U+000D,
    // U+0009 and U+00E9, `]`, ` [id ab]`, ` [type c]`, `]`.
    let odd = (
        "abc\0\u{1f}\u{7f}\\\"\n\r\t\u{e9}".as_bytes(),
        with_values(2, 1, 10),
        "[document [title \"\\u0000\\u001f\\u007f\\u005c\\\"\\n\\r\\t\u{e9}\"] [id ab] [type c]]",
        19 + 24 + 10 + 1 + 8 + 9 + 1,
    );
    for (pool, words, spelling, length) in [plain, odd] {
        assert_eq!(spelling.len(), length);
        for short in [0, 1, length - 1] {
            let (printed, _) = print_into(&words, 3, pool, pool.len() as u32, short);
            assert_eq!((printed.number, printed.length as usize), (number::OUTPUT_SHORT, length));
        }
        for enough in [length, length + 1, length + 100] {
            let (printed, written) = print_into(&words, 3, pool, pool.len() as u32, enough);
            assert_eq!((printed.number, printed.length as usize), (number::OK, length));
            assert_eq!(written, spelling.as_bytes());
        }
    }
}
