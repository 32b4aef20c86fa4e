//! Every escape, and what is spelled raw, in seven documents: [`named`] 2, [`controls`] 2, [`wide`] 2, [`plain`] 1.

use crate::cases::{nested, Case};

/// The code points that have an escape of their own, and the backslash, written as themselves where a string may hold
/// them, and by number.
fn named() -> Vec<Case> {
    vec![
        nested(
            b"[document [title \"\\\"\" \"\n\" \"\r\" \"\t\" \\ \"a\\\"b\nc\rd\te\\u005cf\"]]",
            b"[document [title \"\\\"\" \"\\n\" \"\\r\" \"\\t\" \"\\u005c\" \"a\\\"b\\nc\\rd\\te\\u005cf\"]]",
        ),
        nested(
            b"[document [title \"\\u0022\\u000a\\u000D\\u0009\\u005C\" \"\\n\\r\\t\\\"\" \"\\u005cn\"]]",
            b"[document [title \"\\\"\\n\\r\\t\\u005c\" \"\\n\\r\\t\\\"\" \"\\u005cn\"]]",
        ),
    ]
}

/// U+0000 to U+001F and U+007F raw, and all of them by number.
fn controls() -> Vec<Case> {
    vec![
        nested(
            b"[document [title \"\x00\x01\x02\x03\x04\x05\x06\x07\x08\x09\x0a\x0b\x0c\x0d\x0e\x0f\
              \x10\x11\x12\x13\x14\x15\x16\x17\x18\x19\x1a\x1b\x1c\x1d\x1e\x1f \x7e\x7f\" a\x7f]]",
            b"[document [title \"\\u0000\\u0001\\u0002\\u0003\\u0004\\u0005\\u0006\\u0007\\u0008\\t\\n\\u000b\\u000c\\r\\u000e\\u000f\
              \\u0010\\u0011\\u0012\\u0013\\u0014\\u0015\\u0016\\u0017\\u0018\\u0019\\u001a\\u001b\\u001c\\u001d\\u001e\\u001f ~\\u007f\" \"a\\u007f\"]]",
        ),
        nested(
            b"[document [title \"\\u0000\\u0001\\u0002\\u0003\\u0004\\u0005\\u0006\\u0007\\u0008\\u0009\\u000A\\u000B\\u000C\\u000D\\u000E\\u000F\
              \\u0010\\u0011\\u0012\\u0013\\u0014\\u0015\\u0016\\u0017\\u0018\\u0019\\u001A\\u001B\\u001C\\u001D\\u001E\\u001F\\u0020\\u007E\\u007F\"]]",
            b"[document [title \"\\u0000\\u0001\\u0002\\u0003\\u0004\\u0005\\u0006\\u0007\\u0008\\t\\n\\u000b\\u000c\\r\\u000e\\u000f\
              \\u0010\\u0011\\u0012\\u0013\\u0014\\u0015\\u0016\\u0017\\u0018\\u0019\\u001a\\u001b\\u001c\\u001d\\u001e\\u001f ~\\u007f\"]]",
        ),
    ]
}

/// Characters of two, three and four bytes: the first and the last of each length, U+00E9, U+20AC and U+1F600, in
/// strings, in symbols and by number.
fn wide() -> Vec<Case> {
    vec![
        nested(
            b"[document [title \"\xc2\x80\xc3\xa9\xdf\xbf\" \xe2\x82\xac\xef\xbf\xbf \"\xe0\xa0\x80\xed\x9f\xbf\xee\x80\x80\" \
              \xf0\x90\x80\x80\xf0\x9f\x98\x80 \"\xf4\x8f\xbf\xbf\"]]",
            b"[document [title \"\xc2\x80\xc3\xa9\xdf\xbf\" \"\xe2\x82\xac\xef\xbf\xbf\" \"\xe0\xa0\x80\xed\x9f\xbf\xee\x80\x80\" \
              \"\xf0\x90\x80\x80\xf0\x9f\x98\x80\" \"\xf4\x8f\xbf\xbf\"]]",
        ),
        nested(
            b"[document [title \"\\u0080\\u00e9\\u07FF\\u0800\\u20ac\\ud7FF\\uE000\\uffff\" \"\\u0041\\u007a\"]]",
            b"[document [title \"\xc2\x80\xc3\xa9\xdf\xbf\xe0\xa0\x80\xe2\x82\xac\xed\x9f\xbf\xee\x80\x80\xef\xbf\xbf\" \"Az\"]]",
        ),
    ]
}

/// What is bracket or white space outside a string, and nothing else in it.
fn plain() -> Vec<Case> {
    vec![nested(
        b"[document [title \"()[] \" \"'/\x60\" ' a;b,c #!{}]]",
        b"[document [title \"()[] \" \"'/`\" \"'\" \"a;b,c\" \"#!{}\"]]",
    )]
}

/// 2, 2, 2 and 1 documents.
pub fn escapes() -> Vec<Case> {
    [named(), controls(), wide(), plain()].concat()
}
