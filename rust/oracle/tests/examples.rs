//! The examples folder of the project.

mod common;

use common::{bytes, file, printed, read_alone, read_amply};

fn text(name: &str) -> Vec<u8> {
    bytes(&format!("examples/{name}"))
}

#[test]
fn duplicate_id_is_refused_at_line_7() {
    let answer = read_amply(&text("duplicate-id.sd"), false).answer;
    assert_eq!((answer.number, answer.line, answer.column), (16, 7, 3));
}

#[test]
fn duplicate_id_is_read_and_printed_as_a_draft() {
    let draft = read_alone(&text("duplicate-id.sd"), false);
    assert_eq!(draft.answer.number, 0);
    let again = read_alone(&printed(&draft), false);
    assert_eq!((again.nodes, again.pool), (draft.nodes, draft.pool));
}

#[test]
fn pairs_have_equal_tables() {
    let mut pairs = 0;
    for entry in std::fs::read_dir(file("examples")).unwrap() {
        let name = entry.unwrap().file_name().into_string().unwrap();
        let Some(stem) = name.strip_suffix(".sdi") else { continue };
        let nested = read_amply(&text(&format!("{stem}.sd")), false);
        let run = read_amply(&text(&name), true);
        assert_eq!((nested.answer.number, run.answer.number), (0, 0), "{stem}");
        assert_eq!(nested.nodes, run.nodes, "{stem}");
        assert_eq!(nested.pool, run.pool, "{stem}");
        let again = read_amply(&printed(&nested), false);
        assert_eq!((again.nodes, again.pool), (nested.nodes, nested.pool), "{stem}");
        pairs += 1;
    }
    assert!(pairs >= 4);
}
