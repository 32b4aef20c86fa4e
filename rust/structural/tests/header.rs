//! `include/structural.h` and what `examples/read.c` says in words: words of a node and meanings as here. That its constants are
//! those of the definitions is in `names.rs`.

mod common;

use common::definitions::header;
use common::string;
use structural::{lent, number, read, Node, Spelling, Table};

/// A node's word, by its name in the header.
fn word(node: Node, table: &Table, name: &str) -> u32 {
    table.words()[node.number() * lent::NODE_WORDS + header()[name] as usize]
}

/// The string that the words of these names point to.
fn pointed<'a>(node: Node, table: &'a Table, name: &str) -> Option<&'a str> {
    let [offset, length] = ["OFFSET", "LENGTH"].map(|end| word(node, table, &format!("NODE_{name}_{end}")) as usize);
    (length != 0).then(|| &table.pool()[offset..offset + length])
}

#[test]
fn words_of_a_node_stand_where_the_header_says() {
    let text = "[document [title A] [type t] [id d] [section [title S] [paragraph [image [target u] [size 7 9]]]]]";
    let document = read(text, Spelling::Nested).unwrap();
    for node in document.nodes() {
        let word = |name: &str| word(node, &document, name);
        assert_eq!((word("NODE_KIND"), word("NODE_END") as usize), (node.kind().number(), node.end()));
        let parent = node.parent().map_or(lent::NONE, |parent| parent.number() as u32);
        assert_eq!(word("NODE_PARENT"), parent);
        let strings = ["KEY", "TYPE", "TEXT"].map(|name| pointed(node, &document, name));
        assert_eq!(strings, [node.id().or(node.target()), node.type_name(), node.text()]);
        let size = node.size().map_or([lent::NONE; 2], |size| [size.width, size.height]);
        assert_eq!([word("NODE_WIDTH"), word("NODE_HEIGHT")], size);
    }
}

#[test]
fn meanings_are_the_same() {
    let (header, example) = (string("include/structural.h"), string("examples/read.c"));
    for number in 0..=21 {
        let meaning = number::meaning(number);
        assert!(
            header.contains(&format!("/* {meaning}; ")) || header.contains(&format!("/* {meaning} */")),
            "{meaning}"
        );
        assert!(number >= 20 || example.contains(&format!("= \"{meaning}\",")), "{meaning}");
    }
}
