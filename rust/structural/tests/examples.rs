//! The manuals of `examples/`, and what a document and a refusal tell.

mod common;

use common::{bytes, spellings, string, PAIRS};
use structural::{number, position, read, Document, Kind, Node, Position, Size, Spelling};

fn example(name: &str) -> Document {
    read(bytes(&format!("examples/{name}")), Spelling::of_file(name).unwrap()).unwrap()
}

#[test]
fn both_spellings_are_one_document() {
    for pair in PAIRS {
        let [nested, imperative] = spellings(pair).map(|(text, spelling)| read(text, spelling).unwrap());
        assert_eq!(nested, imperative);
        assert_eq!(nested.words(), imperative.words());
        assert_eq!(nested.pool(), imperative.pool());
        assert_ne!(nested.places(), imperative.places());
        assert_eq!(nested.print(), imperative.print());
    }
}

#[test]
fn canonical_spelling_reads_back() {
    for pair in PAIRS {
        let document = example(&format!("{pair}.sd"));
        let canonical = document.print();
        let again = read(&canonical, Spelling::Nested).unwrap();
        assert_eq!(document, again);
        assert_eq!(again.print(), canonical);
    }
}

#[test]
fn canonical_spelling_is_the_stored_one() {
    let document = read(string("crates/print_canonical/stdin"), Spelling::Nested).unwrap();
    assert_eq!(document.print() + "\n", string("crates/print_canonical/stdout"));
}

#[test]
fn nodes_are_a_tree() {
    for pair in PAIRS {
        let document = example(&format!("{pair}.sd"));
        let text = bytes(&format!("examples/{pair}.sd"));
        assert_eq!(document.nodes().len(), document.count());
        assert_eq!(document.root().end(), document.count());
        assert_eq!(document.node(document.count()), None);
        for node in document.nodes() {
            assert_eq!(document.node_at(node.place()), Some(node));
            family(node);
            spelled_there(node, &text);
        }
    }
}

/// Children have the node as their parent, and with their own make up its descendants.
fn family(node: Node) {
    assert!(node.children().all(|child| child.parent() == Some(node)));
    let below: usize = node.children().map(|child| child.end() - child.number()).sum();
    assert_eq!(below, node.descendants().len());
    assert_eq!(node.end(), node.number() + 1 + below);
    let backwards: Vec<_> = node.descendants().rev().map(Node::number).collect();
    assert_eq!(backwards, (node.number() + 1..node.end()).rev().collect::<Vec<_>>());
}

/// At the node's place stands its name, or the text.
fn spelled_there(node: Node, text: &[u8]) {
    let there = &text[node.place()..];
    match node.kind() {
        Kind::Text => assert!(there[0] == b'"' || there.starts_with(node.text().unwrap().as_bytes())),
        kind => {
            assert!(there[0] == b'[' || there[0] == b'(');
            assert!(there[1..].starts_with(kind.name().as_bytes()));
        }
    }
}

#[test]
fn values_of_nodes() {
    let document = example("anchoring.sdi");
    assert_eq!(document.root().id(), Some("anchoring-manual"));
    assert_eq!((document.root().parent(), document.root().target()), (None, None));
    let first = |kind| document.nodes().find(|node| node.kind() == kind).unwrap();
    let image = first(Kind::Image);
    assert_eq!((image.id(), image.target()), (None, Some("images/bridle.png")));
    assert_eq!(image.size(), Some(Size { width: 640, height: 480 }));
    assert_eq!(image.children().next().unwrap().text(), Some("The bridle from ama to ama"));
    assert_eq!(first(Kind::Term).type_name(), Some("chart"));
    assert_eq!(first(Kind::Link).target(), Some("scope"));
    assert_eq!(document.block("scope").map(|block| block.kind()), Some(Kind::Section));
    assert_eq!(document.block("nowhere"), None);
    let head: Vec<_> = first(Kind::Head).children().map(|name| name.children().next().unwrap().text()).collect();
    assert_eq!(head, [Some("Depth"), Some("Up to 15 kn"), Some("Up to 30 kn")]);
}

#[test]
fn repeated_id() {
    let text = bytes("examples/duplicate-id.sd");
    let refusal = read(&text, Spelling::Nested).unwrap_err();
    assert_eq!(refusal.to_string(), "7:3: 16: a block has the id of an earlier block");
    let named = refusal.in_file("examples/duplicate-id.sd").to_string();
    assert_eq!(named, "examples/duplicate-id.sd:7:3: 16: a block has the id of an earlier block");
    let first = refusal.first_block().unwrap();
    assert_eq!(first.id(), Some("wave-limit"));
    assert_eq!(position(&text, first.place()), Position { line: 3, column: 3 });
    assert_eq!((refusal.target(), refusal.row_length()), (None, None));
}

#[test]
fn refusals_tell_what_is_at_fault() {
    let text = "[document [title A]] [section [title B]] [paragraph [id p]] [link [target q] x]";
    let refusal = read(text, Spelling::Imperative).unwrap_err();
    assert_eq!((refusal.number(), refusal.target()), (number::UNKNOWN_TARGET, Some("q")));
    assert_eq!(refusal.node().map(|node| node.kind()), Some(Kind::Link));

    let text = "[document [title A]] [section [title B]] [paragraph [id p]] [footnote-ref [target p]]";
    let refusal = read(text, Spelling::Imperative).unwrap_err();
    assert_eq!((refusal.number(), refusal.target()), (number::UNKNOWN_FOOTNOTE, Some("p")));
    assert_eq!(refusal.first_block(), None);

    let text = "[document [title A]] [section [title B]] [paragraph]
        [table [summary] [head [name] [name]] [body [row [cell] [cell]] [row [cell]]]]";
    let refusal = read(text, Spelling::Imperative).unwrap_err();
    assert_eq!((refusal.number(), refusal.row_length()), (number::ROW_LENGTH, Some((1, 2))));

    let refusal = read(b"\xFF", Spelling::Nested).unwrap_err();
    assert_eq!((refusal.number(), refusal.place()), (number::NOT_UTF8, 0));
    assert!(refusal.table().is_none() && refusal.node().is_none());
}
