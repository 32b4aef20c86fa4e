//! The list of a draft's faults, which two passes make and no proof covers, against the rules as they are said of a
//! single node (`crates/document/specs/rules/WellFormed.antt`), by search, on random drafts.

use structural::{number, read_draft, Draft, Fault, Kind, Node, Spelling};

/// A row of a table that has a head with another number of names.
fn bad_row(row: Node) -> bool {
    let Some(table) = row.parent().and_then(Node::parent) else { return false };
    let heads = table.children().filter(|child| child.kind() == Kind::Head);
    row.kind() == Kind::Row && heads.into_iter().any(|head| head.children().count() != row.children().count())
}

/// A block whose id an earlier block has.
fn repeated_id(draft: &Draft, node: Node) -> bool {
    node.id().is_some() && draft.nodes().take(node.number()).any(|earlier| earlier.id() == node.id())
}

/// A link whose target no block has.
fn unknown_link(draft: &Draft, link: Node) -> bool {
    link.kind() == Kind::Link && !draft.nodes().any(|block| block.id() == link.target())
}

/// A reference whose target no footnote has.
fn unknown_footnote(draft: &Draft, reference: Node) -> bool {
    let named = |block: Node| block.kind() == Kind::Footnote && block.id() == reference.target();
    reference.kind() == Kind::FootnoteRef && !draft.nodes().any(named)
}

/// The numbers of all faults that a node has.
fn numbers(draft: &Draft, node: Node) -> Vec<u32> {
    let each = [
        (number::ROW_LENGTH, bad_row(node)),
        (number::REPEATED_ID, repeated_id(draft, node)),
        (number::UNKNOWN_TARGET, unknown_link(draft, node)),
        (number::UNKNOWN_FOOTNOTE, unknown_footnote(draft, node)),
    ];
    each.into_iter().filter(|(_, has)| *has).map(|(number, _)| number).collect()
}

fn by_search(draft: &Draft) -> Vec<Fault> {
    let each = (0..draft.count()).flat_map(|node| draft.node(node).map(|found| (node, numbers(draft, found))));
    each.flat_map(|(node, numbers)| numbers.into_iter().map(move |number| Fault { number, node })).collect()
}

/// Numbers that look random, the same at each run (Knuth's MMIX generator).
struct Random(u64);

impl Random {
    fn below(&mut self, bound: u64) -> u64 {
        self.0 = self.0.wrapping_mul(6_364_136_223_846_793_005).wrapping_add(1_442_695_040_888_963_407);
        (self.0 >> 33) % bound
    }

    /// One of a few ids.
    fn id(&mut self) -> char {
        char::from(b'a' + self.below(6) as u8)
    }

    /// An id or none.
    fn id_parameter(&mut self) -> String {
        if self.below(3) == 0 {
            format!(" [id {}]", self.id())
        } else {
            String::new()
        }
    }

    fn times(&mut self, bound: u64, text: &str) -> String {
        text.repeat(self.below(bound) as usize)
    }

    fn table(&mut self) -> String {
        let head = if self.below(4) == 0 { String::new() } else { format!("[head{}]", self.times(3, "[name]")) };
        let rows: String = (0..self.below(3)).map(|_| format!("[row{}]", self.times(3, "[cell]"))).collect();
        format!("[table [summary] {head} [body {rows}]]")
    }

    /// A piece of an imperative text: a block, or content of a paragraph.
    fn piece(&mut self) -> String {
        match self.below(7) {
            0 => format!("[section [title]{}] [paragraph]", self.id_parameter()),
            1 => format!("[footnote [id {}]]", self.id()),
            2 => self.table(),
            3 | 4 => format!("[link [target {}]]", self.id()),
            5 => format!("[footnote-ref [target {}]]", self.id()),
            _ => format!("[paragraph{}]", self.id_parameter()),
        }
    }

    fn text(&mut self) -> String {
        let pieces: String = (0..self.below(12)).map(|_| self.piece()).collect();
        format!("[document [title]{}] [section [title]] [paragraph] {pieces}", self.id_parameter())
    }
}

#[test]
fn lists_are_those_of_the_rules() {
    let mut random = Random(14);
    let mut seen = [0; 19];
    for _ in 0..4_000 {
        let text = random.text();
        let draft = read_draft(&text, Spelling::Imperative).unwrap_or_else(|refusal| panic!("{text}: {refusal}"));
        let faults = draft.faults();
        assert_eq!(faults, by_search(&draft), "{text}");
        assert_eq!(draft.check().err(), faults.iter().min().copied(), "{text}");
        seen[draft.check().map_or_else(|fault| fault.number as usize, |()| 0)] += 1;
    }
    for number in [0, 15, 16, 17, 18] {
        assert!(seen[number] > 50, "{number} was first {} times", seen[number]);
    }
}
