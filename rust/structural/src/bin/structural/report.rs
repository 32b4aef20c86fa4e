//! What is said of one file.

use crate::arguments::Drafts;
use crate::excerpt::excerpt;
use crate::input::Input;
use std::io;
use std::path::Path;
use structural::lent::MAX_NODES;
use structural::{number, Draft, Fault, Node, Refusal, Table};

/// U+FEFF, which some editors put at the start of a file.
const BYTE_ORDER_MARK: &[u8] = b"\xEF\xBB\xBF";

/// The draft of an input, or the message that says why there is none.
pub fn read(input: &Input) -> Result<Draft, String> {
    let text = input.load().map_err(|error| unread(input.name(), &error))?;
    let source = Source { name: input.name(), text: &text };
    structural::read_draft(&text, input.spelling()).map_err(|refusal| source.refused(&refusal))
}

/// Of a file or a folder that cannot be read.
pub fn unread(name: &Path, error: &io::Error) -> String {
    format!("{}: cannot be read: {error}\n", name.display())
}

/// A number of things, and what they are called, with an s for more than one.
pub fn counted(count: usize, noun: &str) -> String {
    format!("{count} {noun}{}", if count == 1 { "" } else { "s" })
}

/// A text, and the name of the file that has it.
pub struct Source<'a> {
    pub name: &'a Path,
    pub text: &'a [u8],
}

impl Source<'_> {
    /// Of a well-formed document.
    pub fn fine(&self, draft: &Draft) -> String {
        format!("{}: ok: {}\n", self.name.display(), sizes(draft))
    }

    /// Of a draft with so many faults, which is taken.
    pub fn faulty(&self, draft: &Draft, faults: usize) -> String {
        format!("{}: draft: {}, {}\n", self.name.display(), sizes(draft), counted(faults, "fault"))
    }

    /// Of a text that is no draft: where, which number, what it means, the line with its place, and what helps to mend
    /// it.
    pub fn refused(&self, refusal: &Refusal) -> String {
        let line = format!("{}\n", refusal.in_file(self.name));
        line + &excerpt(self.text, refusal.place(), refusal.line()) + &self.note(refusal)
    }

    fn note(&self, refusal: &Refusal) -> String {
        match refusal.number() {
            number::NODES_SHORT => {
                format!("  the document has {} nodes; at most {MAX_NODES} are read\n", refusal.answer().nodes)
            }
            number::NOT_ONE_EXPRESSION | number::NOT_ALLOWED if self.text.starts_with(BYTE_ORDER_MARK) => {
                "  the text starts with a byte order mark, which is an expression of its own\n".to_string()
            }
            _ => String::new(),
        }
    }

    /// Of the faults of a draft: of each the same as of a refusal.
    pub fn faults(&self, draft: &Draft, faults: &[Fault], drafts: Drafts) -> String {
        let mark = match drafts {
            Drafts::Refused => "",
            Drafts::Taken => "warning: ",
        };
        let nodes = faults.iter().filter_map(|fault| Some((fault, draft.node(fault.node)?)));
        let told = |(fault, node): (&Fault, Node)| {
            self.pointed(node, &format!("{mark}{fault}")) + &self.help(draft, fault.number, node).unwrap_or_default()
        };
        nodes.map(told).collect()
    }

    /// What helps to mend a fault of a node.
    fn help(&self, table: &Table, number: u32, node: Node) -> Option<String> {
        match number {
            number::ROW_LENGTH => rows(node),
            number::REPEATED_ID => self.first_block(table, node.id()?),
            _ => self.target(table, node.target()?),
        }
    }

    fn first_block(&self, table: &Table, id: &str) -> Option<String> {
        Some(self.pointed(table.block(id)?, &format!("note: the first block with the id {id}")))
    }

    /// The target; and where a block has that id, so that it is a reference to what is no footnote, the block.
    fn target(&self, table: &Table, target: &str) -> Option<String> {
        let line = format!("  target: {target}\n");
        match table.block(target) {
            Some(block) => {
                let words = format!("note: a {} has that id, and is no footnote", block.kind());
                Some(line + &self.pointed(block, &words))
            }
            None => Some(line),
        }
    }

    /// A message at the place of a node, and the line of it.
    fn pointed(&self, node: Node, words: &str) -> String {
        let at = node.position();
        format!("{}:{at}: {words}\n", self.name.display()) + &excerpt(self.text, node.place(), at.line)
    }
}

fn sizes(table: &Table) -> String {
    format!("{} nodes, {} pool bytes", table.count(), table.pool().len())
}

fn rows(row: Node) -> Option<String> {
    let (cells, names) = row.row_length()?;
    Some(format!("  cells in the row: {cells}; names in the head: {names}\n"))
}
