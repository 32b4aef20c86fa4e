use crate::lent::Answer;
use crate::{number, Draft, Fault, Node, Position, Table};
use std::fmt;
use std::path::{Path, PathBuf};

/// Why a text is no well-formed document, and where.
///
/// Displayed as `line:column: number: what it means`; [`Refusal::in_file`] puts a file's name in front.
#[derive(Clone, Debug, PartialEq, Eq)]
pub struct Refusal {
    answer: Answer,
    draft: Option<Draft>,
}

impl Refusal {
    /// Of a text that is no draft.
    pub(crate) fn of_text(answer: Answer) -> Refusal {
        Refusal { answer, draft: None }
    }

    /// Of a draft that is not well-formed, at the place of the node that has the fault.
    pub(crate) fn of_draft(draft: Draft, fault: Fault) -> Refusal {
        let node = draft.node(fault.node).expect("a fault is of a node of its draft");
        // Reading counted all of these in 32 bits.
        let (place, nodes, pool) = (node.place() as u32, draft.count() as u32, draft.pool().len() as u32);
        let Position { line, column } = node.position();
        let answer = Answer { number: fault.number, place, line, column, nodes, pool };
        Refusal { answer, draft: Some(draft) }
    }

    /// One of [`number`], 1 to 19.
    pub fn number(&self) -> u32 {
        self.answer.number
    }

    /// What the number means, in words.
    pub fn meaning(&self) -> &'static str {
        number::meaning(self.number())
    }

    /// The offset in the text; 0 where the number has no place.
    pub fn place(&self) -> usize {
        self.answer.place as usize
    }

    /// The line of the place, from 1.
    pub fn line(&self) -> u32 {
        self.answer.line
    }

    /// The column of the place, from 1, in code points.
    pub fn column(&self) -> u32 {
        self.answer.column
    }

    /// The whole answer.
    pub fn answer(&self) -> Answer {
        self.answer
    }

    /// The draft, where the fault is one of rows, ids or links (15 to 18): then all else is in order.
    pub fn draft(&self) -> Option<&Draft> {
        self.draft.as_ref()
    }

    /// The same, to keep it.
    pub fn into_draft(self) -> Option<Draft> {
        self.draft
    }

    /// The nodes of that draft.
    pub fn table(&self) -> Option<&Table> {
        self.draft.as_deref()
    }

    /// The node that has the fault, where there is a table.
    pub fn node(&self) -> Option<Node<'_>> {
        self.table()?.node_at(self.place())
    }

    /// Under 16, the first block that has the id.
    ///
    /// ```
    /// use structural::{read, Spelling};
    /// let text = "[document [title A] [id x] [section [title B] [id x]]]";
    /// let refusal = read(text, Spelling::Nested).unwrap_err();
    /// assert_eq!((refusal.number(), refusal.place()), (16, 27));
    /// assert_eq!(refusal.first_block().map(|block| block.place()), Some(0));
    /// ```
    pub fn first_block(&self) -> Option<Node<'_>> {
        if self.number() != number::REPEATED_ID {
            return None;
        }
        self.table()?.block(self.node()?.id()?)
    }

    /// Under 17 and 18, the target that was not found.
    pub fn target(&self) -> Option<&str> {
        match self.number() {
            number::UNKNOWN_TARGET | number::UNKNOWN_FOOTNOTE => self.node()?.target(),
            _ => None,
        }
    }

    /// Under 15, how many cells the row has and how many names the head of its table.
    pub fn row_length(&self) -> Option<(usize, usize)> {
        self.node().filter(|_| self.number() == number::ROW_LENGTH)?.row_length()
    }

    /// The refusal of a file, displayed as `file:line:column: number: what it means`.
    pub fn in_file(&self, file: impl AsRef<Path>) -> InFile<'_> {
        InFile { refusal: self, file: file.as_ref().to_path_buf() }
    }
}

impl fmt::Display for Refusal {
    fn fmt(&self, f: &mut fmt::Formatter<'_>) -> fmt::Result {
        write!(f, "{}:{}: {}: {}", self.line(), self.column(), self.number(), self.meaning())
    }
}

impl std::error::Error for Refusal {}

/// A refusal with the name of the file that it is of.
#[derive(Clone, Debug)]
pub struct InFile<'a> {
    refusal: &'a Refusal,
    file: PathBuf,
}

impl fmt::Display for InFile<'_> {
    fn fmt(&self, f: &mut fmt::Formatter<'_>) -> fmt::Result {
        write!(f, "{}:{}", self.file.display(), self.refusal)
    }
}

impl std::error::Error for InFile<'_> {}
