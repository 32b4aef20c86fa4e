use crate::fault::every_fault;
use crate::lending::printed;
use crate::{lent, number, Document, Fault, Refusal, Table};
use std::ops::Deref;

/// A document that may still have faults of rows, ids and links (15 to 18): all that [`Table`] has, its faults, and a
/// canonical spelling.
#[derive(Clone, Debug, PartialEq, Eq)]
pub struct Draft {
    table: Table,
}

impl Draft {
    /// Of a table that reading filled.
    pub(crate) fn new(table: Table) -> Draft {
        Draft { table }
    }

    /// Whether the document is well-formed; else its first fault, 15 before 16 before 17 before 18, each over the whole
    /// document before the next.
    ///
    /// ```
    /// use structural::{number, read_draft, Fault, Spelling};
    /// let text = "[document [title A] [id x] [section [title B] [id x]]]";
    /// let draft = read_draft(text, Spelling::Nested)?;
    /// assert_eq!(draft.check(), Err(Fault { number: number::REPEATED_ID, node: 3 }));
    /// # Ok::<(), structural::Refusal>(())
    /// ```
    pub fn check(&self) -> Result<(), Fault> {
        let (nodes, bytes) = self.counts();
        let lent::Checked { number, node } = lent::check(self.words(), nodes, self.pool().as_bytes(), bytes);
        assert_ne!(number, number::NOT_A_TABLE, "what reading filled is the table of a draft");
        match number {
            number::OK => Ok(()),
            _ => Err(Fault { number, node: node as usize }),
        }
    }

    /// Every fault, in the order of the nodes; no node has two.
    ///
    /// The proved check decides whether there is one, and which is the first by number and node. The others are found
    /// by two plain passes over the table with the ids in a hash map. They are not proved; that the least of their list
    /// is the fault that the check answered is asserted at each call.
    ///
    /// ```
    /// use structural::{read_draft, Spelling};
    /// let text = "[document [title A]]\n[section [title B] [id x]]\n[paragraph] [link [target y]]
    /// [paragraph [id x]]";
    /// let draft = read_draft(text, Spelling::Imperative)?;
    /// let at = |node| draft.node(node).unwrap().position();
    /// let faults: Vec<String> = draft.faults().iter().map(|fault| format!("{}: {fault}", at(fault.node))).collect();
    /// assert_eq!(
    ///     faults,
    ///     ["3:13: 17: a link's target is the id of no block", "4:1: 16: a block has the id of an earlier block"],
    /// );
    /// # Ok::<(), structural::Refusal>(())
    /// ```
    pub fn faults(&self) -> Vec<Fault> {
        let Err(first) = self.check() else { return Vec::new() };
        let faults = every_fault(self);
        assert_eq!(faults.iter().min(), Some(&first), "the check and the list of faults agree on the first");
        faults
    }

    /// The document, where it is well-formed; else the refusal of its first fault, which keeps the draft.
    ///
    /// ```
    /// use structural::{read, read_draft, Spelling};
    /// let text = "[document [title A] [section [title B] [paragraph [link [target later]]]]]";
    /// let refusal = read_draft(text, Spelling::Nested)?.into_document().unwrap_err();
    /// assert_eq!((refusal.number(), refusal.place(), refusal.target()), (17, 50, Some("later")));
    /// assert_eq!(Err(&refusal), read(text, Spelling::Nested).as_ref());
    /// assert_eq!(refusal.into_draft().map(|draft| draft.count()), Some(8));
    /// # Ok::<(), structural::Refusal>(())
    /// ```
    pub fn into_document(self) -> Result<Document, Refusal> {
        match self.check() {
            Ok(()) => Ok(Document::new(self)),
            Err(fault) => Err(Refusal::of_draft(self, fault)),
        }
    }

    /// The canonical spelling: nested, in square brackets, one space between elements, and no line end at
    /// its close. Reading it gives an equal draft, where it is no longer than a text may be.
    ///
    /// ```
    /// use structural::{read, Spelling};
    /// let document = read("(document(title A)(type t)(id x))", Spelling::Nested)?;
    /// assert_eq!(document.print(), r#"[document [title "A"] [id x] [type t]]"#);
    /// # Ok::<(), structural::Refusal>(())
    /// ```
    pub fn print(&self) -> String {
        let (nodes, bytes) = self.counts();
        let print = |out: &mut [u8]| lent::print(self.words(), nodes, self.pool().as_bytes(), bytes, out);
        let out = printed(self.count(), self.pool().len(), print).expect("a draft that was read can be printed");
        String::from_utf8(out).expect("the canonical spelling is UTF-8")
    }

    /// Nodes and pool bytes, both of which reading counted in 32 bits.
    fn counts(&self) -> (u32, u32) {
        (self.count() as u32, self.pool().len() as u32)
    }
}

impl Deref for Draft {
    type Target = Table;

    fn deref(&self) -> &Table {
        &self.table
    }
}
