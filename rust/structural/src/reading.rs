use crate::lending::{filled, Room};
use crate::{lent, Document, Draft, Refusal, Spelling, Table};

/// Reads a text: its document, or where and why it is none. A draft that is not well-formed is refused too;
/// [`read_draft`] takes it.
///
/// ```
/// use structural::{read, Spelling};
///
/// let nested = read("[document [title A] [section [title B]]]", Spelling::Nested)?;
/// let imperative = read("[document [title A]] [section [title B]]", Spelling::Imperative)?;
/// assert_eq!(nested, imperative);
/// # Ok::<(), structural::Refusal>(())
/// ```
pub fn read(text: impl AsRef<[u8]>, spelling: Spelling) -> Result<Document, Refusal> {
    read_draft(text, spelling)?.into_document()
}

/// Reads a text without a look at its rows, ids and links: its draft, or where and why it is none. The number of the
/// refusal is none of 15 to 18.
///
/// ```
/// use structural::{read, read_draft, Spelling};
///
/// let text = "[document [title A] [section [title B] [paragraph [link [target later]]]]]";
/// let draft = read_draft(text, Spelling::Nested)?;
/// assert_eq!((draft.count(), draft.faults().len()), (8, 1));
/// assert_eq!(read(text, Spelling::Nested).unwrap_err().number(), 17);
/// # Ok::<(), structural::Refusal>(())
/// ```
pub fn read_draft(text: impl AsRef<[u8]>, spelling: Spelling) -> Result<Draft, Refusal> {
    let text = text.as_ref();
    let read = |room: &mut Room| lent::read(text, spelling, &mut room.words, &mut room.places, &mut room.pool);
    let Room { words, places, pool } = filled(text.len(), read).map_err(Refusal::of_text)?;
    let pool = String::from_utf8(pool).expect("a pool holds the strings of a text that is UTF-8");
    Ok(Draft::new(Table::new(text, words, places, pool)))
}
