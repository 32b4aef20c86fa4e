//! Reads, checks and prints documents of the language Structural 3.0.0.
//!
//! [`read`] takes a text in either [`Spelling`] and gives its [`Document`], or a [`Refusal`] that says
//! where the text stops being one and why. The nodes of a document are in document order; each has its
//! [`Kind`], its parent and children, and its id or target, type, text and size where it has them.
//! [`Draft::print`] gives the canonical spelling.
//!
//! ```
//! use structural::{read, Kind, Spelling};
//!
//! let document = read(r#"[document [title "Crew manual"] [id crew]]"#, Spelling::Nested)?;
//! assert_eq!(document.root().id(), Some("crew"));
//! let kinds: Vec<Kind> = document.nodes().map(|node| node.kind()).collect();
//! assert_eq!(kinds, [Kind::Document, Kind::Title, Kind::Text]);
//! assert_eq!(document.print(), r#"[document [title "Crew manual"] [id crew]]"#);
//!
//! let refusal = read("[document [title A)]", Spelling::Nested).unwrap_err();
//! assert_eq!(
//!     refusal.in_file("crew.sd").to_string(),
//!     "crew.sd:1:19: 5: a closing bracket without its partner, or a list that is not closed",
//! );
//! # Ok::<(), structural::Refusal>(())
//! ```
//!
//! A manual whose sections are still missing has links to nothing, and so is no well-formed document. [`read_draft`]
//! opens it as a [`Draft`], which has all that a document has, and [`Draft::faults`] lists what is still to be mended:
//!
//! ```
//! use structural::{read_draft, Spelling};
//!
//! let text = "[document [title A] [section [title B] [paragraph [link [target later] \"Later\"]]]]";
//! let draft = read_draft(text, Spelling::Nested)?;
//! let [fault] = draft.faults()[..] else { panic!("one link has no target") };
//! let at = draft.node(fault.node).unwrap().position();
//! assert_eq!(format!("{at}: {fault}"), "1:51: 17: a link's target is the id of no block");
//! assert_eq!(draft.into_document().unwrap_err().target(), Some("later"));
//! # Ok::<(), structural::Refusal>(())
//! ```
//!
//! The work is done by the repository's static library, whose functions are proved to answer as the
//! rules of the language say; see `docs/LANGUAGE.md` there. [`lent`] has those functions as they are, over
//! memory that the caller lends, for callers that want no allocation.
#![deny(unsafe_code)]

#[allow(unsafe_code)]
mod abi;
mod document;
mod draft;
mod fault;
mod kind;
mod lending;
pub mod lent;
pub mod number;
mod position;
mod reading;
mod refusal;
mod spelling;
mod table;

pub use document::Document;
pub use draft::Draft;
pub use fault::Fault;
pub use kind::Kind;
pub use position::{position, Position};
pub use reading::{read, read_draft};
pub use refusal::{InFile, Refusal};
pub use spelling::Spelling;
pub use table::{Children, Node, Nodes, Size, Table};

#[cfg(doctest)]
#[doc = include_str!("../README.md")]
struct Readme;

#[cfg(doctest)]
#[doc = include_str!("../../../README.md")]
struct RepositoryReadme;
