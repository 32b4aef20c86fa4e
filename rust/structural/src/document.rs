use crate::Draft;
use std::ops::Deref;

/// A well-formed document: a [`Draft`] that has no fault.
#[derive(Clone, Debug, PartialEq, Eq)]
pub struct Document {
    draft: Draft,
}

impl Document {
    /// Of a draft that the check passed.
    pub(crate) fn new(draft: Draft) -> Document {
        Document { draft }
    }

    /// The draft, to go on with it as one.
    pub fn into_draft(self) -> Draft {
        self.draft
    }
}

impl Deref for Document {
    type Target = Draft;

    fn deref(&self) -> &Draft {
        &self.draft
    }
}
