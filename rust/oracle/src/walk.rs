//! Numbers 8 to 12 by a walk in text order: at a child 12, 8, 11, then its parameters, then its content.

use crate::bytes::{of_id, of_type, of_uri};
use crate::fault::{fault, Fault};
use crate::head::{head, Form, Head};
use crate::kind::Kind;
use crate::lead::Lead;
use crate::names::{
    ABSENT, INCLUDE, KEY_OFFSET, MALFORMED, MISSING, NOT_ALLOWED, OTHER_SORT, TEXT_OFFSET, TYPE_OFFSET,
};
use crate::sink::{Sink, Spelled};
use crate::value::{consists_of, measure};

pub type Walked = Result<(), Fault>;

/// An element whose content is being walked.
#[derive(Clone, Copy)]
pub struct Open {
    pub kind: Kind,
    pub node: u32,
    /// The element's own bracket.
    pub place: usize,
    /// Level of that bracket in the nested form.
    pub level: usize,
    /// Kind of the first child among the content.
    pub first: Option<Kind>,
}

pub struct Walker<'t, S> {
    pub text: &'t [u8],
    pub ahead: Head,
    pub sink: S,
    /// Deepest bracket of the nested form so far (19).
    pub deepest: usize,
}

/// Above the root: its place in the tree, and level 0.
pub const OUTSIDE: Open = Open { kind: Kind::Document, node: MISSING, place: 0, level: 0, first: None };

impl<'t, S: Sink> Walker<'t, S> {
    pub fn new(text: &'t [u8], sink: S) -> Self {
        Walker { text, ahead: head(text, 0), sink, deepest: 0 }
    }

    /// Nested text: the root must be a document, else 8.
    pub fn nested(&mut self) -> Walked {
        match self.ahead.form {
            Form::List(Lead::Element(Kind::Document)) => self.element(Kind::Document, &OUTSIDE),
            _ => self.here(NOT_ALLOWED),
        }
    }

    /// A fault at the expression ahead.
    pub fn here(&self, number: u32) -> Walked {
        fault(number, self.ahead.place)
    }

    /// Moves on: into the list ahead, past the symbol or string ahead, or out of the list that ends here.
    pub fn step(&mut self) {
        self.ahead = head(self.text, self.ahead.next);
    }

    pub fn is_ahead(&self, lead: Lead) -> bool {
        self.ahead.form == Form::List(lead)
    }

    /// The expression ahead as content of `parent`.
    pub fn child(&mut self, parent: &mut Open) -> Walked {
        match self.admit(parent)? {
            Kind::Text => self.text(parent),
            kind => self.element(kind, parent),
        }
    }

    /// Judges the expression ahead as content by 12, 8 and 11.
    pub fn admit(&mut self, parent: &mut Open) -> Result<Kind, Fault> {
        let kind = match self.ahead.form {
            Form::List(Lead::Include) => return fault(INCLUDE, self.ahead.place),
            Form::List(Lead::Element(kind)) => kind,
            Form::Symbol | Form::Quoted => Kind::Text,
            Form::List(_) | Form::End => return fault(NOT_ALLOWED, self.ahead.place),
        };
        // A verbatim holds exactly one text.
        let full = parent.kind == Kind::Verbatim && parent.first.is_some();
        if full || !parent.kind.may_hold(kind) {
            return fault(NOT_ALLOWED, self.ahead.place);
        }
        if parent.kind.sorts_apart(*parent.first.get_or_insert(kind), kind) {
            return fault(OTHER_SORT, self.ahead.place);
        }
        Ok(kind)
    }

    fn text(&mut self, parent: &Open) -> Walked {
        let node = self.sink.open(Kind::Text, parent.node, self.ahead.place);
        let value = self.spelled();
        self.sink.string(node, TEXT_OFFSET, value);
        self.step();
        Ok(())
    }

    fn element(&mut self, kind: Kind, parent: &Open) -> Walked {
        let mut open = self.open(kind, parent);
        self.parameters(&open)?;
        while self.ahead.form != Form::End {
            self.child(&mut open)?;
        }
        if kind == Kind::Verbatim && open.first.is_none() {
            return fault(ABSENT, open.place);
        }
        self.step();
        self.sink.close(open.node);
        Ok(())
    }

    /// Opens a node for the list ahead and steps into it.
    pub fn open(&mut self, kind: Kind, parent: &Open) -> Open {
        let place = self.ahead.place;
        let node = self.sink.open(kind, parent.node, place);
        let level = parent.level + 1;
        self.deepest = self.deepest.max(level);
        self.step();
        Open { kind, node, place, level, first: None }
    }

    /// Parameters in order, each judged whole in turn.
    pub fn parameters(&mut self, open: &Open) -> Walked {
        match open.kind {
            Kind::Document | Kind::Part | Kind::Section | Kind::Subsection | Kind::FormalItem => {
                self.required(Kind::Title, open)?;
                self.id_and_type(open)
            }
            Kind::Paragraph => self.id_and_type(open),
            Kind::Footnote => {
                self.name(Lead::Id, of_id, open)?;
                self.optional_type(open).map(drop)
            }
            Kind::Term | Kind::Verbatim => self.optional_type(open).map(drop),
            Kind::Image => {
                self.name(Lead::Target, of_uri, open)?;
                self.optional_size(open)?;
                self.optional_type(open).map(drop)
            }
            Kind::Link | Kind::FootnoteRef => self.name(Lead::Target, of_id, open),
            Kind::LinkExt => self.name(Lead::Target, of_uri, open),
            Kind::Table => self.table_parameters(open),
            _ => Ok(()),
        }
    }

    fn table_parameters(&mut self, open: &Open) -> Walked {
        self.required(Kind::Summary, open)?;
        self.optional_type(open)?;
        if self.is_ahead(Lead::Element(Kind::Head)) {
            self.element(Kind::Head, open)?;
        }
        self.required(Kind::Body, open)
    }

    /// A parameter that is an element; its absence is 9 at the element that wants it.
    fn required(&mut self, kind: Kind, open: &Open) -> Walked {
        match self.is_ahead(Lead::Element(kind)) {
            true => self.element(kind, open),
            false => fault(ABSENT, open.place),
        }
    }

    /// "id?/type?" means either order.
    fn id_and_type(&mut self, open: &Open) -> Walked {
        let type_first = self.optional_type(open)?;
        if self.is_ahead(Lead::Id) {
            self.name(Lead::Id, of_id, open)?;
        }
        match type_first {
            true => Ok(()),
            false => self.optional_type(open).map(drop),
        }
    }

    /// An id or target that has to stand: one text of those characters.
    fn name(&mut self, lead: Lead, sort: fn(u8) -> bool, open: &Open) -> Walked {
        match self.is_ahead(lead) {
            true => self.value(KEY_OFFSET, sort, true, open),
            false => fault(ABSENT, open.place),
        }
    }

    /// A type, if it stands; whether it does is answered.
    fn optional_type(&mut self, open: &Open) -> Result<bool, Fault> {
        let stands = self.is_ahead(Lead::Type);
        if stands {
            self.value(TYPE_OFFSET, of_type, false, open)?;
        }
        Ok(stands)
    }

    /// The list ahead holds one symbol, or one string where that is allowed too; else 10 at its bracket.
    fn value(&mut self, word: usize, sort: fn(u8) -> bool, quoted: bool, open: &Open) -> Walked {
        let bracket = self.enter_parameter(open);
        let fits = self.ahead.form == Form::Symbol || (quoted && self.ahead.form == Form::Quoted);
        let value = self.spelled();
        if !fits || !consists_of(value.bytes, sort) {
            return fault(MALFORMED, bracket);
        }
        self.sink.string(open.node, word, value);
        self.step();
        self.leave_parameter(bracket)
    }

    /// A size holds two symbols, width and height.
    fn optional_size(&mut self, open: &Open) -> Walked {
        if !self.is_ahead(Lead::Size) {
            return Ok(());
        }
        let bracket = self.enter_parameter(open);
        let width = self.measure(bracket)?;
        let height = self.measure(bracket)?;
        self.sink.size(open.node, width, height);
        self.leave_parameter(bracket)
    }

    fn measure(&mut self, bracket: usize) -> Result<u32, Fault> {
        let number = match self.ahead.form {
            Form::Symbol => measure(self.spelled().bytes),
            _ => None,
        };
        self.step();
        number.map_or_else(|| fault(MALFORMED, bracket), Ok)
    }

    fn enter_parameter(&mut self, open: &Open) -> usize {
        let bracket = self.ahead.place;
        self.deepest = self.deepest.max(open.level + 1);
        self.step();
        bracket
    }

    fn leave_parameter(&mut self, bracket: usize) -> Walked {
        if self.ahead.form != Form::End {
            return fault(MALFORMED, bracket);
        }
        self.step();
        Ok(())
    }

    /// The symbol or string ahead.
    fn spelled(&self) -> Spelled<'t> {
        Spelled { bytes: &self.text[self.ahead.place..self.ahead.next], place: self.ahead.place }
    }
}
