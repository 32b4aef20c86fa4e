//! Imperative text: a run of commands and loose content ("Imperative").

use crate::fault::{fault, Fault};
use crate::head::Form;
use crate::kind::Kind;
use crate::lead::Lead;
use crate::names::NOT_ALLOWED;
use crate::sink::Sink;
use crate::walk::{Open, Walked, Walker, OUTSIDE};

/// Open blocks, outermost first. Significance falls from each to the next, so there are at most five.
struct Blocks {
    open: [Open; 5],
    count: usize,
}

impl Blocks {
    fn innermost(&mut self) -> &mut Open {
        &mut self.open[self.count - 1]
    }

    fn push(&mut self, block: Open) {
        self.open[self.count] = block;
        self.count += 1;
    }
}

impl<S: Sink> Walker<'_, S> {
    /// The first expression must be a document command, else 8.
    pub fn imperative(&mut self) -> Walked {
        if !self.is_ahead(Lead::Element(Kind::Document)) {
            return self.here(NOT_ALLOWED);
        }
        let root = self.command(Kind::Document, &OUTSIDE)?;
        let mut blocks = Blocks { open: [root; 5], count: 1 };
        while self.ahead.form != Form::End {
            match self.ahead.form {
                Form::List(Lead::Element(kind)) if kind.is_block() => self.block(kind, &mut blocks)?,
                _ => self.child(blocks.innermost())?,
            }
        }
        while blocks.count > 0 {
            self.end_innermost(&mut blocks);
        }
        Ok(())
    }

    /// A command ends each open block of lesser or equal significance and opens a child of the innermost one left.
    fn block(&mut self, kind: Kind, blocks: &mut Blocks) -> Walked {
        if kind == Kind::Document {
            return self.here(NOT_ALLOWED);
        }
        while blocks.innermost().kind.significance() <= kind.significance() {
            self.end_innermost(blocks);
        }
        self.admit(blocks.innermost())?;
        let block = self.command(kind, blocks.innermost())?;
        blocks.push(block);
        Ok(())
    }

    /// A command holds its parameters only; anything more in it is 8 there.
    fn command(&mut self, kind: Kind, parent: &Open) -> Result<Open, Fault> {
        let block = self.open(kind, parent);
        self.parameters(&block)?;
        if self.ahead.form != Form::End {
            return fault(NOT_ALLOWED, self.ahead.place);
        }
        self.step();
        Ok(block)
    }

    fn end_innermost(&mut self, blocks: &mut Blocks) {
        self.sink.close(blocks.innermost().node);
        blocks.count -= 1;
    }
}
