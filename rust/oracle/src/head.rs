//! The start of an expression in a text that the scan has accepted.

use crate::bytes::{class, symbol_end, Class};
use crate::find::quote_or_backslash;
use crate::lead::{lead, Lead};

#[derive(Clone, Copy, PartialEq, Eq, Debug)]
pub enum Form {
    Symbol,
    Quoted,
    List(Lead),
    /// A closing bracket or the end of the text.
    End,
}

/// An expression's first byte, its form, and where to look for the next head: after a symbol, string or closing
/// bracket, or inside a list, after the symbol that leads it.
#[derive(Clone, Copy, Debug)]
pub struct Head {
    pub place: usize,
    pub form: Form,
    pub next: usize,
}

/// The first head from `at` on.
pub fn head(text: &[u8], at: usize) -> Head {
    let place = after_blanks(text, at);
    let Some(&byte) = text.get(place) else {
        return Head { place, form: Form::End, next: place };
    };
    let (form, next) = match class(byte) {
        Class::Open => list(text, place + 1),
        Class::Quote => (Form::Quoted, string_end(text, place)),
        Class::Symbol => (Form::Symbol, symbol_end(text, place)),
        _ => (Form::End, place + 1),
    };
    Head { place, form, next }
}

/// Only a symbol leads a list, and white space may stand before it.
fn list(text: &[u8], at: usize) -> (Form, usize) {
    let start = after_blanks(text, at);
    let end = symbol_end(text, start);
    match end > start {
        true => (Form::List(lead(&text[start..end])), end),
        false => (Form::List(Lead::Other), start),
    }
}

fn after_blanks(text: &[u8], at: usize) -> usize {
    let rest = &text[at..];
    let blank = |byte: u8| matches!(class(byte), Class::Blank | Class::Return);
    at + rest.iter().position(|&byte| !blank(byte)).unwrap_or(rest.len())
}

fn string_end(text: &[u8], quote: usize) -> usize {
    let mut at = quote + 1;
    loop {
        match quote_or_backslash(text, at) {
            Some(stop) if text[stop] == b'\\' => at = stop + 2,
            Some(stop) => return stop + 1,
            None => return text.len(),
        }
    }
}
