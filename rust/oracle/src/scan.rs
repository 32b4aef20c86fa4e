//! Numbers 3 to 6 by one scan from left to right, and 7 after it.

use crate::bytes::{class, partner, symbol_end, Class};
use crate::fault::{fault, Fault};
use crate::find::quote_or_backslash;
use crate::names::{
    BAD_STRING, FORBIDDEN_CHARACTER, IMPERATIVE_LEVELS, NESTED_LEVELS, NOT_ONE_EXPRESSION, TOO_DEEP, UNPAIRED_BRACKET,
};

/// Accepts a text whose strings and brackets are sound and that has the right number of expressions.
pub fn scan(text: &[u8], imperative: bool) -> Result<(), Fault> {
    let limit = if imperative { IMPERATIVE_LEVELS } else { NESTED_LEVELS };
    let mut scan = Scan { text, limit, open: [0; NESTED_LEVELS], level: 0, count: 0, second: 0 };
    scan.run()?;
    match scan.count {
        0 => fault(NOT_ONE_EXPRESSION, text.len()),
        1 => Ok(()),
        _ if imperative => Ok(()),
        _ => fault(NOT_ONE_EXPRESSION, scan.second),
    }
}

struct Scan<'t> {
    text: &'t [u8],
    limit: usize,
    /// Places of the open brackets, as many as `level`.
    open: [usize; NESTED_LEVELS],
    level: usize,
    /// Expressions outside brackets, and where the second one starts.
    count: usize,
    second: usize,
}

impl Scan<'_> {
    fn run(&mut self) -> Result<(), Fault> {
        let mut at = 0;
        while let Some(&byte) = self.text.get(at) {
            at = match class(byte) {
                Class::Blank => at + 1,
                Class::Return => self.line_end(at)?,
                Class::Forbidden => return fault(FORBIDDEN_CHARACTER, at),
                Class::Close => self.close(at, byte)?,
                Class::Open => self.open(at)?,
                Class::Quote => self.string(at)?,
                Class::Symbol => self.symbol(at),
            };
        }
        match self.level {
            0 => Ok(()),
            level => fault(UNPAIRED_BRACKET, self.open[level - 1]),
        }
    }

    /// U+000D is white space directly before U+000A and forbidden elsewhere.
    fn line_end(&self, at: usize) -> Result<usize, Fault> {
        match self.text.get(at + 1) {
            Some(b'\n') => Ok(at + 2),
            _ => fault(FORBIDDEN_CHARACTER, at),
        }
    }

    fn open(&mut self, at: usize) -> Result<usize, Fault> {
        self.begin(at);
        if self.level == self.limit {
            return fault(TOO_DEEP, at);
        }
        self.open[self.level] = at;
        self.level += 1;
        Ok(at + 1)
    }

    fn close(&mut self, at: usize, byte: u8) -> Result<usize, Fault> {
        if self.level == 0 || partner(self.text[self.open[self.level - 1]]) != byte {
            return fault(UNPAIRED_BRACKET, at);
        }
        self.level -= 1;
        Ok(at + 1)
    }

    fn symbol(&mut self, at: usize) -> usize {
        self.begin(at);
        symbol_end(self.text, at)
    }

    /// A string has at least one character; a bad escape is found before the end is.
    fn string(&mut self, quote: usize) -> Result<usize, Fault> {
        self.begin(quote);
        let mut at = quote + 1;
        while let Some(stop) = quote_or_backslash(self.text, at) {
            if self.text[stop] == b'\\' {
                at = stop + escape_length(&self.text[stop..]).map_or_else(|| fault(BAD_STRING, stop), Ok)?;
            } else if stop == quote + 1 {
                break;
            } else {
                return Ok(stop + 1);
            }
        }
        fault(BAD_STRING, quote)
    }

    fn begin(&mut self, at: usize) {
        if self.level == 0 {
            self.count += 1;
            if self.count == 2 {
                self.second = at;
            }
        }
    }
}

/// Length of the escape at the start, if it is one of `\r \n \t \"` or `\u` with four hex digits, no surrogate.
fn escape_length(rest: &[u8]) -> Option<usize> {
    match rest.get(1)? {
        b'r' | b'n' | b't' | b'"' => Some(2),
        b'u' => {
            let digits = rest.get(2..6)?;
            let sound = digits.iter().all(u8::is_ascii_hexdigit);
            let surrogate = matches!(digits, [b'd' | b'D', b'8' | b'9' | b'a'..=b'f' | b'A'..=b'F', ..]);
            (sound && !surrogate).then_some(6)
        }
        _ => None,
    }
}
