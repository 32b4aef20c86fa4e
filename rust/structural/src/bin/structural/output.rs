//! Standard output and standard error.

use std::io::{self, ErrorKind, Write};

/// Writes to standard output; whether that went well. It is no failure where nobody reads any more.
pub fn say(text: &str) -> bool {
    let mut out = io::stdout().lock();
    match out.write_all(text.as_bytes()).and_then(|()| out.flush()) {
        Err(error) if error.kind() != ErrorKind::BrokenPipe => {
            complain(&format!("structural: standard output cannot be written: {error}\n"));
            false
        }
        _ => true,
    }
}

/// Writes to standard error, where that can be done.
pub fn complain(text: &str) {
    let _ = io::stderr().lock().write_all(text.as_bytes());
}
