//! Standard output.

use std::fmt::Display;
use std::io::{Write, stdout};

/// The status where nobody reads what is printed, as of a broken input.
const UNREAD: i32 = 2;

/// Prints a line. The program ends where nobody reads it.
pub fn line(text: impl Display) {
    let mut out = stdout();
    if writeln!(out, "{text}").and_then(|()| out.flush()).is_err() {
        std::process::exit(UNREAD);
    }
}
