//! Standard output. Nothing here panics where whoever reads has gone away.

use std::io::{ErrorKind, Write};

use crate::{Done, Stop};

/// Why a write failed: the reader has seen enough, or something is wrong.
pub fn failed(error: std::io::Error) -> Stop {
    match error.kind() {
        ErrorKind::BrokenPipe => Stop::Pipe,
        _ => Stop::File(format!("standard output: {error}")),
    }
}

/// Writes a text whole.
pub fn print(text: &str) -> Done {
    let mut out = std::io::stdout().lock();
    out.write_all(text.as_bytes()).and_then(|()| out.flush()).map_err(failed)
}

/// Writes a line to standard error, if anyone is there.
pub fn complain(text: &str) {
    let _ = writeln!(std::io::stderr().lock(), "{text}");
}
