//! What is said: results on standard output, the rest on standard error.

use crate::end::Failure;
use std::io::{self, ErrorKind, Write};

pub fn line(text: &str) -> Result<(), Failure> {
    written(writeln!(io::stdout(), "{text}"))
}

/// One JSON object on a line.
pub fn object(object: &impl serde::Serialize) -> Result<(), Failure> {
    line(&crate::json::text(object))
}

pub fn bytes(bytes: &[u8]) -> Result<(), Failure> {
    let mut out = io::stdout().lock();
    written(out.write_all(bytes).and_then(|()| out.flush()))
}

/// A line on standard error; where nobody hears it, nothing is lost.
pub fn warn(text: &str) {
    let _ = writeln!(io::stderr(), "kd: {text}");
}

fn written(result: io::Result<()>) -> Result<(), Failure> {
    result.map_err(|error| match error.kind() {
        ErrorKind::BrokenPipe => Failure::PipeClosed,
        _ => Failure::Unable(format!("standard output: {error}")),
    })
}
