//! How a verb ends: with what it found, or with why it could not say.

use kombudeva::Refusal;
use readable::on_terminal;
use std::io;
use std::os::unix::ffi::OsStrExt;
use std::path::Path;
use std::process::ExitCode;

/// What a verb found, by its exit code. Of several the greatest counts: where a file could not be read, not all was judged.
#[derive(Clone, Copy, Debug, PartialEq, Eq, PartialOrd, Ord)]
pub enum Verdict {
    Right = 0,
    Wrong = 1,
    Unread = 2,
    Refused = 3,
}

impl Verdict {
    pub fn code(self) -> ExitCode {
        ExitCode::from(self as u8)
    }
}

/// Why a verb could not go on.
#[derive(Debug)]
pub enum Failure {
    /// Asked for in a way that can't be done, or about a file that can't be read or written.
    Unable(String),
    /// Refused by the library.
    Refused(String),
    /// Whoever read the output has gone.
    PipeClosed,
}

impl Failure {
    pub fn usage(said: impl Into<String>) -> Failure {
        Failure::Unable(said.into())
    }

    pub fn unreadable(path: &Path, error: &io::Error) -> Failure {
        Failure::Unable(format!("{}: {error}", path_shown(path)))
    }

    pub fn refused(path: &Path, refusal: Refusal) -> Failure {
        Failure::Refused(format!("{}: refused: {refusal}", path_shown(path)))
    }

    /// What is told on standard error.
    pub fn said(&self) -> Option<&str> {
        match self {
            Failure::Unable(said) | Failure::Refused(said) => Some(said),
            Failure::PipeClosed => None,
        }
    }

    pub fn verdict(&self) -> Verdict {
        match self {
            Failure::Refused(_) => Verdict::Refused,
            Failure::Unable(_) | Failure::PipeClosed => Verdict::Unread,
        }
    }

    pub fn code(&self) -> ExitCode {
        match self {
            // As of a program that SIGPIPE has ended.
            Failure::PipeClosed => ExitCode::from(141),
            failure => failure.verdict().code(),
        }
    }
}

/// A path as it is told.
pub fn path_shown(path: &Path) -> String {
    match path.as_os_str().as_bytes() {
        b"-" => "standard input".into(),
        bytes => on_terminal(bytes),
    }
}
