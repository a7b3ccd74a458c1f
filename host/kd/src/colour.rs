//! Colours, where they are seen.

use clap::ValueEnum;
use std::env;
use std::io::{self, IsTerminal};

#[derive(Clone, Copy, ValueEnum)]
pub enum When {
    Auto,
    Always,
    Never,
}

#[derive(Clone, Copy)]
pub struct Colour {
    on: bool,
}

impl Colour {
    pub fn new(when: When) -> Colour {
        let on = match when {
            When::Always => true,
            When::Never => false,
            When::Auto => io::stdout().is_terminal() && !refused(),
        };
        Colour { on }
    }

    pub fn good(self, text: &str) -> String {
        self.painted("32", text)
    }

    pub fn bad(self, text: &str) -> String {
        self.painted("31", text)
    }

    fn painted(self, code: &str, text: &str) -> String {
        if self.on {
            format!("\x1b[{code}m{text}\x1b[0m")
        } else {
            text.into()
        }
    }
}

/// By the environment: <https://no-color.org>.
fn refused() -> bool {
    env::var_os("NO_COLOR").is_some_and(|value| !value.is_empty())
        || env::var_os("TERM").is_none_or(|term| term == "dumb")
}
