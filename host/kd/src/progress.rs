//! How far a long work has come: on standard error, and only where that is a terminal.

use indicatif::{ProgressBar, ProgressDrawTarget, ProgressStyle};

const KNOWN: &str = "{msg} {percent:>3} %  {bytes} of {total_bytes}  {binary_bytes_per_sec}  {eta} left";
const UNKNOWN: &str = "{msg} {bytes}  {binary_bytes_per_sec}";

pub struct Progress {
    bar: ProgressBar,
}

impl Progress {
    /// `all` is how many bytes there will be, if that is known.
    pub fn new(what: &'static str, all: Option<u64>, quiet: bool) -> Progress {
        let target = if quiet { ProgressDrawTarget::hidden() } else { ProgressDrawTarget::stderr() };
        let template = if all.is_some() { KNOWN } else { UNKNOWN };
        let style = ProgressStyle::with_template(template).expect("a template of this file");
        Progress { bar: ProgressBar::with_draw_target(all, target).with_style(style).with_message(what) }
    }

    pub fn add(&self, bytes: u64) {
        self.bar.inc(bytes);
    }

    /// Does something that prints, with the line out of its way.
    pub fn beside<T>(&self, print: impl FnOnce() -> T) -> T {
        self.bar.suspend(print)
    }

    /// The line goes, so that results stand alone.
    pub fn clear(&self) {
        self.bar.finish_and_clear();
    }
}

impl Drop for Progress {
    fn drop(&mut self) {
        self.clear();
    }
}
