//! Tests one after the other in a program with one thread: `tests!` is such a program's `main`.
//!
//! Cargo's harness starts a thread for each test, and with a second thread an emulator of x86-64 takes two to four times as long, we think
//! for the barriers that it then needs. A test that `tests!` leaves out is never used, which this package's lints refuse.

use std::env;
use std::panic::catch_unwind;
use std::process::exit;

/// A test's name, and the test: it fails by a panic.
pub type Test = (&'static str, fn());

/// Runs the tests whose name has the first argument in it, or all, and says how many passed. Ends the program if one failed.
pub fn run(tests: &[Test]) {
    let wanted = env::args().skip(1).find(|argument| !argument.starts_with('-')).unwrap_or_default();
    let chosen: Vec<&Test> = tests.iter().filter(|(name, _)| name.contains(&wanted)).collect();
    let failed: Vec<&str> =
        chosen.iter().filter(|(_, test)| catch_unwind(test).is_err()).map(|(name, _)| *name).collect();
    if !failed.is_empty() {
        println!("test result: FAILED: {}", failed.join(", "));
        exit(1);
    }
    println!("test result: ok. {} passed; 0 failed", chosen.len());
}

#[macro_export]
macro_rules! tests {
    ($($name:ident,)*) => {
        fn main() {
            $crate::harness::run(&[$((stringify!($name), $name)),*]);
        }
    };
}
