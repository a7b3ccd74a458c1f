//! Asks a library and the reference the same calls, and shows the first difference as a small case.

use crate::call::{by_reference, Call, Entry, Outcome};
use reference::number::UNUSABLE;
use std::collections::BTreeMap;
use std::fmt::Write;

pub type Library<'a> = &'a dyn Fn(&Call) -> Outcome;

/// How often each entry point gave each number.
pub type Seen = BTreeMap<(Entry, u32), u64>;

/// Compares calls as they come, and counts them.
pub struct Comparison<'a> {
    library: Library<'a>,
    pub seen: Seen,
    pub compared: u64,
    /// The first call on which the library differs.
    pub difference: Option<Call>,
}

impl<'a> Comparison<'a> {
    pub fn new(library: Library<'a>) -> Comparison<'a> {
        Comparison { library, seen: Seen::new(), compared: 0, difference: None }
    }

    /// The reference's outcome. The first call on which the library's differs is kept.
    pub fn ask(&mut self, call: &Call) -> Outcome {
        let expected = by_reference(call);
        if self.difference.is_none() {
            self.count(call.entry, expected.given.number(), 1);
            if (self.library)(call) != expected || changed_by_refusal(call, &expected) {
                self.difference = Some(call.clone());
            }
        }
        expected
    }

    /// So many calls more were compared, and got this number.
    pub fn count(&mut self, entry: Entry, number: u32, times: u64) {
        *self.seen.entry((entry, number)).or_default() += times;
        self.compared += times;
    }
}

/// Demand 1 from outside: a refusal changes no byte it was lent, save for the reject. The state of a stream moves on behind a frame that was
/// skipped, and to the refused one; beside 9 it stays.
fn changed_by_refusal(call: &Call, outcome: &Outcome) -> bool {
    let is_reject = call.entry == Entry::Serve && outcome.given.count() == 49;
    let kept = if is_reject { 49 } else { 0 };
    let moves_on = call.entry == Entry::StreamHear && outcome.given.number() != UNUSABLE;
    let is_unchanged = (moves_on || outcome.store == call.store)
        && outcome.input == call.input
        && outcome.name == call.name
        && outcome.out[kept..] == call.out[kept..];
    outcome.given.number() != 0 && !is_unchanged
}

/// A difference in words, made small.
pub fn report(library: Library, call: &Call) -> String {
    show(library, &smaller(library, call))
}

fn differs(library: Library, call: &Call) -> bool {
    library(call) != by_reference(call)
}

/// How often to try a smaller call: each try costs two calls, and a piece has many bytes.
const TRIES: usize = 2000;

/// A call with fewer bytes that aren't zero, on which the library still differs.
fn smaller(library: Library, call: &Call) -> Call {
    let mut call = call.clone();
    let mut tries = TRIES;
    let memories: [fn(&mut Call) -> &mut Vec<u8>; 4] =
        [|call| &mut call.store, |call| &mut call.input, |call| &mut call.out, |call| &mut call.name];
    for memory in memories {
        let mut span = memory(&mut call).len();
        while span > 0 && tries > 0 {
            for start in (0..memory(&mut call).len()).step_by(span).take(tries) {
                let tried = with_zeros(&call, memory, start, span);
                tries -= 1;
                if differs(library, &tried) {
                    call = tried;
                }
            }
            span /= 2;
        }
    }
    call
}

fn with_zeros(call: &Call, memory: fn(&mut Call) -> &mut Vec<u8>, start: usize, span: usize) -> Call {
    let mut call = call.clone();
    let bytes = memory(&mut call);
    let end = bytes.len().min(start + span);
    bytes[start..end].fill(0);
    call
}

fn show(library: Library, call: &Call) -> String {
    let (expected, got) = (by_reference(call), library(call));
    let mut text = format!("{} {:?}, root {}\n", call.entry.name(), call.numbers, hex(&call.root));
    for (name, bytes) in [("store", &call.store), ("input", &call.input), ("out", &call.out), ("name", &call.name)] {
        writeln!(text, "  {name}: {} bytes; {}", bytes.len(), bytes_shown(bytes)).unwrap();
    }
    writeln!(text, "  reference: {:?}", expected.given).unwrap();
    writeln!(text, "  library:   {:?}", got.given).unwrap();
    let memories =
        [("store", expected.store, got.store), ("input", expected.input, got.input), ("out", expected.out, got.out)];
    for (name, expected, got) in memories {
        if let Some(at) = (0..expected.len()).find(|at| expected[*at] != got[*at]) {
            writeln!(text, "  {name} left: first at byte {at}, reference {}, library {}", expected[at], got[at])
                .unwrap();
        }
    }
    text
}

/// The bytes that aren't zero, in runs.
fn bytes_shown(bytes: &[u8]) -> String {
    let mut runs: Vec<(usize, Vec<u8>)> = Vec::new();
    for (at, byte) in bytes.iter().enumerate().filter(|(_, byte)| **byte != 0) {
        match runs.last_mut() {
            Some((start, run)) if *start + run.len() == at => run.push(*byte),
            _ => runs.push((at, vec![*byte])),
        }
    }
    let shown: Vec<String> = runs.iter().map(|(start, run)| format!("{start}: {}", hex(run))).collect();
    if shown.is_empty() {
        "all zero".to_string()
    } else {
        shown.join(", ")
    }
}

fn hex(bytes: &[u8]) -> String {
    bytes.iter().map(|byte| format!("{byte:02x}")).collect()
}
