//! Times of several versions of the same work, best of interleaved rounds.

use std::time::{Duration, Instant};

const ROUNDS: usize = 15;
/// What one measurement takes at least.
const SPAN: Duration = Duration::from_millis(10);

/// Work that can be done again and again.
pub trait Work {
    /// Puts back what a run has changed; not timed.
    fn prepare(&mut self);
    fn run(&mut self);
}

/// Work as a state and what is done with it.
pub struct Prepared<S> {
    pub state: S,
    pub prepare: fn(&mut S),
    pub run: fn(&mut S),
}

impl<S> Work for Prepared<S> {
    fn prepare(&mut self) {
        (self.prepare)(&mut self.state)
    }

    fn run(&mut self) {
        (self.run)(&mut self.state)
    }
}

/// The best time of each version in ns. Finding how often to repeat warms code and data before the first round.
pub fn best_of_rounds(versions: &mut [Box<dyn Work>]) -> Vec<f64> {
    let repeats: Vec<u32> = versions.iter_mut().map(|version| repeats(version.as_mut())).collect();
    let mut best = vec![f64::INFINITY; versions.len()];
    for _ in 0..ROUNDS {
        for (number, version) in versions.iter_mut().enumerate() {
            let took = timed(version.as_mut(), repeats[number]);
            best[number] = best[number].min(took.as_nanos() as f64 / repeats[number] as f64);
        }
    }
    best
}

/// How often to run so that one measurement takes the span.
fn repeats(version: &mut dyn Work) -> u32 {
    (0..).map(|power| 1 << power).find(|repeats| timed(version, *repeats) >= SPAN).unwrap()
}

fn timed(version: &mut dyn Work, repeats: u32) -> Duration {
    let mut took = Duration::ZERO;
    for _ in 0..repeats {
        version.prepare();
        let start = Instant::now();
        version.run();
        took += start.elapsed();
    }
    took
}
