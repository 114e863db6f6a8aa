//! The slowest of many calls of the C entries for texts.

use std::io::Write;
use std::time::{Duration, Instant};

/// How long a call may take.
pub const LIMIT: Duration = Duration::from_millis(5);

/// How often a call is repeated; its time is the shortest, as other work can only lengthen it.
const REPEATS: usize = 10;

/// The slowest call so far.
#[derive(Default)]
pub struct Slowest {
    time: Duration,
    /// What the call was made for.
    about: String,
}

impl Slowest {
    /// Takes a call into account that took so long at first, with what it was made for.
    ///
    /// Only a call that may be the slowest one is repeated.
    pub fn take(&mut self, first: Duration, mut call: impl FnMut(), about: impl Fn() -> String) {
        if first <= self.time {
            return;
        }
        let repeated = (0..REPEATS).map(|_| {
            let start = Instant::now();
            call();
            start.elapsed()
        });
        let shortest = repeated.fold(first, Duration::min);
        if shortest > self.time {
            self.time = shortest;
            self.about = about();
        }
    }

    /// Prints the slowest call and asserts that it is within the limit.
    pub fn assert_within_limit(&self, inputs: &str) {
        let Slowest { time, about } = self;
        // Written past the test's capture, so that every run of the tests shows it.
        let mut output = std::io::stdout();
        writeln!(output, "{inputs}: slowest call {time:?} ({about})").unwrap();
        assert!(*time < LIMIT, "a call took {time:?} for {about}");
    }
}
