//! Times of the proved library and of the rival on the same tables.

use crate::exported::{infer_repeatedly, placement_report, solve_repeatedly};
use crate::rival::Rival;
use crate::sets::Sample;
use second::report::LONGEST_REPORT;
use std::hint::black_box;
use std::time::{Duration, Instant};

/// How often each table is measured; the shortest time counts, as other work can only lengthen it.
const ROUNDS: usize = 5;

/// What is measured.
#[derive(Clone, Copy, PartialEq, Eq)]
pub enum Work {
    /// The solver alone.
    Solve,
    /// The whole infer call.
    Infer,
    /// The whole entry: a text in, a report or a refusal out.
    Report,
}

impl Work {
    /// How often the work is done in one measured call.
    ///
    /// The proved library loads the text for a solve or an infer call too, which must not drown them.
    fn times(self) -> u32 {
        match self {
            Work::Solve | Work::Infer => 100,
            Work::Report => 10,
        }
    }
}

/// The mean times for one table.
pub struct Times {
    /// The proved library's.
    pub proved: Duration,
    /// The rival's.
    pub rival: Duration,
}

impl Times {
    /// The proved library's time in those of the rival.
    pub fn ratio(&self) -> f64 {
        self.proved.as_secs_f64() / self.rival.as_secs_f64()
    }
}

/// Both sides with their storage.
pub struct Sides {
    rival: Rival,
    /// Nobody clears it between calls.
    buffer: Vec<u8>,
}

impl Default for Sides {
    fn default() -> Sides {
        Sides { rival: Rival::default(), buffer: vec![0; LONGEST_REPORT] }
    }
}

impl Sides {
    /// Lets the proved library do the work so many times; but for the whole entry it loads the text before and answers once.
    pub fn proved(&mut self, work: Work, sample: &Sample, times: u32) {
        let (text, buffer) = (&sample.text, &mut self.buffer);
        match work {
            Work::Solve => {
                solve_repeatedly(text, times, buffer);
            }
            Work::Infer => {
                infer_repeatedly(text, times, buffer);
            }
            Work::Report => (0..times).for_each(|_| {
                black_box(placement_report(black_box(text), buffer));
            }),
        }
    }

    /// Lets the rival do the work so many times.
    pub fn rival(&mut self, work: Work, sample: &Sample, times: u32) {
        let Sides { rival, buffer } = self;
        for _ in 0..times {
            let Sample { text, table } = black_box(sample);
            match work {
                Work::Solve => {
                    black_box(rival.solve(table).is_ok());
                }
                Work::Infer => {
                    black_box(rival.infer(table, buffer).number);
                }
                Work::Report => {
                    black_box(rival.report(text, buffer));
                }
            }
            black_box(&*rival);
        }
    }

    /// The mean times for one table of a set.
    pub fn times(&mut self, work: Work, set: &[Sample]) -> Times {
        let times = work.times();
        // What loading takes, loading with the work, and the rival's work.
        let mut shortest = vec![[Duration::MAX; 3]; set.len()];
        for round in 0..ROUNDS {
            for (number, sample) in set.iter().enumerate() {
                let best = &mut shortest[number];
                // The order alternates, so that neither side always finds the caches warm.
                for turn in 0..3 {
                    let part = if (round + number) % 2 == 0 { turn } else { 2 - turn };
                    let start = Instant::now();
                    match part {
                        0 => self.proved(work, sample, 0),
                        1 => self.proved(work, sample, times),
                        _ => self.rival(work, sample, times),
                    }
                    best[part] = best[part].min(start.elapsed());
                }
            }
        }
        let total = |part: fn(&[Duration; 3]) -> Duration| {
            let sum: Duration = shortest.iter().map(part).sum();
            sum / times / set.len() as u32
        };
        Times { proved: total(|t| t[1].saturating_sub(t[0])), rival: total(|t| t[2]) }
    }
}
