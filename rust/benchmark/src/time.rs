//! Times of the two readers, in rounds that take turns, so that a slower machine is slower for both.

use crate::cases::{Call, Case};
use std::time::{Duration, Instant};

const ROUNDS: usize = 80;

/// How long a round should be, so that the clock is fine enough and another program seldom comes between.
const ROUND: Duration = Duration::from_micros(250);

/// After this time the rounds of long calls end.
const LONGEST: Duration = Duration::from_secs(4);

/// Nanoseconds of one call, best of all rounds.
pub struct Times {
    pub proved: f64,
    pub plain: f64,
}

/// One of the two calls of a case.
struct Timed<'a> {
    call: Call<'a>,
    /// How many calls fill a round.
    calls: u32,
    /// The best time of one call, in nanoseconds.
    best: f64,
}

impl Timed<'_> {
    fn start(call: Call) -> Timed {
        let mut timed = Timed {
            call,
            calls: 1,
            best: f64::INFINITY,
        };
        while timed.round() < ROUND && timed.calls < 1 << 24 {
            timed.calls *= 2;
        }
        timed
    }

    fn round(&mut self) -> Duration {
        let start = Instant::now();
        (0..self.calls).for_each(|_| (self.call)());
        let took = start.elapsed();
        self.best = self
            .best
            .min(took.as_nanos() as f64 / f64::from(self.calls));
        took
    }
}

/// The best of 80 rounds of all these cases in turn, or of those that fit into four seconds but no fewer than `least`. The rounds that
/// found how many calls fill one count besides.
pub fn of_cases<const N: usize>(cases: [&Case; N], least: usize) -> [Times; N] {
    let start = Instant::now();
    let mut timed = cases.map(|case| [case.proved(), case.plain()].map(Timed::start));
    for round in 0..ROUNDS {
        if least <= round && LONGEST < start.elapsed() {
            break;
        }
        for timed in timed.iter_mut().flatten() {
            timed.round();
        }
    }
    timed.map(|[proved, plain]| Times {
        proved: proved.best,
        plain: plain.best,
    })
}
