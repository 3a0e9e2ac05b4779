//! Best of many: each contender in turn, again and again, so that all of them meet the same machine.

use std::time::Instant;

/// The best time of one call, in nanoseconds.
#[derive(Clone, Copy, Debug)]
pub struct Times {
    pub library: f64,
    pub limits: f64,
    pub independent: f64,
}

/// Nanoseconds that one sample should take at least, to be well above the clock's grain. Still so few
/// that the system seldom gives the processor away meanwhile.
const SAMPLE: f64 = 20_000.0;
/// Work up to this long is done once before each sample, so that its buffers are warm.
const WARMED: f64 = 1_000_000.0;
/// A sample is better if it takes less than this share of the best before.
pub const BETTER: f64 = 0.99;

/// One way to do the work, and its best time so far.
pub struct Contender<'c> {
    /// Does the work so many times, and gives the nanoseconds that one of them took.
    timed: Box<dyn FnMut(u32) -> f64 + 'c>,
    /// How often a sample does the work; 0 until that has been found out.
    repeats: u32,
    pub best: f64,
}

impl<'c> Contender<'c> {
    pub fn new(mut work: impl FnMut() + 'c) -> Contender<'c> {
        Contender::by(move |repeats| {
            let start = Instant::now();
            for _ in 0..repeats {
                work();
            }
            start.elapsed().as_nanos() as f64 / f64::from(repeats)
        })
    }

    /// Work on something that is made for it each time anew. Only the work is timed.
    pub fn prepared<T>(
        mut prepare: impl FnMut() -> T + 'c,
        mut work: impl FnMut(&mut T) + 'c,
    ) -> Contender<'c> {
        Contender::by(move |repeats| {
            let mut sum = 0.0;
            for _ in 0..repeats {
                let mut lent = prepare();
                let start = Instant::now();
                work(&mut lent);
                sum += start.elapsed().as_nanos() as f64;
            }
            sum / f64::from(repeats)
        })
    }

    fn by(timed: impl FnMut(u32) -> f64 + 'c) -> Contender<'c> {
        Contender { timed: Box::new(timed), repeats: 0, best: f64::MAX }
    }

    fn find_repeats(&mut self) {
        self.repeats = 1;
        while self.repeats < 1 << 20
            && (self.timed)(self.repeats) * f64::from(self.repeats) < SAMPLE
        {
            self.repeats *= 2;
        }
    }

    /// Takes one sample; true if it is clearly better than the best before.
    pub fn sample(&mut self) -> bool {
        if self.repeats == 0 {
            self.find_repeats();
        }
        if self.best < WARMED {
            (self.timed)(1);
        }
        let time = (self.timed)(self.repeats);
        let better = time < BETTER * self.best;
        self.best = self.best.min(time);
        better
    }
}

/// How long to go on: at least so many rounds, until so many in a row brought nothing better, and at
/// most so many, since a machine with other work to do may never come to rest.
#[derive(Clone, Copy)]
pub struct Effort {
    pub least: u32,
    pub quiet: u32,
    pub most: u32,
}

/// One round, to see that all of it works; its times say nothing.
pub const ONCE: Effort = Effort { least: 1, quiet: 0, most: 1 };

/// Repeats a round, which says whether it brought something better, until the times are stable.
pub fn until_stable(effort: Effort, mut round: impl FnMut() -> bool) {
    let (mut rounds, mut quiet) = (0, 0);
    while rounds < effort.most && (rounds < effort.least || quiet < effort.quiet) {
        rounds += 1;
        quiet = if round() { 0 } else { quiet + 1 };
    }
}
