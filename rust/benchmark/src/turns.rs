//! Work on many pages in turn, each once in a pass: of one page again and again a processor learns the
//! branches. A pass goes by batches. Before its turn with a batch each contender finds the batch's bytes
//! fetched, so that no one pays for memory that another one brought near.

use std::ops::Range;
use std::time::Instant;

use crate::limits::opaque;
use crate::timing::{until_stable, Effort, BETTER};

/// Pages that are fetched and timed at a go; with their bases 32 KiB. Of many the first are no longer near when
/// their turn comes, and memcmp takes half as long again with 16; with 1 it gains nothing more.
const BATCH: usize = 2;
/// Bytes that are fetched at once.
const LINE: usize = 64;
/// Pages that the least number of passes comes to, if that is more than this number of passes.
const VISITS: usize = 20_000;
const PASSES: usize = 10;

/// One part of each pair: its base, its page or what is kept of it.
pub type Row<'r> = Vec<&'r [u8]>;

/// One way to do the work on every page, and its least time for a whole pass.
pub struct Runner<'r> {
    /// What it reads.
    rows: Vec<&'r Row<'r>>,
    work: Box<dyn FnMut(Range<usize>) + 'r>,
    pass: f64,
    best: f64,
    /// The least time of each batch.
    batches: Vec<f64>,
}

impl<'r> Runner<'r> {
    pub fn new<const N: usize>(
        rows: [&'r Row<'r>; N],
        mut work: impl FnMut([&'r [u8]; N]) + 'r,
    ) -> Runner<'r> {
        let through = move |batch: Range<usize>| batch.for_each(|at| work(rows.map(|row| row[at])));
        let batches = vec![f64::MAX; (rows[0].len() + BATCH - 1) / BATCH];
        let (rows, work) = (rows.to_vec(), Box::new(through));
        Runner { rows, work, pass: 0.0, best: f64::MAX, batches }
    }

    fn fetch(&self, batch: Range<usize>) {
        for bytes in self.rows.iter().flat_map(|row| &row[batch.clone()]) {
            opaque(bytes.iter().step_by(LINE).fold(0, |sum: u8, byte| sum.wrapping_add(*byte)));
        }
    }

    fn turn(&mut self, batch: Range<usize>, clock: f64) {
        self.fetch(batch.clone());
        let least = &mut self.batches[batch.start / BATCH];
        let start = Instant::now();
        (self.work)(batch);
        let time = start.elapsed().as_nanos() as f64 - clock;
        self.pass += time;
        *least = least.min(time);
    }

    /// Whether the pass that ends here was clearly better than those before.
    fn end_pass(&mut self) -> bool {
        let better = self.pass < BETTER * self.best;
        self.best = self.best.min(self.pass);
        self.pass = 0.0;
        better
    }

    /// The least pass by the sum of what its batches took at least. Other work on the machine makes it more,
    /// and most of all for those that take long.
    fn unrest(&self) -> f64 {
        self.best / self.batches.iter().sum::<f64>()
    }
}

/// Nanoseconds a page of each contender, and the most unrest that one of them met.
pub struct Least {
    pub times: Vec<f64>,
    pub unrest: f64,
}

/// What looking at the clock takes by itself.
fn clock() -> f64 {
    let once = || Instant::now().elapsed().as_nanos() as f64;
    (0..1_000).map(|_| once()).fold(f64::MAX, f64::min)
}

/// The least pass of each. They take turns in each batch.
pub fn least_times(mut runners: Vec<Runner>) -> Least {
    let clock = clock();
    let count = runners[0].rows[0].len();
    let least = (VISITS / count).max(PASSES) as u32;
    until_stable(Effort { least, quiet: 5, most: 3 * least }, || {
        for start in (0..count).step_by(BATCH) {
            let batch = start..count.min(start + BATCH);
            runners.iter_mut().for_each(|runner| runner.turn(batch.clone(), clock));
        }
        runners.iter_mut().fold(false, |better, runner| runner.end_pass() | better)
    });
    Least {
        times: runners.iter().map(|runner| runner.best / count as f64).collect(),
        unrest: runners.iter().map(Runner::unrest).fold(1.0, f64::max),
    }
}
