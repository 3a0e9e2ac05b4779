//! A line that says how far long work is.

use std::io::{self, Write};
use std::time::{Duration, Instant};

use mapped::errors_are_on_a_terminal;

/// Work that takes no longer goes without a line.
const LONG: Duration = Duration::from_secs(1);

/// What is counted.
#[derive(Clone, Copy, Debug, PartialEq, Eq)]
pub enum Unit {
    Blocks,
    Bytes,
}

/// Where the line goes.
#[derive(Clone, Copy, Debug, PartialEq, Eq)]
enum Way {
    /// On a terminal it is written over at each percent.
    Over,
    /// Elsewhere a few lines will do.
    Lines,
    Quiet,
}

pub struct Progress {
    way: Way,
    doing: &'static str,
    unit: Unit,
    total: u64,
    done: u64,
    /// When the work was started, and the percent that the line has.
    since: Instant,
    shown: Option<u64>,
}

impl Progress {
    /// On the standard error output, as suits it.
    pub fn new() -> Progress {
        Progress::by(if errors_are_on_a_terminal() { Way::Over } else { Way::Lines })
    }

    /// For work of which nobody waits for the end.
    pub fn quiet() -> Progress {
        Progress::by(Way::Quiet)
    }

    fn by(way: Way) -> Progress {
        let (unit, since) = (Unit::Blocks, Instant::now());
        Progress { way, doing: "", unit, total: 0, done: 0, since, shown: None }
    }

    pub fn start(&mut self, doing: &'static str, unit: Unit, total: u64) {
        *self = Progress { doing, unit, total, ..Progress::by(self.way) };
    }

    /// One more block is done.
    pub fn block(&mut self) {
        self.add(1);
    }

    pub fn add(&mut self, more: u64) {
        self.done += more;
        let step = if self.way == Way::Over { 1 } else { 25 };
        let percent = self.percent();
        if percent >= self.shown.unwrap_or(0) + step && self.since.elapsed() >= LONG {
            self.shown = Some(percent);
            self.show();
        }
    }

    pub fn done(&mut self) {
        *self = Progress::by(self.way);
    }

    fn percent(&self) -> u64 {
        // What was not started has no line.
        100 * self.done.min(self.total) / self.total.max(1)
    }

    fn show(&self) {
        let of = match self.unit {
            Unit::Blocks => format!("{} blocks", self.total),
            Unit::Bytes => format!("{:.1} MiB", self.total as f64 / 1_048_576.0),
        };
        let line = format!("  {} {:>3} % of {of}", self.doing, self.percent());
        match self.way {
            Way::Over => {
                eprint!("\r{line}");
                // A progress line that cannot be shown is no reason to stop.
                let _ = io::stderr().flush();
            }
            Way::Lines => eprintln!("{line}"),
            Way::Quiet => {}
        }
    }
}

/// However the work ends, the next line is a new one.
impl Drop for Progress {
    fn drop(&mut self) {
        if self.way == Way::Over && self.shown.is_some() {
            eprintln!();
        }
    }
}
