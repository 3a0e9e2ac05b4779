//! What can go wrong, in two sorts, and what to do about it.

use std::fmt;
use std::io;
use std::path::Path;

use thonxiliko::Refusal;

use crate::spelled::spelled;

pub type Outcome<T> = Result<T, Problem>;

#[derive(Clone, Copy, Debug, PartialEq, Eq)]
pub enum Sort {
    /// A fault was found: exit status 1.
    Fault,
    /// What was asked for could not be done: exit status 2.
    NotDone,
}

/// One problem, told in one line: the file, the block where there is one, and what to do.
#[derive(Clone, Debug)]
pub struct Problem {
    pub sort: Sort,
    text: String,
}

impl Problem {
    pub fn fault(text: impl Into<String>) -> Problem {
        Problem { sort: Sort::Fault, text: text.into() }
    }

    pub fn not_done(text: impl Into<String>) -> Problem {
        Problem { sort: Sort::NotDone, text: text.into() }
    }

    /// The same with the file's name before it.
    pub fn of(self, path: &Path) -> Problem {
        Problem { text: format!("{}: {}", spelled(path), self.text), ..self }
    }

    /// The same with the block's number before it.
    pub fn of_block(self, block: u64) -> Problem {
        Problem { text: format!("block {block}: {}", self.text), ..self }
    }

    pub fn status(&self) -> u8 {
        match self.sort {
            Sort::Fault => 1,
            Sort::NotDone => 2,
        }
    }
}

impl fmt::Display for Problem {
    fn fmt(&self, f: &mut fmt::Formatter<'_>) -> fmt::Result {
        f.write_str(&self.text)
    }
}

/// A refusal of the library is a fault of what it was lent, told with what to do.
impl<R: fmt::Display + Copy + Into<Refusal>> From<R> for Problem {
    fn from(refusal: R) -> Problem {
        Problem::fault(format!("{refusal}: {}", advice(refusal.into())))
    }
}

/// Names the file of which an operation failed.
pub trait At<T> {
    fn at(self, path: &Path) -> Outcome<T>;
}

impl<T> At<T> for io::Result<T> {
    fn at(self, path: &Path) -> Outcome<T> {
        self.map_err(|error| Problem::not_done(format!("{error}: {}", what_to_do(&error))).of(path))
    }
}

impl<T> At<T> for Outcome<T> {
    fn at(self, path: &Path) -> Outcome<T> {
        self.map_err(|problem| problem.of(path))
    }
}

/// What to do where the system refuses.
fn what_to_do(error: &io::Error) -> &'static str {
    const NO_ROOM: i32 = 28;
    match error.kind() {
        io::ErrorKind::NotFound => "see whether the name is right",
        io::ErrorKind::PermissionDenied => "run this as the user to whom the file belongs",
        io::ErrorKind::WouldBlock => "wait until the other program is done with it",
        io::ErrorKind::AlreadyExists => "give the name of something that is not there yet",
        _ if error.raw_os_error() == Some(NO_ROOM) => "make room on that disk",
        _ => "see whether the disk and the file are sound",
    }
}

/// A page has no slot that refers to it. There are two readings of that, and only one may be swept.
pub const STOP_OR_LOSS: &str = "either a write was stopped: then `trial sweep KEPT FILE --stopped 1`; \
    or a FULL_REF slot was lost: then this place holds the only copy of its page, so restore both area \
    files from a copy, and do not sweep";

/// A closed segment has other areas than when it was closed.
pub const NOT_AS_CLOSED: &str =
    "the area is not the one that was closed, a slot may be lost: restore \
    both area files from a copy; do not sweep";

/// What to do about a refusal.
pub fn advice(refusal: Refusal) -> &'static str {
    match refusal {
        Refusal::PageLength => "give files of whole pages of 8,192 bytes",
        Refusal::AreaLength => "an area file is cut short or too long: restore both from a copy",
        Refusal::Header => "this is no area file, or damaged: restore both area files from a copy",
        Refusal::Version => "an area of another version: use the program that made it",
        Refusal::Block => {
            "`trial info KEPT FILE` tells how many blocks there are; `trial store` \
            makes a longer store"
        }
        Refusal::Slot | Refusal::Payload => {
            "the patch area is damaged: restore both area files from a copy"
        }
        Refusal::NoFullPage => "the full area is too short: restore both area files from a copy",
        Refusal::StrayPage => STOP_OR_LOSS,
        // Nothing in the files leads to the others.
        _ => "this is a mistake in this program: report it",
    }
}

#[cfg(test)]
mod tests {
    use super::*;

    #[test]
    fn a_problem_tells_file_block_and_what_to_do() {
        let problem = Problem::from(Refusal::Slot).of_block(3).of(Path::new("a b"));
        assert_eq!(
            problem.to_string(),
            "a%20b: block 3: refused 6: the slot is not sound: the patch area is damaged: restore \
             both area files from a copy"
        );
        assert_eq!(problem.status(), 1);
        let missing = std::fs::read("none").at(Path::new("none")).expect_err("no file");
        assert_eq!(missing.status(), 2);
        assert!(missing.to_string().ends_with(": see whether the name is right"), "{missing}");
    }

    /// Every refusal has an advice of one line.
    #[test]
    fn advice_takes_one_line() {
        for refusal in (1..=11).filter_map(Refusal::from_number) {
            let advice = advice(refusal);
            assert!(!advice.is_empty() && !advice.contains('\n') && !advice.contains("  "));
        }
    }
}
