//! A trial copy of a PostgreSQL data folder.
//!
//! The base folder is last night's backup and is never written to. What another folder has beyond it is
//! kept beside it, and that folder is made again from both; each of the verbs is in `verbs.rs`. A manifest
//! with checksums of everything says what must be there, and everything is held against it before a page
//! is given: so what comes back is the folder that was stored, or a fault that is named.

mod areas;
mod block;
mod check;
mod close;
mod decided;
mod folder;
mod grow;
mod held;
mod info;
mod kept;
mod manifest;
mod names;
mod problem;
mod progress;
mod readback;
mod rebuild;
mod segment;
mod sha256;
mod spelled;
mod store;
mod sums;
mod sweep;
mod table;
#[cfg(test)]
mod testing;
mod verbs;
mod words;

use std::process::ExitCode;

use words::Asked;

fn run() -> problem::Outcome<u8> {
    match words::asked(std::env::args_os().skip(1))? {
        Asked::Help(text) => {
            print!("{text}");
            Ok(0)
        }
        Asked::Run(verb, words) => (verb.run)(&words),
    }
}

fn main() -> ExitCode {
    mapped::end_with_the_reader();
    match run() {
        Ok(status) => ExitCode::from(status),
        Err(problem) => {
            eprintln!("trial: {problem}");
            ExitCode::from(problem.status())
        }
    }
}
