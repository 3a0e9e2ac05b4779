//! Processes that are ended in the middle of a write on mapped files.
//!
//! A run of writes and cuts is drawn from a seed ([`run`]). The program `trip` makes it on the files of a
//! folder ([`files`]) up to one write, tells that write how many stores to make, and ends itself by
//! SIGKILL right after it. Other processes of it go on with the run and sweep the files. The tests hold
//! what is then in the files against the same run with that write whole and without it.

pub mod files;
pub mod run;
