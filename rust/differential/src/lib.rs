//! Compares the library with an independent implementation, call by call and byte by byte.
//!
//! Every input is given to three sides: the C interface of the archive, the safe wrapper over it,
//! and the independent implementation. The answer and every byte of every lent buffer must be the
//! same afterwards. For the C interface every buffer touches forbidden memory at one of its ends.

pub mod arena;
pub mod call;
pub mod cases;
pub mod crash;
pub mod cuts;
pub mod extremes;
pub mod generate;
pub mod harness;
pub mod huge;
pub mod maps;
pub mod orders;
pub mod pair;
pub mod payloads;
pub mod rng;
pub mod runs;
pub mod sides;
pub mod stops;
pub mod sweeps;
