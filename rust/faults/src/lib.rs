//! What a damaged store gives: which damage the library refuses, and which it cannot notice.
//!
//! The pages are the real ones of `examples/pages`, kept by the safe wrapper in one store. `flips`
//! turns every bit of both areas over, one at a time; `cases` loses, swaps, cuts and doubles slots and
//! areas; `maps` reads by a map that was kept, damaged slots beside it and damage in it, and by one that
//! missed a write. Nothing is random: two runs print the same. The tables stand in `docs/TRUST.md`.

pub mod cases;
pub mod checksum;
pub mod flips;
pub mod maps;
pub mod shipped;
pub mod store;
pub mod tables;
