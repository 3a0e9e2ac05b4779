//! What the benchmark measures real pages by: sets of them, what is kept of each page, and peers.

pub mod peers;
pub mod sets;
pub mod sorted;
