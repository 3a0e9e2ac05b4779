//! Format of large areas, with a place for each block. It depends on what the memory was before: memory
//! that is new is zero already and takes no room until it is written; memory that was in use is neither.

use differential::arena::Mapping;
use thonxiliko::{full_area_len, patch_area_len};

use crate::limits::{self, opaque};
use crate::segments::Row;
use crate::timing::{until_stable, Contender, Effort, Times};

pub const EFFORT: Effort = Effort { least: 5, quiet: 3, most: 15 };
/// 4 MiB of slots and 64 MiB of places.
pub const BLOCKS: u64 = 8_192;
/// What used memory holds.
const USED: u8 = 0xA5;

/// Memory for both areas.
struct Areas {
    patch: Mapping,
    full: Mapping,
}

impl Areas {
    /// Never written.
    fn fresh(blocks: u64) -> Areas {
        let patch = Mapping::new(patch_area_len(blocks));
        Areas { patch, full: Mapping::new(full_area_len(blocks)) }
    }

    /// No byte is zero.
    fn used(blocks: u64) -> Areas {
        let mut areas = Areas::fresh(blocks);
        areas.patch.bytes().fill(USED);
        areas.full.bytes().fill(USED);
        areas
    }

    /// As Format left them, and nothing was written since. Every byte was written once: what Format
    /// leaves alone would still be new.
    fn formatted(blocks: u64) -> Areas {
        let mut areas = Areas::fresh(blocks);
        areas.by_limits();
        areas.by_library();
        areas
    }

    fn by_library(&mut self) {
        let _ = opaque(thonxiliko::format(self.patch.bytes(), self.full.bytes()));
    }

    /// Format's limits: both areas set to zeros.
    fn by_limits(&mut self) {
        limits::set(self.patch.bytes(), 0);
        limits::set(self.full.bytes(), 0);
    }

    fn by_independent(&mut self) {
        opaque(independent::format(self.patch.bytes(), self.full.bytes()));
    }
}

fn row(blocks: u64, work: &'static str, effort: Effort, memory: fn(u64) -> Areas) -> Row {
    let contender = |format: fn(&mut Areas)| Contender::prepared(move || memory(blocks), format);
    let mut library = contender(Areas::by_library);
    let mut limits = contender(Areas::by_limits);
    let mut independent = contender(Areas::by_independent);
    until_stable(effort, || {
        let better = library.sample() | limits.sample();
        independent.sample();
        better
    });
    let [library, limits, independent] =
        [library, limits, independent].map(|contender| contender.best / blocks as f64);
    Row { blocks, work, times: Times { library, limits, independent } }
}

pub fn rows(effort: Effort, blocks: u64) -> Vec<Row> {
    vec![
        row(blocks, "formatted, m = n, new memory", effort, Areas::fresh),
        row(blocks, "formatted, m = n, used memory", effort, Areas::used),
        row(blocks, "formatted, m = n, formatted before", effort, Areas::formatted),
    ]
}
