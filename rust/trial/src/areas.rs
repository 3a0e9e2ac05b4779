//! The area files of a kept segment, mapped to be written to.

use std::path::PathBuf;

use mapped::Area;
use thonxiliko::{carry_out, sweep, Decision, Kind, Stores};

use crate::problem::{At, Outcome, Problem};

/// Both areas of a segment; without a full file the full area is absent.
pub struct AreaFiles {
    patch: Area,
    full: Area,
    patch_path: PathBuf,
    full_path: PathBuf,
}

impl AreaFiles {
    pub fn open((patch, full): &(PathBuf, PathBuf)) -> Outcome<AreaFiles> {
        Ok(AreaFiles {
            patch: Area::open(patch).at(patch)?,
            full: Area::open_or_absent(full).at(full)?,
            patch_path: patch.clone(),
            full_path: full.clone(),
        })
    }

    pub fn carry_out(
        &mut self,
        block: u64,
        decision: &Decision<'_>,
        stores: Stores,
    ) -> Outcome<()> {
        carry_out(self.patch.bytes_mut(), self.full.bytes_mut(), block, decision, stores)
            .map(|_| ())
            .map_err(|refusal| Problem::from(refusal).of_block(block))
    }

    /// A whole write of which the first store is on disk before the second one is made. A power cut between
    /// the two leaves what a sweep clears up; one in the middle of a page can still tear it, where a full
    /// page replaces a full page.
    pub fn write_safely(&mut self, block: u64, decision: &Decision<'_>) -> Outcome<()> {
        self.carry_out(block, decision, Stores::One)?;
        match decision.kind() {
            Kind::Full => self.sync_full()?,
            Kind::Empty | Kind::Patch => self.sync_patch()?,
        }
        self.carry_out(block, decision, Stores::All)?;
        self.sync_patch()?;
        self.sync_full()
    }

    /// Removes every page to which no slot refers.
    pub fn sweep(&mut self) -> Outcome<()> {
        // A killed process may have left a slot that is not on disk. It must be there before its page
        // goes, or after a power cut the old FULL_REF slot is over zeros.
        self.sync_patch()?;
        sweep(self.patch.bytes(), self.full.bytes_mut())?;
        self.sync_full()
    }

    fn sync_patch(&self) -> Outcome<()> {
        self.patch.sync().at(&self.patch_path)
    }

    fn sync_full(&self) -> Outcome<()> {
        self.full.sync().at(&self.full_path)
    }
}
