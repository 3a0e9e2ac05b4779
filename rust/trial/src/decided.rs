//! What the pages of a segment would take, decided before any of them is stored.

use std::path::Path;

use thonxiliko::{compare, Kind, PAYLOAD_SIZE};

use crate::folder::Pages;
use crate::problem::Outcome;
use crate::progress::Progress;

/// Blocks by the kind that they take: nothing, a patch or a full page.
#[derive(Clone, Copy, Debug, Default, PartialEq, Eq)]
pub struct Kinds {
    pub empty: u64,
    pub patch: u64,
    pub full: u64,
}

impl Kinds {
    pub fn count(&mut self, kind: Kind) {
        match kind {
            Kind::Empty => self.empty += 1,
            Kind::Patch => self.patch += 1,
            Kind::Full => self.full += 1,
        }
    }

    pub fn add(&mut self, other: &Kinds) {
        self.empty += other.empty;
        self.patch += other.patch;
        self.full += other.full;
    }

    pub fn blocks(&self) -> u64 {
        self.empty + self.patch + self.full
    }
}

/// What Compare decides of the pages of one file, over those of its base.
#[derive(Clone, Copy, Debug, Default, PartialEq, Eq)]
pub struct Decisions {
    pub kinds: Kinds,
    /// The pages that the full area must have room for: up to the last block that takes one.
    pub pages: u64,
    /// The blocks of the base.
    pub base_blocks: u64,
}

impl Decisions {
    fn of(base: &Path, file: &Path, progress: &mut Progress) -> Outcome<Decisions> {
        let (mut base, mut file) = (Pages::open(base)?, Pages::open(file)?);
        let (mut base_page, mut page) = (Vec::new(), Vec::new());
        let mut decisions = Decisions { base_blocks: base.count, ..Decisions::default() };
        for block in 0..file.count {
            base.next_page(&mut base_page)?;
            file.next_page(&mut page)?;
            let kind = compare(&base_page, &page, &mut [0; PAYLOAD_SIZE])?.kind();
            decisions.kinds.count(kind);
            if kind == Kind::Full {
                decisions.pages = block + 1;
            }
            progress.block();
        }
        Ok(decisions)
    }
}

/// The files of one segment: its base, what it was at noon, if that is known, and what it is now.
#[derive(Clone, Copy)]
pub struct Files<'p> {
    pub base: &'p Path,
    pub noon: Option<&'p Path>,
    pub changed: &'p Path,
}

/// What a segment would take: at noon, nothing at all if that is not known, and in the evening.
#[derive(Clone, Copy, Debug, Default, PartialEq, Eq)]
pub struct Decided {
    pub noon: Decisions,
    pub evening: Decisions,
}

impl Files<'_> {
    /// How many pages are to be decided about.
    pub fn pages(&self) -> Outcome<u64> {
        let noon = self.noon.map_or(Ok(0), |noon| Pages::open(noon).map(|pages| pages.count))?;
        Ok(noon + Pages::open(self.changed)?.count)
    }

    /// Decides about every page. Nothing is stored.
    pub fn decide(&self, progress: &mut Progress) -> Outcome<Decided> {
        let noon = match self.noon {
            Some(noon) => Decisions::of(self.base, noon, progress)?,
            None => Decisions::default(),
        };
        Ok(Decided { noon, evening: Decisions::of(self.base, self.changed, progress)? })
    }
}
