//! The area files of a store in a folder of its own.

use std::io;
use std::path::{Path, PathBuf};

use mapped::Area;

use crate::run::Run;

pub fn patch_path(folder: &Path) -> PathBuf {
    folder.join("patch")
}

pub fn full_path(folder: &Path) -> PathBuf {
    folder.join("full")
}

/// Both areas, mapped.
pub struct Files {
    pub patch: Area,
    pub full: Area,
}

impl Files {
    /// New files of zeros for a run.
    pub fn create(folder: &Path, run: &Run) -> io::Result<Files> {
        Ok(Files {
            patch: Area::create(&patch_path(folder), run.patch_len())?,
            full: Area::create(&full_path(folder), run.full_len())?,
        })
    }

    pub fn open(folder: &Path) -> io::Result<Files> {
        Ok(Files { patch: Area::open(&patch_path(folder))?, full: Area::open(&full_path(folder))? })
    }
}
