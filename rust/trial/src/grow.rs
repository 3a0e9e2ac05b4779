//! A longer full area, for a full page on a block that has no place there.

use std::fs::{self, File, OpenOptions};
use std::io::{ErrorKind, Write};
use std::path::{Path, PathBuf};

use thonxiliko::{format, full_area_len, patch_area_len, FULL_HEADER_SIZE, PATCH_HEADER_SIZE};

use crate::folder::{parent_of, sync};
use crate::kept::with_suffix;
use crate::problem::{At, Outcome};

/// A full area that is being made. It is never read.
pub fn new_name(full: &Path) -> PathBuf {
    with_suffix(full, ".new")
}

/// Gives a block a place in the full area: that is made or becomes longer, and is on disk then. The new
/// places are zeros, as Build wants them, so a stop leaves a sound store.
pub fn give_place(full: &Path, block: u64) -> Outcome<()> {
    let length = full_area_len(block + 1) as u64;
    match OpenOptions::new().write(true).open(full) {
        Err(error) if error.kind() == ErrorKind::NotFound => make(full, length),
        opened => {
            let file = opened.at(full)?;
            file.set_len(length).and_then(|()| file.sync_all()).at(full)
        }
    }
}

/// Makes a full area under another name, so that it is there as a whole or not at all.
fn make(full: &Path, length: u64) -> Outcome<()> {
    // The header of areas that are formatted for it, without a block.
    let mut header = [0; FULL_HEADER_SIZE];
    format(&mut [0; PATCH_HEADER_SIZE], &mut header)?;
    debug_assert_eq!((patch_area_len(0), full_area_len(0)), (PATCH_HEADER_SIZE, header.len()));
    let new = new_name(full);
    let mut file = File::create(&new).at(&new)?;
    file.write_all(&header).at(&new)?;
    file.set_len(length).and_then(|()| file.sync_all()).at(&new)?;
    fs::rename(&new, full).at(full)?;
    sync(parent_of(full))
}
