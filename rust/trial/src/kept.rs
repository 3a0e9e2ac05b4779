//! A kept folder: what was stored of a changed data folder beside its base.
//!
//! `pages/` holds two area files for each changed segment, `whole/` every other changed file as it is
//! (control file, commit log, write-ahead log and the like are not pages of relations), and `manifest`
//! says what must be there.

use std::fs;
use std::io::ErrorKind;
use std::path::{Path, PathBuf};

use mapped::Lock;
use thonxiliko::PAGE_SIZE;

use crate::folder::must_be_folder;
use crate::grow::new_name;
use crate::held::Held;
use crate::manifest::{Manifest, Segment, NEW_NAME};
use crate::problem::{At, Outcome, Problem};
use crate::progress::{Progress, Unit};

/// A path with another ending put behind the whole name.
pub fn with_suffix(path: &Path, suffix: &str) -> PathBuf {
    let mut name = path.as_os_str().to_os_string();
    name.push(suffix);
    PathBuf::from(name)
}

/// Where the area files of a segment are.
pub fn area_paths(kept: &Path, path: &Path) -> (PathBuf, PathBuf) {
    let pages = kept.join("pages").join(path);
    (with_suffix(&pages, ".patch"), with_suffix(&pages, ".full"))
}

pub fn whole_path(kept: &Path, path: &Path) -> PathBuf {
    kept.join("whole").join(path)
}

/// Locks a kept folder: for those who read beside each other, for those who write alone.
pub fn lock(folder: &Path, alone: bool) -> Outcome<Lock> {
    must_be_folder(folder)?;
    match if alone { Lock::alone(folder) } else { Lock::shared(folder) } {
        Err(error) if error.kind() == ErrorKind::WouldBlock => {
            let problem = "another program is at work on this folder: wait until it is done";
            Err(Problem::not_done(problem).of(folder))
        }
        locked => locked.at(folder),
    }
}

/// A kept folder that is locked as long as this stands, with its manifest.
pub struct Kept {
    pub folder: PathBuf,
    pub manifest: Manifest,
    _lock: Lock,
}

impl Kept {
    /// To be read, beside others who read.
    pub fn to_read(folder: &Path) -> Outcome<Kept> {
        let lock = lock(folder, false)?;
        Ok(Kept { folder: folder.into(), manifest: Manifest::load(folder)?, _lock: lock })
    }

    /// To be written to, alone.
    pub fn to_write(folder: &Path) -> Outcome<Kept> {
        let lock = lock(folder, true)?;
        let kept = Kept { folder: folder.into(), manifest: Manifest::load(folder)?, _lock: lock };
        kept.remove_half_made()?;
        Ok(kept)
    }

    /// Removes files that a stop has left before they got their names. Nobody reads them.
    fn remove_half_made(&self) -> Outcome<()> {
        let areas = self.manifest.live().map(|path| new_name(&self.area_paths(path).1));
        for path in areas.chain([self.folder.join(NEW_NAME)]) {
            match fs::remove_file(&path) {
                Err(error) if error.kind() != ErrorKind::NotFound => return Err(error).at(&path),
                _ => {}
            }
        }
        Ok(())
    }

    /// The segment of a file, which must have one.
    pub fn segment(&self, path: &Path) -> Outcome<Segment> {
        self.manifest.segments.get(path).copied().ok_or_else(|| {
            let problem = "no segment of this file is kept: `trial info KEPT` lists those that are";
            Problem::not_done(problem).of(path)
        })
    }

    /// Marks a segment as one that is written to. Its checksums hold no more, so this must be on disk
    /// before the first store.
    pub fn mark_live(&mut self, path: &Path) -> Outcome<()> {
        match self.manifest.segments.get_mut(path) {
            Some(segment) if !segment.is_live() => {
                segment.sums = None;
                self.manifest.save(&self.folder)
            }
            _ => Ok(()),
        }
    }

    pub fn area_paths(&self, path: &Path) -> (PathBuf, PathBuf) {
        area_paths(&self.folder, path)
    }

    /// A segment's areas, mapped to be read.
    pub fn held(&self, path: &Path) -> Outcome<Held> {
        Held::open(&self.area_paths(path))
    }

    /// The same, held against the manifest: lengths and, where the segment is closed, checksums.
    pub fn held_as_listed(&self, path: &Path) -> Outcome<Held> {
        let segment = self.segment(path)?;
        let held = self.held(path)?;
        let mut progress = Progress::new();
        progress.start("checking the areas", Unit::Bytes, held.bytes());
        let faults = held.faults(&segment, &mut progress);
        progress.done();
        match faults.into_iter().next() {
            Some(fault) => Err(fault),
            None => Ok(held),
        }
    }

    /// How many pages a file of the base has, by the manifest.
    pub fn base_pages(&self, path: &Path) -> u64 {
        self.manifest.base.get(path).map_or(0, |sum| sum.length / PAGE_SIZE as u64)
    }

    /// Holds one file of the base against the manifest. A file that it does not name must not be there.
    pub fn check_base_file(&self, base: &Path, path: &Path) -> Outcome<()> {
        must_be_folder(base)?;
        let file = base.join(path);
        match self.manifest.base.get(path) {
            Some(sum) => {
                let mut progress = Progress::new();
                progress.start("checking the base file", Unit::Bytes, sum.length);
                let checked = sum.check(&file, "the base file", &mut progress);
                progress.done();
                checked
            }
            None if fs::symlink_metadata(&file).is_ok() => Err(beyond_base(&file)),
            None => Ok(()),
        }
    }
}

/// A file of the base that has another length than when it was checked.
pub fn changed_base(file: &Path) -> Problem {
    Problem::fault("the base file was changed meanwhile: restore it from a copy").of(file)
}

/// A file of the base that was not there when the store was made.
pub fn beyond_base(file: &Path) -> Problem {
    let problem =
        "the base had no such file when this was stored: see whether it is the right base, \
        and take the file away";
    Problem::fault(problem).of(file)
}
