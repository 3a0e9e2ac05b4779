//! The one file that says what a kept folder holds, and over which base: `KEPT/manifest`.
//!
//! Text, one record a line, fields by single spaces, paths spelled as in [`crate::spelled`]:
//!
//! ```text
//! thonxiliko-trial 1
//! state closed                                    or live
//! base LENGTH SHA-256 PATH                        every file of the base
//! segment N M PATCH-SHA-256 FULL-SHA-256 PATH     M and the second sum - without a full area,
//!                                                 both sums the word live while it is written to
//! whole LENGTH SHA-256 PATH                       every file that is kept as it is
//! gone PATH                                       every file of the base that is no longer there
//! folder PATH                                     every folder of the changed data folder
//! end SHA-256                                     of all bytes before this line
//! ```
//!
//! It is written last, under another name, synced and renamed: so it is there as a whole, and only where
//! all it speaks of is.

mod parse;

use std::collections::{BTreeMap, BTreeSet};
use std::fs::{self, File};
use std::io::{ErrorKind, Write};
use std::path::{Path, PathBuf};

use crate::folder::sync;
use crate::problem::{At, Outcome, Problem};
use crate::sha256::Digest;
use crate::spelled::spelled;
use crate::sums::FileSum;

pub const NAME: &str = "manifest";
/// A manifest that is being written. It is never read.
pub const NEW_NAME: &str = "manifest.new";
const FIRST_LINE: &str = "thonxiliko-trial 1";

/// The sums of both areas of a closed segment.
#[derive(Clone, Copy, Debug, PartialEq, Eq)]
pub struct AreaSums {
    pub patch: Digest,
    pub full: Option<Digest>,
}

/// A kept segment.
#[derive(Clone, Copy, Debug, PartialEq, Eq)]
pub struct Segment {
    /// n, the blocks of the patch area.
    pub blocks: u64,
    /// m, the places of the full area; none where that is absent.
    pub places: Option<u64>,
    /// None while the segment is live: it is being written to.
    pub sums: Option<AreaSums>,
}

impl Segment {
    pub fn is_live(&self) -> bool {
        self.sums.is_none()
    }
}

#[derive(Clone, Debug, Default, PartialEq, Eq)]
pub struct Manifest {
    pub base: BTreeMap<PathBuf, FileSum>,
    pub segments: BTreeMap<PathBuf, Segment>,
    pub whole: BTreeMap<PathBuf, FileSum>,
    pub gone: BTreeSet<PathBuf>,
    pub folders: BTreeSet<PathBuf>,
}

impl Manifest {
    pub fn live(&self) -> impl Iterator<Item = &PathBuf> {
        self.segments.iter().filter(|(_, segment)| segment.is_live()).map(|(path, _)| path)
    }

    pub fn is_live(&self) -> bool {
        self.live().next().is_some()
    }

    pub fn text(&self) -> String {
        let state = if self.is_live() { "live" } else { "closed" };
        let mut text = format!("{FIRST_LINE}\nstate {state}\n");
        let file = |word: &str, (path, sum): (&PathBuf, &FileSum)| {
            format!("{word} {} {} {}\n", sum.length, sum.digest, spelled(path))
        };
        text.extend(self.base.iter().map(|one| file("base", one)));
        text.extend(self.segments.iter().map(|(path, segment)| segment_line(path, segment)));
        text.extend(self.whole.iter().map(|one| file("whole", one)));
        text.extend(self.gone.iter().map(|path| format!("gone {}\n", spelled(path))));
        text.extend(self.folders.iter().map(|path| format!("folder {}\n", spelled(path))));
        let end = Digest::of(text.as_bytes());
        text + &format!("end {end}\n")
    }

    /// The manifest of a kept folder. Without one, what is there was never stored to its end.
    pub fn load(kept: &Path) -> Outcome<Manifest> {
        let path = kept.join(NAME);
        let bytes = match fs::read(&path) {
            Err(error) if error.kind() == ErrorKind::NotFound => {
                let problem =
                    "there is no manifest: it was lost, or `trial store` did not come to \
                    its end; restore the folder from a copy, or store into a new one";
                return Err(Problem::fault(problem).of(&path));
            }
            read => read.at(&path)?,
        };
        parse::manifest(&bytes).at(&path)
    }

    /// Puts it in the place of the one that is there: whole, or not at all.
    pub fn save(&self, kept: &Path) -> Outcome<()> {
        let (new, path, text) = (kept.join(NEW_NAME), kept.join(NAME), self.text());
        // What would not be read is not written.
        parse::manifest(text.as_bytes()).at(&new)?;
        let mut file = File::create(&new).at(&new)?;
        file.write_all(text.as_bytes()).at(&new)?;
        file.sync_all().at(&new)?;
        fs::rename(&new, &path).at(&path)?;
        sync(kept)
    }
}

fn segment_line(path: &Path, segment: &Segment) -> String {
    let or_none = |text: Option<String>| text.unwrap_or_else(|| "-".to_string());
    let places = or_none(segment.places.map(|places| places.to_string()));
    let (patch, full) = match segment.sums {
        Some(sums) => (sums.patch.to_string(), or_none(sums.full.map(|full| full.to_string()))),
        None => ("live".to_string(), "live".to_string()),
    };
    format!("segment {} {places} {patch} {full} {}\n", segment.blocks, spelled(path))
}
