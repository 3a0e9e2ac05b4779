//! Keeps what a changed data folder has beyond its base, and writes the manifest of it.

use std::collections::BTreeMap;
use std::path::{Path, PathBuf};

use crate::decided::{Decided, Files};
use crate::folder::{
    length, lengths, make_parent, make_private, must_be_empty, must_be_folder, parent_of,
    relation_file, same_bytes, sync, sync_tree, Listing, RelationFile,
};
use crate::held::Held;
use crate::kept::{area_paths, lock, whole_path};
use crate::manifest::{Manifest, Segment};
use crate::problem::{At, Outcome, Problem};
use crate::progress::{Progress, Unit};
use crate::readback;
use crate::segment::{Areas, Counts, Day, CHANGED_MEANWHILE};
use crate::sums::{copy_with_sum, FileSum};

/// One changed segment, and what it would take.
pub struct DecidedSegment {
    path: PathBuf,
    pub relation: RelationFile,
    pub decided: Decided,
}

/// One segment that was stored.
pub struct StoredSegment {
    pub relation: RelationFile,
    pub counts: Counts,
    pub day: Day,
}

#[derive(Default)]
pub struct Stored {
    pub segments: Vec<StoredSegment>,
    pub unchanged: u64,
    pub whole_files: u64,
    pub whole_bytes: u64,
    pub gone: u64,
}

/// The folders of a day: the base, what it was at noon, if that is known, and what it is now.
#[derive(Clone, Copy)]
pub struct Folders<'p> {
    pub base: &'p Path,
    pub noon: Option<&'p Path>,
    pub changed: &'p Path,
}

impl Folders<'_> {
    /// Does something with one file of each folder, and names the file if that fails.
    fn with<T>(&self, path: &Path, act: impl FnOnce(Files<'_>) -> Outcome<T>) -> Outcome<T> {
        let (base, changed) = (self.base.join(path), self.changed.join(path));
        let noon = self.noon.map(|noon| noon.join(path));
        act(Files { base: &base, noon: noon.as_deref(), changed: &changed }).at(path)
    }

    fn is_changed(&self, path: &Path, progress: &mut Progress) -> Outcome<bool> {
        let (base, changed) = (self.base.join(path), self.changed.join(path));
        progress.add(length(&changed)?);
        Ok(!base.is_file() || !same_bytes(&base, &changed)?)
    }

    fn changed_segments(&self, progress: &mut Progress) -> Outcome<Vec<(PathBuf, RelationFile)>> {
        let files = Listing::of(self.changed)?.files.into_iter();
        let relations =
            files.filter_map(|path| relation_file(&path).map(|relation| (path, relation)));
        let relations: Vec<_> = relations.collect();
        let bytes = lengths(self.changed, relations.iter().map(|(path, _)| path))?;
        progress.start("comparing", Unit::Bytes, bytes);
        let mut segments = Vec::new();
        for (path, relation) in relations {
            if self.is_changed(&path, progress)? {
                segments.push((path, relation));
            }
        }
        progress.done();
        Ok(segments)
    }

    /// Decides what every changed segment would take. Nothing is stored.
    pub fn decide(&self, progress: &mut Progress) -> Outcome<Vec<DecidedSegment>> {
        must_be_folder(self.base)?;
        self.noon.map_or(Ok(()), must_be_folder)?;
        let segments = self.changed_segments(progress)?;
        let mut pages = 0;
        for (path, _) in &segments {
            pages += self.with(path, |files| files.pages())?;
        }
        progress.start("deciding", Unit::Blocks, pages);
        let decided = segments.into_iter().map(|(path, relation)| {
            let decided = self.with(&path, |files| files.decide(progress))?;
            Ok(DecidedSegment { path, relation, decided })
        });
        let decided = decided.collect();
        progress.done();
        decided
    }
}

/// Lengths and checksums of all files of the base. They are taken before a page is compared with it: so
/// a base that changes afterwards is not the one in the manifest.
pub fn base_sums(base: &Path, progress: &mut Progress) -> Outcome<BTreeMap<PathBuf, FileSum>> {
    let files = Listing::of(base)?.files;
    progress.start("checksums of the base", Unit::Bytes, lengths(base, &files)?);
    let sums = files.into_iter().map(|path| {
        let sum = FileSum::of(&base.join(&path), progress)?;
        Ok((path, sum))
    });
    let sums = sums.collect();
    progress.done();
    sums
}

/// Keeps what the changed folder has beyond the base, and reads all of it back. Where there is a folder
/// of noon, its pages are written first, as they were in the course of the day. Each segment takes what
/// was decided of it. The kept folder must be new: what an earlier day left there would be rebuilt too.
/// The manifest comes last, when all else is on disk: without it nothing was stored.
pub fn store(
    folders: Folders<'_>,
    base: BTreeMap<PathBuf, FileSum>,
    decided: Vec<DecidedSegment>,
    kept: &Path,
    progress: &mut Progress,
) -> Outcome<Stored> {
    if !kept.exists() {
        make_private(kept)?;
    }
    let _lock = lock(kept, true)?;
    must_be_empty(kept)?;
    let mut manifest = Manifest { base, ..Manifest::default() };
    let mut stored = store_others(folders, &decided, kept, &mut manifest, progress)?;
    let blocks = decided.iter().map(|one| one.decided.evening.kinds.blocks()).sum();
    progress.start("storing", Unit::Blocks, blocks);
    for DecidedSegment { path, relation, decided } in decided {
        let areas = area_paths(kept, &path);
        let (segment, counts, day) =
            folders.with(&path, |files| store_segment(files, &decided, &areas, progress))?;
        stored.segments.push(StoredSegment { relation, counts, day });
        manifest.segments.insert(path, segment);
    }
    progress.done();
    sync_tree(kept)?;
    manifest.save(kept)?;
    sync(parent_of(kept))?;
    Ok(stored)
}

/// Keeps the changed files that hold no relation's pages, and says what is gone. No changed segment may
/// be left out of what was decided.
fn store_others(
    folders: Folders<'_>,
    decided: &[DecidedSegment],
    kept: &Path,
    manifest: &mut Manifest,
    progress: &mut Progress,
) -> Outcome<Stored> {
    let (old, new) = (Listing::of(folders.base)?, Listing::of(folders.changed)?);
    if !old.files.iter().eq(manifest.base.keys()) {
        let problem = "files came or went meanwhile: leave the base alone, store into a new folder";
        return Err(Problem::fault(problem).of(folders.base));
    }
    let mut stored = Stored::default();
    progress.start("comparing", Unit::Bytes, lengths(folders.changed, &new.files)?);
    for path in &new.files {
        if !folders.is_changed(path, progress)? {
            stored.unchanged += 1;
        } else if relation_file(path).is_none() {
            let (from, to) = (folders.changed.join(path), whole_path(kept, path));
            let sum = copy_with_sum(&from, &to, &mut Progress::quiet())?;
            stored.whole_files += 1;
            stored.whole_bytes += sum.length;
            manifest.whole.insert(path.clone(), sum);
        } else if !decided.iter().any(|segment| segment.path == *path) {
            let problem = format!("changed, and nothing was decided: {CHANGED_MEANWHILE}");
            return Err(Problem::fault(problem).of(path));
        }
    }
    progress.done();
    manifest.gone = old.files.difference(&new.files).cloned().collect();
    manifest.folders = new.folders;
    stored.gone = manifest.gone.len() as u64;
    Ok(stored)
}

/// Keeps one segment in a patch file and a full file.
fn store_segment(
    files: Files<'_>,
    decided: &Decided,
    paths: &(PathBuf, PathBuf),
    progress: &mut Progress,
) -> Outcome<(Segment, Counts, Day)> {
    let (areas, day) = Areas::store(files, decided, progress)?;
    make_parent(&paths.0)?;
    let kept = areas.save(&paths.0, &paths.1)?;
    // Read back from the files, not from what is still in memory.
    let held = Held::open(paths)?;
    let counts = readback::check(&held, files.base, files.changed)?;
    if counts.kinds != decided.evening.kinds {
        let problem = format!("the files hold other kinds than were decided: {CHANGED_MEANWHILE}");
        return Err(Problem::fault(problem));
    }
    let sums = Some(held.sums(&mut Progress::quiet()));
    let segment = Segment { blocks: held.blocks(), places: held.places(), sums };
    Ok((segment, Counts { kept, ..counts }, day))
}

#[cfg(test)]
mod tests {
    use super::*;
    use std::fs;

    use crate::folder::differences;
    use crate::segment::Cut;
    use crate::testing::{folders, pages, Place};

    /// The folder that is rebuilt is the one that was stored, of 8 files.
    fn must_come_back(place: &Place) {
        assert_eq!(place.rebuild(&place.at("again")).expect("rebuilt"), 0);
        let found = differences(&place.at("new"), &place.at("again")).expect("compared");
        assert_eq!((found.files, found.found), (8, Vec::<String>::new()));
    }

    #[test]
    fn a_folder_comes_back() {
        let place = Place::new("back");
        folders(&place);
        let stored = place.store(false).expect("stored");
        assert_eq!((stored.segments.len(), stored.unchanged, stored.gone), (5, 2, 1));
        assert_eq!((stored.whole_files, stored.whole_bytes), (1, 100));
        let counts = |first: &str| {
            let segment = stored.segments.iter().find(|segment| segment.relation.first == first);
            let Counts { base_blocks, blocks, kinds, .. } = segment.expect("a segment").counts;
            (base_blocks, blocks, kinds.empty, kinds.patch, kinds.full)
        };
        assert_eq!(counts("base/1/11"), (4, 4, 2, 1, 1));
        assert_eq!(counts("base/1/12"), (3, 6, 2, 1, 3));
        assert_eq!(counts("base/1/13"), (5, 2, 2, 0, 0));
        assert_eq!(counts("base/1/14"), (0, 2, 0, 0, 2));
        assert_eq!(counts("base/1/16"), (2, 0, 0, 0, 0));
        must_come_back(&place);
    }

    /// Blocks of every kind at noon become blocks of every other in the evening, and segments grow, shrink,
    /// are emptied and come in between.
    #[test]
    fn a_folder_comes_back_after_a_noon() {
        let place = Place::new("noon");
        folders(&place);
        place.put("noon/base/1/11", &pages(6, &[(0, 20), (1, 300), (2, 300), (3, 20), (5, 300)]));
        place.put("noon/base/1/12", &pages(2, &[(0, 300), (1, 20)]));
        place.put("noon/base/1/13_vm", &pages(5, &[(1, 20), (4, 300)]));
        place.put("noon/base/1/14.1", &[]);
        place.put("noon/base/1/16", &pages(2, &[(0, 300), (1, 20)]));
        let stored = place.store(true).expect("stored");
        let stored_as = |first: &str| {
            let segment = stored.segments.iter().find(|segment| segment.relation.first == first);
            let StoredSegment { counts, day, .. } = segment.expect("a stored segment");
            let kinds = counts.kinds;
            (day.writes, [kinds.empty, kinds.patch, kinds.full], day.cut, day.highest)
        };
        let cut = |at, before, after| Some(Cut { at, before, after });
        assert_eq!(stored_as("base/1/11"), (6 + 4, [2, 1, 1], cut(4, 6, 4), 4));
        assert_eq!(stored_as("base/1/12"), (2 + 6, [2, 1, 3], None, 6));
        // Two pages in the evening, both as in the base: the highest block is not the file's length.
        assert_eq!(stored_as("base/1/13"), (5 + 2, [2, 0, 0], cut(2, 5, 2), 0));
        assert_eq!(stored_as("base/1/14"), (2, [0, 0, 2], None, 2));
        assert_eq!(stored_as("base/1/16"), (2, [0, 0, 0], cut(0, 2, 0), 0));
        must_come_back(&place);
    }

    /// What each segment would take is known before anything is kept, and what is stored is held against
    /// it: a page that changes in between is noticed. Then there is no manifest.
    #[test]
    fn what_is_decided_is_stored() {
        let place = Place::new("decided");
        folders(&place);
        place.put("noon/base/1/11", &pages(6, &[(0, 20), (1, 300), (2, 300), (3, 20), (5, 300)]));
        let (base, noon, changed) = (place.at("base"), place.at("noon"), place.at("new"));
        let folders = Folders { base: &base, noon: Some(&noon), changed: &changed };
        let mut progress = Progress::quiet();
        let sums = base_sums(&base, &mut progress).expect("sums");
        let decided = folders.decide(&mut progress).expect("decided");
        let of = |first: &str| {
            let segment = decided.iter().find(|segment| segment.relation.first == first);
            let Decided { noon, evening } = segment.expect("a changed segment").decided;
            [noon, evening].map(|file| {
                (file.kinds.empty, file.kinds.patch, file.kinds.full, file.pages, file.base_blocks)
            })
        };
        assert_eq!(decided.len(), 5);
        assert_eq!(of("base/1/11"), [(0, 2, 4, 6, 4), (2, 1, 1, 4, 4)]);
        assert_eq!(of("base/1/12"), [(0, 0, 0, 0, 3), (2, 1, 3, 6, 3)]);
        assert_eq!(of("base/1/13"), [(0, 0, 0, 0, 5), (2, 0, 0, 0, 5)]);
        assert_eq!(of("base/1/14"), [(0, 0, 0, 0, 0), (0, 0, 2, 2, 0)]);
        assert_eq!(of("base/1/16"), [(0, 0, 0, 0, 2), (0, 0, 0, 0, 2)]);
        assert!(!place.at("kept").exists());

        place.put("new/base/1/11", &pages(4, &[(1, 20), (2, 20), (3, 300)]));
        let again = folders.decide(&mut progress).expect("decided");
        let mut refused = |decided, kept: &str| {
            let stored = store(folders, sums.clone(), decided, &place.at(kept), &mut progress);
            assert!(!place.at(kept).join("manifest").exists());
            stored.err().expect("noticed").to_string()
        };
        let wanted = "base/1/11: decided was Kinds { empty: 2, patch: 1, full: 1 }, \
             stored was Kinds { empty: 1, patch: 2, full: 1 }: ";
        let problem = refused(decided, "kept");
        assert!(problem.starts_with(wanted), "{problem}");
        place.put("new/base/1/10", &pages(4, &[(1, 20)]));
        let problem = refused(again, "other");
        assert!(problem.starts_with("base/1/10: changed, and nothing was decided: "), "{problem}");
    }

    /// A file that comes to the base while it is stored over has no checksum.
    #[test]
    fn a_base_that_grows_meanwhile_is_noticed() {
        let place = Place::new("meanwhile");
        folders(&place);
        let (base, changed, mut progress) = (place.at("base"), place.at("new"), Progress::quiet());
        let folders = Folders { base: &base, noon: None, changed: &changed };
        let sums = base_sums(&base, &mut progress).expect("sums");
        let decided = folders.decide(&mut progress).expect("decided");
        place.put("base/more", b"more");
        let problem = store(folders, sums, decided, &place.at("kept"), &mut progress).err();
        assert!(problem.expect("noticed").to_string().contains("files came or went meanwhile"));
    }

    /// Over a base that is not there every page would be new, and at a noon that is not there none.
    #[test]
    fn a_mistyped_folder_is_refused() {
        let place = Place::new("mistyped");
        folders(&place);
        let (base, none, changed) = (place.at("base"), place.at("none"), place.at("new"));
        for (base, noon) in [(&none, None), (&base, Some(none.as_path()))] {
            let folders = Folders { base, noon, changed: &changed };
            let problem = folders.decide(&mut Progress::quiet()).err().expect("refused");
            let wanted = format!("{}: this is no folder: ", none.display());
            assert!(problem.to_string().starts_with(&wanted), "{problem}");
        }
    }

    /// Yesterday segment 11 was changed, and today it is as in the base again: stored into yesterday's
    /// folder, yesterday's pages would come back. So would a file of yesterday's in a rebuilt folder.
    #[test]
    fn yesterdays_folders_are_refused() {
        let place = Place::new("yesterday");
        folders(&place);
        place.store(false).expect("stored");
        let before = fs::read(place.at("kept/pages/base/1/11.patch")).expect("yesterday's");
        place.put("new/base/1/11", &pages(4, &[]));
        let problem = place.store(false).err().expect("refused").to_string();
        let wanted = format!("{}: the folder is not empty: ", place.at("kept").display());
        assert!(problem.starts_with(&wanted), "{problem}");
        assert_eq!(fs::read(place.at("kept/pages/base/1/11.patch")).expect("as it was"), before);

        place.put("again/base/1/15", &pages(2, &[]));
        assert!(place.rebuild(&place.at("again")).is_err());
        assert!(!place.at("again/base/1/11").exists());
        // A folder that is there, and has nothing in it, will do.
        fs::create_dir_all(place.at("empty")).expect("a folder");
        assert_eq!(place.rebuild(&place.at("empty")).expect("rebuilt"), 0);
        assert!(place.at("empty/base/1/11").exists());
    }
}
