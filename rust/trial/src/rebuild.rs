//! Makes the changed data folder again, from the base and what was kept.

use std::ffi::OsString;
use std::fs::{self, File};
use std::io::{BufWriter, Write};
use std::path::{Path, PathBuf};

use thonxiliko::PAGE_SIZE;

use crate::check;
use crate::folder::{
    copy, make_parent, make_private, must_be_empty, must_be_outside, parent_of, permit_like, sync,
    sync_tree, Pages,
};
use crate::held::Held;
use crate::kept::{changed_base, whole_path, Kept};
use crate::problem::{At, Outcome, Problem};
use crate::progress::{Progress, Unit};

/// A folder that is being made beside the one that it will be. It goes if it does not come to that.
struct Making {
    at: PathBuf,
    folder: PathBuf,
}

impl Making {
    fn beside(folder: &Path) -> Outcome<Making> {
        must_be_empty(folder)?;
        let name = folder.file_name().ok_or_else(|| {
            Problem::not_done("this is no name for a folder: give one").of(folder)
        })?;
        let mut hidden = OsString::from(".");
        hidden.push(name);
        hidden.push(format!(".trial-{}", std::process::id()));
        let at = parent_of(folder).join(hidden);
        make_private(&at)?;
        Ok(Making { at, folder: folder.into() })
    }

    /// All of it is on disk before it gets its name.
    fn finish(self) -> Outcome<()> {
        sync_tree(&self.at)?;
        fs::rename(&self.at, &self.folder).at(&self.folder)?;
        sync(parent_of(&self.folder))
    }
}

impl Drop for Making {
    fn drop(&mut self) {
        // After the renaming there is nothing by this name.
        let _ = fs::remove_dir_all(&self.at);
    }
}

/// Holds everything against the manifest, and only then makes the folder. Nothing but the base and what
/// was kept is looked at. Gives the exit status.
pub fn rebuild(base: &Path, folder: &Path, to: &Path, progress: &mut Progress) -> Outcome<u8> {
    must_be_empty(to)?;
    if fs::symlink_metadata(to).map_or(false, |found| found.is_symlink()) {
        // A folder cannot be renamed onto it.
        return Err(Problem::not_done("this is a link: give the folder itself").of(to));
    }
    must_be_outside(to, base)?;
    must_be_outside(to, folder)?;
    let kept = Kept::to_read(folder)?;
    if let Some(path) = kept.manifest.live().next() {
        let problem =
            "this segment is live, so nothing is rebuilt: `trial sweep KEPT FILE --stopped N` \
            if a write was stopped, then `trial check BASE KEPT`, then `trial close KEPT`";
        return Err(Problem::not_done(problem).of(path));
    }
    let status = check::report(&check::everything(base, &kept, progress)?);
    if status != 0 {
        eprintln!("trial: nothing was rebuilt");
        return Ok(status);
    }
    let making = Making::beside(to)?;
    make(base, &kept, &making.at, progress)?;
    making.finish()?;
    println!(
        "rebuilt {} segments over their base, copied {} files from the base and {} kept whole",
        kept.manifest.segments.len(),
        from_base(&kept).count(),
        kept.manifest.whole.len()
    );
    Ok(0)
}

/// The files that are as in the base.
fn from_base(kept: &Kept) -> impl Iterator<Item = &PathBuf> {
    let manifest = &kept.manifest;
    manifest.base.keys().filter(move |path| {
        let made = manifest.segments.contains_key(*path) || manifest.whole.contains_key(*path);
        !made && !manifest.gone.contains(*path)
    })
}

fn make(base: &Path, kept: &Kept, to: &Path, progress: &mut Progress) -> Outcome<()> {
    let manifest = &kept.manifest;
    for path in &manifest.folders {
        fs::create_dir_all(to.join(path)).at(&to.join(path))?;
    }
    for path in manifest.whole.keys() {
        copy(&whole_path(&kept.folder, path), &to.join(path))?;
    }
    make_segments(base, kept, to, progress)?;
    copy_from_base(base, kept, to, progress)?;
    permit_folders(base, kept, to)
}

fn copy_from_base(base: &Path, kept: &Kept, to: &Path, progress: &mut Progress) -> Outcome<()> {
    let length = |path| kept.manifest.base.get(path).map_or(0, |sum| sum.length);
    progress.start("copying", Unit::Bytes, from_base(kept).map(length).sum());
    for path in from_base(kept) {
        if copy(&base.join(path), &to.join(path))? != length(path) {
            return Err(changed_base(&base.join(path)));
        }
        progress.add(length(path));
    }
    progress.done();
    Ok(())
}

fn make_segments(base: &Path, kept: &Kept, to: &Path, progress: &mut Progress) -> Outcome<()> {
    let manifest = &kept.manifest;
    let blocks = manifest.segments.values().map(|segment| segment.blocks).sum();
    progress.start("rebuilding", Unit::Blocks, blocks);
    for path in manifest.segments.keys() {
        make_segment(base, kept, path, &to.join(path), progress).at(path)?;
    }
    progress.done();
    Ok(())
}

fn make_segment(
    base: &Path,
    kept: &Kept,
    path: &Path,
    to: &Path,
    progress: &mut Progress,
) -> Outcome<()> {
    let from = base.join(path);
    make_parent(to)?;
    let mut file = BufWriter::with_capacity(1 << 20, File::create(to).at(to)?);
    let pages = Pages::open(&from)?;
    if pages.count != kept.base_pages(path) {
        return Err(changed_base(&from));
    }
    write_pages(&kept.held(path)?, pages, |page| file.write_all(page).at(to), progress)?;
    file.flush().at(to)?;
    let model = if from.exists() { from } else { base.join("PG_VERSION") };
    if model.exists() {
        permit_like(to, &model)?;
    }
    Ok(())
}

/// Gives the pages of a segment over its base, by a map that is built of the areas.
fn write_pages(
    held: &Held,
    mut base: Pages,
    mut write: impl FnMut(&[u8]) -> Outcome<()>,
    progress: &mut Progress,
) -> Outcome<()> {
    let map = held.map()?;
    let (mut base_page, mut page) = (Vec::new(), vec![0; PAGE_SIZE]);
    for block in 0..held.blocks() {
        base.next_page(&mut base_page)?;
        held.read_mapped(&map, block, &base_page, &mut page)?;
        write(&page)?;
        progress.block();
    }
    Ok(())
}

/// The folder itself and those below it get the permissions that they have in the base. Those below come
/// first: what is in a folder that may not be written to cannot be changed.
fn permit_folders(base: &Path, kept: &Kept, to: &Path) -> Outcome<()> {
    for path in kept.manifest.folders.iter().rev() {
        let model = base.join(path);
        let model = if model.is_dir() { model } else { base.to_path_buf() };
        permit_like(&to.join(path), &model)?;
    }
    permit_like(to, base)
}

#[cfg(test)]
mod tests {
    use super::*;
    use crate::testing::{folders, Place};

    /// A folder has its name when it is finished, and goes if it is not.
    #[test]
    fn a_folder_is_there_whole_or_not_at_all() {
        let place = Place::new("making");
        let to = place.at("below/to");
        for finish in [false, true] {
            let making = Making::beside(&to).expect("a folder");
            fs::write(making.at.join("file"), b"1").expect("a file");
            let at = making.at.clone();
            if finish {
                making.finish().expect("renamed");
            } else {
                drop(making);
            }
            assert_eq!((at.exists(), to.join("file").exists()), (false, finish));
        }
        assert!(Making::beside(&to).is_err());
    }

    /// A base file that goes or is cut after the check is not taken for zeros.
    #[test]
    fn a_base_that_changes_after_the_check_is_noticed() {
        for (number, file) in ["base/1/11", "PG_VERSION"].iter().enumerate() {
            let place = Place::new(&format!("after-{number}"));
            folders(&place);
            place.store(false).expect("stored");
            let (base, to) = (place.at("base"), place.at("to"));
            let kept = Kept::to_read(&place.at("kept")).expect("kept");
            fs::create_dir(&to).expect("a folder");
            fs::write(base.join(file), b"").expect("cut");
            let problem = make(&base, &kept, &to, &mut Progress::quiet()).expect_err("noticed");
            let wanted =
                format!("{}: the base file was changed meanwhile", base.join(file).display());
            assert!(problem.to_string().contains(&wanted), "{problem}");
        }
    }
}
