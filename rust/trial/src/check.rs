//! Holds a base and a kept folder against the manifest: all of it, whatever is at fault.

use std::collections::BTreeSet;
use std::path::{Path, PathBuf};

use thonxiliko::{full_area_len, patch_area_len, BuildRefusal};

use crate::folder::{must_be_folder, Listing};
use crate::kept::{area_paths, beyond_base, whole_path, Kept};
use crate::manifest::{Segment, NAME, NEW_NAME};
use crate::problem::{Outcome, Problem, Sort, NOT_AS_CLOSED};
use crate::progress::{Progress, Unit};
use crate::spelled::spelled;

/// All problems that are found. None of them ends the search.
pub fn everything(base: &Path, kept: &Kept, progress: &mut Progress) -> Outcome<Vec<Problem>> {
    must_be_folder(base)?;
    progress.start("checking", Unit::Bytes, bytes_to_check(kept));
    let mut problems = base_problems(base, kept, progress);
    for (path, segment) in &kept.manifest.segments {
        problems.extend(segment_problems(kept, path, segment, progress));
    }
    for (path, sum) in &kept.manifest.whole {
        let file = whole_path(&kept.folder, path);
        problems.extend(sum.check(&file, "the file that was kept whole", progress).err());
    }
    problems.extend(unknown_files(kept));
    progress.done();
    Ok(problems)
}

/// Prints each problem and their number. Gives the exit status.
pub fn report(problems: &[Problem]) -> u8 {
    for problem in problems {
        eprintln!("trial: {problem}");
    }
    let faults = problems.iter().filter(|problem| problem.sort == Sort::Fault).count();
    match (problems.len(), faults) {
        (0, _) => 0,
        (all, 0) => {
            eprintln!("trial: could not be checked: {all}; no faults found in the rest");
            2
        }
        (all, _) => {
            eprintln!("trial: faults found: {all}");
            1
        }
    }
}

fn bytes_to_check(kept: &Kept) -> u64 {
    let manifest = &kept.manifest;
    let files = manifest.base.values().chain(manifest.whole.values()).map(|sum| sum.length);
    let areas = manifest.segments.values().filter(|segment| !segment.is_live()).map(|segment| {
        let full = segment.places.map_or(0, full_area_len);
        (patch_area_len(segment.blocks) + full) as u64
    });
    files.chain(areas).sum()
}

/// Every file of the base is there as it was, and none beyond.
fn base_problems(base: &Path, kept: &Kept, progress: &mut Progress) -> Vec<Problem> {
    let sums = &kept.manifest.base;
    let checks =
        sums.iter().map(|(path, sum)| sum.check(&base.join(path), "the base file", progress));
    let mut problems: Vec<Problem> = checks.filter_map(Result::err).collect();
    match Listing::with_others(base) {
        Ok(listing) => {
            let found = listing.files.union(&listing.others);
            let beyond = found.filter(|path| !sums.contains_key(*path));
            problems.extend(beyond.map(|path| beyond_base(&base.join(path))));
        }
        Err(problem) => problems.push(problem),
    }
    problems
}

/// The areas of one segment: as listed, and sound.
pub fn segment_problems(
    kept: &Kept,
    path: &Path,
    segment: &Segment,
    progress: &mut Progress,
) -> Vec<Problem> {
    let held = match kept.held(path) {
        Ok(held) => held,
        Err(problem) => return vec![problem],
    };
    let mut problems = held.faults(segment, progress);
    // Where a file or a length is wrong, Build has nothing to add.
    if held.must_have_lengths_of(segment).is_ok() {
        problems.extend(held.map().err().map(|refusal| build_fault(refusal, path, segment)));
    }
    problems
}

/// What Build found. Of a closed segment it says nothing about a stop: no write was under way.
pub fn build_fault(refusal: BuildRefusal, path: &Path, segment: &Segment) -> Problem {
    if segment.is_live() {
        return Problem::from(refusal).of(path);
    }
    Problem::fault(format!("{refusal}: {NOT_AS_CLOSED}")).of(path)
}

/// What is in the kept folder and not in the manifest.
fn unknown_files(kept: &Kept) -> Vec<Problem> {
    let listing = match Listing::with_others(&kept.folder) {
        Ok(listing) => listing,
        Err(problem) => return vec![problem],
    };
    let known = known_files(kept);
    let unknown = listing.files.iter().filter(|path| !known.contains(*path));
    let mut problems: Vec<Problem> = unknown.map(|path| unknown_file(kept, path)).collect();
    problems.extend(listing.others.iter().map(|path| unknown_file(kept, path)));
    problems
}

fn unknown_file(kept: &Kept, path: &Path) -> Problem {
    let what = if path == Path::new(NEW_NAME) {
        "left where writing the manifest was stopped: take it away"
    } else {
        "the manifest names no such file: take it away, or restore the folder from a copy"
    };
    Problem::fault(what).of(&kept.folder.join(path))
}

/// The files that may be in the kept folder, by their paths in it.
fn known_files(kept: &Kept) -> BTreeSet<PathBuf> {
    let here = Path::new("");
    let mut known = BTreeSet::from([PathBuf::from(NAME)]);
    known.extend(kept.manifest.whole.keys().map(|path| whole_path(here, path)));
    for path in kept.manifest.segments.keys() {
        // A full area that should not be there is a fault of its segment.
        let (patch, full) = area_paths(here, path);
        known.extend([patch, full]);
    }
    known
}

/// The verb: lists all faults, and says which segments are live.
pub fn check(base: &Path, folder: &Path, progress: &mut Progress) -> Outcome<u8> {
    let kept = Kept::to_read(folder)?;
    let problems = everything(base, &kept, progress)?;
    let manifest = &kept.manifest;
    for path in manifest.live() {
        println!("{}: live, without a checksum until `trial close`", spelled(path));
    }
    let status = report(&problems);
    if status == 0 {
        println!(
            "{} files of the base, {} segments and {} files kept whole are as the manifest says; \
             Build accepts every segment; no faults found",
            manifest.base.len(),
            manifest.segments.len(),
            manifest.whole.len()
        );
        if manifest.is_live() {
            println!("{} of the segments are live", manifest.live().count());
        }
    }
    Ok(status)
}
