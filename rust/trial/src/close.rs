//! Closes a live store: its checksums are taken, and from then on must fit.

use std::path::Path;

use crate::check::{report, segment_problems};
use crate::folder::sync;
use crate::kept::Kept;
use crate::manifest::Segment;
use crate::problem::Outcome;
use crate::progress::{Progress, Unit};
use crate::spelled::spelled;

/// Runs Build on every live segment. If all are sound, the manifest gets their checksums; else nothing
/// changes. Gives the exit status.
pub fn close(folder: &Path, progress: &mut Progress) -> Outcome<u8> {
    let mut kept = Kept::to_write(folder)?;
    let mut problems = Vec::new();
    for path in kept.manifest.live() {
        problems.extend(segment_problems(&kept, path, &kept.segment(path)?, progress));
    }
    let status = report(&problems);
    if status != 0 {
        eprintln!("trial: nothing was closed");
        return Ok(status);
    }
    let live: Vec<_> = kept.manifest.live().cloned().collect();
    let mut bytes = 0;
    for path in &live {
        bytes += kept.held(path)?.bytes();
    }
    progress.start("checksums", Unit::Bytes, bytes);
    for path in &live {
        let segment = closed(&kept, path, progress)?;
        println!("{}: closed", spelled(path));
        kept.manifest.segments.insert(path.clone(), segment);
    }
    progress.done();
    if !live.is_empty() {
        kept.manifest.save(folder)?;
    }
    println!("{} segments closed; the store is closed", live.len());
    Ok(0)
}

/// A live segment with the sums of its areas, which are on disk before they are in the manifest.
fn closed(kept: &Kept, path: &Path, progress: &mut Progress) -> Outcome<Segment> {
    let held = kept.held(path)?;
    let (patch, full) = kept.area_paths(path);
    sync(&patch)?;
    if held.places().is_some() {
        sync(&full)?;
    }
    let sums = Some(held.sums(progress));
    Ok(Segment { blocks: held.blocks(), places: held.places(), sums })
}
