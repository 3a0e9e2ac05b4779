//! What a kept folder holds, in figures. Checksums are not looked at: that is `check`.

use std::collections::BTreeMap;
use std::fs;
use std::os::unix::fs::MetadataExt;
use std::path::Path;

use thonxiliko::PAGE_SIZE;

use crate::check::{build_fault, report};
use crate::decided::Kinds;
use crate::kept::Kept;
use crate::manifest::Segment;
use crate::problem::{At, Outcome};
use crate::spelled::spelled;
use crate::sums::FileSum;
use crate::table::{size, thousands};

/// What is there of a segment.
struct Figures {
    kinds: Kinds,
    places: Option<u64>,
    /// Of both area files: their bytes, and what they take on disk.
    bytes: u64,
    on_disk: u64,
}

impl Figures {
    fn of(kept: &Kept, path: &Path, segment: &Segment) -> Outcome<Figures> {
        let held = kept.held(path)?;
        held.must_have_lengths_of(segment)?;
        let map = held.map().map_err(|refusal| build_fault(refusal, path, segment))?;
        let tally = held.tally(&map).at(path)?;
        let empty = held.blocks() - tally.patch - tally.full;
        let kinds = Kinds { empty, patch: tally.patch, full: tally.full };
        let (patch, full) = kept.area_paths(path);
        let mut figures = Figures { kinds, places: held.places(), bytes: 0, on_disk: 0 };
        for area in [Some(patch), held.places().map(|_| full)].into_iter().flatten() {
            let found = fs::metadata(&area).at(&area)?;
            figures.bytes += found.len();
            figures.on_disk += found.blocks() * 512;
        }
        Ok(figures)
    }
}

fn state(live: bool) -> &'static str {
    if live {
        "live"
    } else {
        "closed"
    }
}

fn or_none(places: Option<u64>) -> String {
    places.map_or("-".to_string(), thousands)
}

/// The whole store: its figures, and a line for each segment. Gives the exit status.
pub fn info(folder: &Path) -> Outcome<u8> {
    let kept = Kept::to_read(folder)?;
    let manifest = &kept.manifest;
    let total = |group: &BTreeMap<_, FileSum>| size(group.values().map(|sum| sum.length).sum());
    println!("state {}", state(manifest.is_live()));
    println!("base files {} ({})", thousands(manifest.base.len() as u64), total(&manifest.base));
    println!("whole files {} ({})", thousands(manifest.whole.len() as u64), total(&manifest.whole));
    println!("gone {}", thousands(manifest.gone.len() as u64));
    println!("segments {}", thousands(manifest.segments.len() as u64));
    println!();
    println!(
        "{:<24} {:>8} {:>8} {:>8} {:>8} {:>8} {:>11} {:>11}  state",
        "segment", "n", "m", "EMPTY", "PATCH", "full", "bytes", "on disk"
    );
    let mut problems = Vec::new();
    for (path, segment) in &manifest.segments {
        match Figures::of(&kept, path, segment) {
            Ok(figures) => print_row(path, segment, &figures),
            Err(problem) => {
                println!("{:<24} not sound; {}", spelled(path), state(segment.is_live()));
                problems.push(problem);
            }
        }
    }
    Ok(report(&problems))
}

fn print_row(path: &Path, segment: &Segment, figures: &Figures) {
    println!(
        "{:<24} {:>8} {:>8} {:>8} {:>8} {:>8} {:>11} {:>11}  {}",
        spelled(path),
        thousands(segment.blocks),
        or_none(figures.places),
        thousands(figures.kinds.empty),
        thousands(figures.kinds.patch),
        thousands(figures.kinds.full),
        size(figures.bytes),
        size(figures.on_disk),
        state(segment.is_live())
    );
}

/// One segment, in more words.
pub fn info_of(folder: &Path, path: &Path) -> Outcome<u8> {
    let kept = Kept::to_read(folder)?;
    let segment = kept.segment(path)?;
    let figures = Figures::of(&kept, path, &segment)?;
    let Kinds { empty, patch, full } = figures.kinds;
    println!("{}: {}", spelled(path), state(segment.is_live()));
    match kept.manifest.base.get(path) {
        Some(sum) => {
            println!("the base file has {} pages", thousands(sum.length / PAGE_SIZE as u64))
        }
        None => println!("the base has no such file"),
    }
    println!("n: {} blocks", thousands(segment.blocks));
    println!("m: {} places for full pages (- without a full area)", or_none(figures.places));
    println!("EMPTY: {} blocks are as in the base", thousands(empty));
    println!("PATCH: {} blocks are kept in a slot", thousands(patch));
    println!("full: {} blocks are kept as whole pages", thousands(full));
    println!("both area files: {}, on disk {}", size(figures.bytes), size(figures.on_disk));
    let (patch, full) = kept.area_paths(path);
    println!("patch area: {}", spelled(&patch));
    if figures.places.is_some() {
        println!("full area: {}", spelled(&full));
    }
    match segment.sums {
        None => println!("no checksums until `trial close`"),
        Some(sums) => {
            println!("SHA-256 of the patch area: {}", sums.patch);
            if let Some(full) = sums.full {
                println!("SHA-256 of the full area: {full}");
            }
        }
    }
    Ok(0)
}

/// Lists every block of every kept segment, each of which must be as the manifest says, and sound.
pub fn blocks(folder: &Path) -> Outcome<u8> {
    let kept = Kept::to_read(folder)?;
    for (path, segment) in &kept.manifest.segments {
        let held = kept.held_as_listed(path)?;
        held.map().map_err(|refusal| build_fault(refusal, path, segment))?;
        held.list(path).at(path)?;
    }
    Ok(0)
}
