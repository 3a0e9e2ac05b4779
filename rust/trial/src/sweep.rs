//! Clears up after a write that was stopped, and after nothing else.

use std::path::Path;

use thonxiliko::{Refusal, PAGE_SIZE};

use crate::areas::AreaFiles;
use crate::check::build_fault;
use crate::held::Held;
use crate::kept::Kept;
use crate::manifest::Segment;
use crate::problem::{At, Outcome, Problem, STOP_OR_LOSS};
use crate::spelled::spelled;

/// Sweeps one kept segment to which so many writes were stopped. The others are left alone: a stray page
/// there may be one whose slot was lost.
pub fn sweep(folder: &Path, path: &Path, stopped: Option<u64>) -> Outcome<()> {
    let kept = Kept::to_write(folder)?;
    let segment = kept.segment(path)?;
    let held = kept.held_as_listed(path)?;
    if !segment.is_live() {
        // No write was under way, and the areas are those that were closed.
        println!("{}: closed, and as it was closed; nothing to sweep", spelled(path));
        return Ok(());
    }
    let strays = stray_blocks(&held, path, &segment)?;
    drop(held);
    must_be_told(&strays, path, stopped)?;
    AreaFiles::open(&kept.area_paths(path))?.sweep().at(path)?;
    kept.held(path)?.map().map_err(|refusal| build_fault(refusal, path, &segment))?;
    for block in &strays {
        println!("{}, block {block}: a page without a slot, removed", spelled(path));
    }
    println!("{}: swept, pages removed: {}; Build accepts it", spelled(path), strays.len());
    Ok(())
}

/// The blocks whose place holds something though their slots do not refer to it. Any other fault is an
/// error.
fn stray_blocks(held: &Held, path: &Path, segment: &Segment) -> Outcome<Vec<u64>> {
    match held.map() {
        Ok(_) => return Ok(Vec::new()),
        Err(fault) if fault.refusal == Refusal::StrayPage => {}
        Err(fault) => return Err(build_fault(fault, path, segment)),
    }
    let mut stray = Vec::new();
    let mut page = vec![0; PAGE_SIZE];
    for block in 0..held.blocks() {
        // Build stops at the first stray page: what is at fault behind it shows here.
        let kind = held.read(block, &[], &mut page).at(path)?;
        if held.is_stray(block, kind) {
            stray.push(block);
        }
    }
    Ok(stray)
}

/// A stopped write leaves one stray page at most. Whatever is more than that has lost its slot, and so may
/// all of it have, if no stop is known.
fn must_be_told(strays: &[u64], path: &Path, stopped: Option<u64>) -> Outcome<()> {
    let found = strays.len() as u64;
    if found <= stopped.unwrap_or(0) {
        return Ok(());
    }
    for block in strays {
        println!("{}, block {block}: its page would be removed", spelled(path));
    }
    Err(match stopped {
        None => Problem::not_done(format!(
            "nothing was swept: say by --stopped N how many writes to this file were stopped; {found} \
             blocks have a page and no slot that refers to it, and {STOP_OR_LOSS}"
        )),
        Some(stopped) => Problem::fault(format!(
            "nothing was swept: {found} blocks have a page and no slot that refers to it, and {stopped} \
             stopped writes leave no more than {stopped}; a slot may be lost: restore both area files \
             from a copy"
        )),
    }
    .of(path))
}

#[cfg(test)]
mod tests {
    use super::*;
    use std::fs;
    use std::path::PathBuf;

    use thonxiliko::{
        compare, format, full_area_len, patch_area_len, Stores, PATCH_HEADER_SIZE, PAYLOAD_SIZE,
        SLOT_SIZE,
    };

    use crate::block::Block;
    use crate::kept::area_paths;
    use crate::manifest::Manifest;
    use crate::testing::Place;

    const FILE: &str = "base/1/11";

    /// A live store of one segment without a base file: four blocks and three places.
    struct Live(Place);

    impl Live {
        fn new(name: &str) -> Live {
            let place = Place::new(name);
            fs::create_dir_all(place.at("base")).expect("a folder");
            let mut patch = vec![0; patch_area_len(4)];
            let mut full = vec![0; full_area_len(3)];
            format(&mut patch, &mut full).expect("sound lengths");
            place.put("kept/pages/base/1/11.patch", &patch);
            place.put("kept/pages/base/1/11.full", &full);
            let mut manifest = Manifest::default();
            let segment = Segment { blocks: 4, places: Some(3), sums: None };
            manifest.segments.insert(FILE.into(), segment);
            manifest.save(&place.at("kept")).expect("saved");
            Live(place)
        }

        fn kept(&self) -> PathBuf {
            self.0.at("kept")
        }

        fn paths(&self) -> (PathBuf, PathBuf) {
            area_paths(&self.kept(), Path::new(FILE))
        }

        /// Writes a page over a base of zeros, told so many stores.
        fn write_told(&self, block: u64, page: &[u8], stores: Stores) {
            let mut payload = [0; PAYLOAD_SIZE];
            let decision = compare(&[], page, &mut payload).expect("a page");
            let mut files = AreaFiles::open(&self.paths()).expect("area files");
            files.carry_out(block, &decision, stores).expect("a sound store");
        }

        fn write_safely(&self, block: u64, page: &[u8]) {
            let mut payload = [0; PAYLOAD_SIZE];
            let decision = compare(&[], page, &mut payload).expect("a page");
            let mut files = AreaFiles::open(&self.paths()).expect("area files");
            files.write_safely(block, &decision).expect("a sound store");
        }

        fn sweep(&self, stopped: Option<u64>) -> Outcome<()> {
            sweep(&self.kept(), Path::new(FILE), stopped)
        }

        fn refused_sweep(&self) -> String {
            self.sweep(Some(9)).expect_err("refused").to_string()
        }

        fn is_sound(&self) -> bool {
            Held::open(&self.paths()).expect("area files").map().is_ok()
        }

        /// The bytes of both files.
        fn bytes(&self) -> (Vec<u8>, Vec<u8>) {
            let (patch, full) = self.paths();
            (fs::read(patch).expect("a file"), fs::read(full).expect("a file"))
        }

        /// Changes one byte of the patch area.
        fn damage(&self, at: usize, to: u8) {
            let (patch, _) = self.paths();
            let mut bytes = fs::read(&patch).expect("a file");
            bytes[at] = to;
            fs::write(&patch, bytes).expect("a file");
        }
    }

    const SEVENS: [u8; PAGE_SIZE] = [7; PAGE_SIZE];

    fn small() -> [u8; PAGE_SIZE] {
        let mut page = [0; PAGE_SIZE];
        page[9] = 1;
        page
    }

    #[test]
    fn a_safe_write_is_the_whole_write() {
        let (safe, plain) = (Live::new("safe"), Live::new("plain"));
        for (block, page) in [(0, SEVENS), (1, small()), (0, small()), (3, small())] {
            safe.write_safely(block, &page);
            plain.write_told(block, &page, Stores::All);
            assert!(safe.bytes() == plain.bytes(), "block {block}");
        }
        assert!(safe.is_sound());
    }

    /// A full page that becomes a patch, and a full page in the place of nothing, both stopped after their
    /// first store: one is there after the sweep and the other is not. Told of one stop, or of none,
    /// nothing is swept.
    #[test]
    fn a_stopped_write_is_swept() {
        let (tripped, wanted) = (Live::new("tripped"), Live::new("wanted"));
        tripped.write_safely(0, &SEVENS);
        tripped.write_told(0, &small(), Stores::One);
        tripped.write_told(2, &SEVENS, Stores::One);
        wanted.write_safely(0, &small());

        assert!(!tripped.is_sound());
        let before = tripped.bytes();
        for (told, status) in [(None, 2), (Some(0), 1), (Some(1), 1)] {
            let problem = tripped.sweep(told).expect_err("two pages");
            assert_eq!(problem.status(), status, "{problem}");
            assert!(tripped.bytes() == before && before != wanted.bytes());
        }
        tripped.sweep(Some(2)).expect("swept");
        assert!(tripped.bytes() == wanted.bytes() && tripped.is_sound());
        tripped.sweep(Some(0)).expect("swept");
        assert!(tripped.bytes() == wanted.bytes());
    }

    /// What cannot be swept is left, and the tool says why.
    #[test]
    fn an_unsound_store_is_not_swept() {
        let kept = Live::new("unsound");
        kept.write_told(1, &SEVENS, Stores::One);
        kept.damage(PATCH_HEADER_SIZE + 3 * SLOT_SIZE, 2); // it has no place
        let (before, problem) = (kept.bytes(), kept.refused_sweep());
        let wanted = "base/1/11: block 3: refused 8: the full area has no place for the block: ";
        assert!(problem.starts_with(wanted), "{problem}");
        assert!(kept.bytes() == before);
    }

    /// A payload that is not sound is no matter to the library's sweep. Here nothing is swept then, be it
    /// before the stray page, where Build sees it, or behind it.
    #[test]
    fn an_unsound_payload_keeps_from_sweeping() {
        for (block, wanted) in [
            (0, "base/1/11: refused 7: the payload is not sound (block 0, offset 2): "),
            (2, "base/1/11: block 2: refused 7: the payload is not sound (offset 2): "),
        ] {
            let kept = Live::new("payload");
            kept.write_told(1, &SEVENS, Stores::One);
            kept.write_safely(block, &small());
            // A jump too many behind its one entry, of three bytes.
            kept.damage(PATCH_HEADER_SIZE + SLOT_SIZE * block as usize + 2, 3);
            let (before, problem) = (kept.bytes(), kept.refused_sweep());
            assert!(problem.starts_with(wanted), "{problem}");
            assert!(kept.bytes() == before);
        }
    }

    /// Only the named segment is swept: elsewhere no stop is known, and the page may have lost its slot.
    #[test]
    fn other_segments_are_not_swept() {
        let kept = Live::new("others");
        kept.write_told(1, &SEVENS, Stores::One);
        let (patch, full) = kept.paths();
        let other = area_paths(&kept.kept(), Path::new("base/1/12"));
        fs::copy(patch, &other.0).expect("copied");
        fs::copy(full, &other.1).expect("copied");
        let before = fs::read(&other.1).expect("a file");
        kept.sweep(Some(1)).expect("swept");
        assert!(kept.is_sound());
        assert!(fs::read(&other.1).expect("a file") == before);
        // The manifest does not name this one.
        let problem = sweep(&kept.kept(), Path::new("base/1/12"), Some(1)).expect_err("refused");
        assert_eq!(problem.status(), 2);
    }

    /// A mistyped name is not taken for zeros. What the base does not have is zeros, for the block's own
    /// page too, but for no other.
    #[test]
    fn a_mistyped_base_or_page_is_refused() {
        let kept = Live::new("mistyped-base");
        let (base, from, to) = (kept.0.at("base"), kept.0.at("from"), kept.0.at("to"));
        let folder = kept.kept();
        fs::write(&from, SEVENS).expect("a file");
        let block = Block { base: &base, kept: &folder, path: FILE.as_ref(), number: 1 };
        block.write(&from, 0, Stores::All).expect("written");
        let before = kept.bytes();

        for wrong in [kept.0.at("none"), from.clone()] {
            let elsewhere = Block { base: &wrong, ..block };
            let wanted = format!("{}: this is no folder: ", wrong.display());
            let written = elsewhere.write(&from, 0, Stores::All).expect_err("no base").to_string();
            assert!(written.starts_with(&wanted), "{written}");
            let read = elsewhere.read(&to).expect_err("no base").to_string();
            assert!(read.starts_with(&wanted), "{read}");
        }
        let own = base.join(FILE);
        for (file, page) in [(&kept.0.at("none"), 0), (&from, 1), (&own, 0)] {
            let problem = block.write(file, page, Stores::All).expect_err("no page").to_string();
            let wanted =
                format!("{}: the file is not there, or has no page {page}: ", file.display());
            assert!(problem.starts_with(&wanted), "{problem}");
        }
        assert!(kept.bytes() == before && !to.exists());
        block.write(&own, 1, Stores::All).expect("as in the base");
        block.read(&to).expect("read");
        assert!(fs::read(&to).expect("a page") == [0; PAGE_SIZE]);
        let past = Block { number: 4, ..block };
        assert_eq!(past.read(&to).expect_err("no block").status(), 2);
        assert_eq!(past.write(&from, 0, Stores::All).expect_err("no block").status(), 2);
    }
}
