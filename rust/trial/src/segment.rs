//! One segment of a relation: its pages stored over its base, in memory, and saved.

use std::fs::{File, OpenOptions};
use std::io::{self, Seek, SeekFrom, Write};
use std::os::unix::fs::MetadataExt;
use std::path::Path;

use thonxiliko::{
    build, carry_out_mapped, compare, cut_mapped, format, full_area_len, highest, map_len,
    patch_area_len, read_mapped, Kind, Stores, MAX_BLOCKS, PAGE_SIZE, PATCH_HEADER_SIZE,
    PAYLOAD_SIZE, SLOT_SIZE,
};

use crate::decided::{Decided, Files, Kinds};
use crate::folder::Pages;
use crate::problem::{At, Outcome, Problem};
use crate::progress::Progress;

/// Both areas of one segment, in memory, and the map kept beside them.
///
/// A read by a map that missed a write can give the page of before, and by one that missed a cut a page
/// of zeros, so nothing here can make it miss one: it begins as zeros beside fresh areas; the one way to
/// write and the one way to cut lend it; and it is never saved, since a file could be older than the
/// areas.
pub struct Areas {
    patch: Vec<u8>,
    full: Vec<u8>,
    map: Vec<u8>,
}

/// A cut, made because the segment's file had become shorter.
#[derive(Clone, Copy, Debug, PartialEq, Eq)]
pub struct Cut {
    /// The first block that was dropped, which is the number of blocks that the file had left.
    pub at: u64,
    /// One more than the highest block of which anything was kept, before the cut and after it.
    pub before: u64,
    pub after: u64,
}

/// What was done to a segment's areas in the course of the day.
#[derive(Clone, Copy, Debug, Default, PartialEq, Eq)]
pub struct Day {
    /// Writes, each with the map: at noon and in the evening.
    pub writes: u64,
    /// The cut, with the map, between noon and evening.
    pub cut: Option<Cut>,
    /// One more than the highest block of which anything is kept in the evening.
    pub highest: u64,
}

/// What was stored of a segment, or would be.
#[derive(Clone, Copy, Debug, Default, PartialEq, Eq)]
pub struct Counts {
    pub blocks: u64,
    pub base_blocks: u64,
    pub kinds: Kinds,
    /// Bytes that both area files take on disk.
    pub kept: u64,
}

impl Counts {
    pub fn add(&mut self, other: &Counts) {
        self.blocks += other.blocks;
        self.base_blocks += other.base_blocks;
        self.kinds.add(&other.kinds);
        self.kept += other.kept;
    }

    /// What the changed blocks would take as whole pages.
    pub fn whole_pages(&self) -> u64 {
        (self.kinds.patch + self.kinds.full) * PAGE_SIZE as u64
    }
}

impl Areas {
    fn fresh(blocks: u64, pages: u64) -> Outcome<Areas> {
        let full = if pages == 0 { 0 } else { full_area_len(pages) };
        let mut areas = Areas {
            patch: vec![0; patch_area_len(blocks)],
            full: vec![0; full],
            map: vec![0; map_len(blocks)],
        };
        format(&mut areas.patch, &mut areas.full)?;
        Ok(areas)
    }

    pub fn blocks(&self) -> u64 {
        ((self.patch.len() - PATCH_HEADER_SIZE) / SLOT_SIZE) as u64
    }

    /// The map that Build makes of the areas, which it checks.
    fn built_map(&self) -> Outcome<Vec<u8>> {
        let mut map = vec![0; map_len(self.blocks())];
        build(&self.patch, &self.full, &mut map)?;
        Ok(map)
    }

    /// Writes both areas to files with holes. Gives the bytes they take on disk.
    pub fn save(&self, patch: &Path, full: &Path) -> Outcome<u64> {
        let mut kept = save_with_holes(&self.patch, patch)?;
        if !self.full.is_empty() {
            kept += save_with_holes(&self.full, full)?;
        }
        Ok(kept)
    }

    /// Stores every page of the changed file over its base; before that, where there is a file of noon,
    /// the pages that it had then. Each is read back by the map at once. Where the file had more pages
    /// at noon, they are cut. In the end the areas are as long as the changed file wants them. Each file
    /// must take what was decided of it before.
    pub fn store(
        files: Files<'_>,
        decided: &Decided,
        progress: &mut Progress,
    ) -> Outcome<(Areas, Day)> {
        let (noon, evening) = (&decided.noon, &decided.evening);
        let (noon_blocks, blocks) = (noon.kinds.blocks(), evening.kinds.blocks());
        let most = blocks.max(noon_blocks);
        if most > MAX_BLOCKS {
            let problem =
                format!("{most} blocks are more than a segment has: see whether it is one");
            return Err(Problem::not_done(problem));
        }
        let mut areas = Areas::fresh(most, noon.pages.max(evening.pages))?;
        let mut day = Day::default();
        if let Some(file) = files.noon {
            as_decided(areas.write_all(files.base, file, |_| ())?, noon.kinds)?;
            day.writes += noon_blocks;
        }
        if blocks < noon_blocks {
            day.cut = Some(areas.cut(blocks)?);
        }
        let stored = areas.write_all(files.base, files.changed, |_| progress.block())?;
        as_decided(stored, evening.kinds)?;
        day.writes += blocks;
        areas.check_kept_map()?;
        day.highest = areas.shorten(blocks)?;
        areas.check_kept_map()?;
        Ok((areas, day))
    }

    /// Drops the blocks that a file has no more. No cut goes without the map.
    fn cut(&mut self, blocks: u64) -> Outcome<Cut> {
        let before = highest(&self.patch)?;
        cut_mapped(&mut self.patch, &mut self.full, &mut self.map, blocks)?;
        let after = highest(&self.patch)?;
        if after > blocks {
            return Err(mistake(format!("block {} is kept after a cut at {blocks}", after - 1)));
        }
        self.check_kept_map()?;
        Ok(Cut { at: blocks, before, after })
    }

    /// Gives back what the areas and the map have past a number of blocks, if nothing is kept there, and
    /// says up to where anything is. A cut leaves the buffers as long as they are; they are ours to
    /// shorten.
    fn shorten(&mut self, blocks: u64) -> Outcome<u64> {
        let highest = highest(&self.patch)?;
        if highest > blocks {
            return Err(mistake(format!("block {} is kept past {blocks}", highest - 1)));
        }
        self.patch.truncate(patch_area_len(blocks));
        self.full.truncate(full_area_len(blocks));
        self.map.truncate(map_len(blocks));
        Ok(highest)
    }

    /// Writes the pages of a file and reads each by the map. Gives the kinds that were stored.
    fn write_all(
        &mut self,
        base: &Path,
        from: &Path,
        mut written: impl FnMut(u64),
    ) -> Outcome<Kinds> {
        let (mut base, mut from) = (Pages::open(base)?, Pages::open(from)?);
        let (mut base_page, mut page) = (Vec::new(), Vec::new());
        let mut again = vec![0; PAGE_SIZE];
        let mut kinds = Kinds::default();
        for block in 0..from.count {
            base.next_page(&mut base_page)?;
            from.next_page(&mut page)?;
            kinds.count(self.write(block, &base_page, &page)?);
            self.read(block, &base_page, &mut again)?;
            if again != page {
                return Err(mistake(format!("block {block} reads wrongly after its write")));
            }
            written(block);
        }
        Ok(kinds)
    }

    /// Writes one block: what Compare decides is carried out. No write goes without the map.
    fn write(&mut self, block: u64, base: &[u8], page: &[u8]) -> Outcome<Kind> {
        let Areas { patch, full, map } = self;
        compare(base, page, &mut [0; PAYLOAD_SIZE])
            .and_then(|decision| carry_out_mapped(patch, full, map, block, &decision, Stores::All))
            .map(|written| written.kind)
            .map_err(|refusal| Problem::from(refusal).of_block(block))
    }

    /// The map that was lent to every write and every cut is the one that Build makes.
    fn check_kept_map(&self) -> Outcome<()> {
        if self.map != self.built_map()? {
            return Err(mistake("the map that was kept is not the one that Build makes"));
        }
        Ok(())
    }

    /// Reads one block by the map. A refusal is told with the block and, where its payload breaks, the
    /// offset.
    fn read(&self, block: u64, base: &[u8], page: &mut [u8]) -> Outcome<Kind> {
        read_mapped(&self.patch, &self.full, &self.map, block, base, page)
            .map_err(|refusal| Problem::from(refusal).of_block(block))
    }
}

/// The blocks of a file took what was decided, and told, before.
fn as_decided(stored: Kinds, decided: Kinds) -> Outcome<()> {
    if stored != decided {
        let problem =
            format!("decided was {decided:?}, stored was {stored:?}: {CHANGED_MEANWHILE}");
        return Err(Problem::fault(problem));
    }
    Ok(())
}

/// What to do where two looks at a file did not see the same.
pub const CHANGED_MEANWHILE: &str =
    "the file was changed meanwhile; stop the server, and store into a new folder";

/// What cannot be, unless this program or the memory is wrong.
pub fn mistake(what: impl std::fmt::Display) -> Problem {
    Problem::fault(format!("{what}: do not use what was stored, and report it"))
}

/// Leaves out stretches of zeros, so that they take no room on disk. Gives the bytes they take there.
fn save_with_holes(bytes: &[u8], path: &Path) -> Outcome<u64> {
    let file = OpenOptions::new().write(true).create_new(true).open(path).at(path)?;
    write_with_holes(bytes, &file).at(path)?;
    // Some file systems settle the room only then.
    file.sync_all().at(path)?;
    Ok(file.metadata().at(path)?.blocks() * 512)
}

fn write_with_holes(bytes: &[u8], mut file: &File) -> io::Result<()> {
    const STRETCH: usize = 4096;
    for (number, stretch) in bytes.chunks(STRETCH).enumerate() {
        if stretch.iter().any(|byte| *byte != 0) {
            file.seek(SeekFrom::Start((number * STRETCH) as u64))?;
            file.write_all(stretch)?;
        }
    }
    file.set_len(bytes.len() as u64)
}

#[cfg(test)]
mod tests {
    use super::*;

    /// Five blocks, a patch in block 1 and a full page in block 3.
    fn areas() -> Areas {
        let mut areas = Areas::fresh(5, 4).expect("fresh areas");
        let mut small = vec![0; PAGE_SIZE];
        small[9] = 1;
        assert_eq!(areas.write(1, &[], &small).expect("written"), Kind::Patch);
        assert_eq!(areas.write(3, &[], &[7; PAGE_SIZE]).expect("written"), Kind::Full);
        areas
    }

    #[test]
    fn the_map_is_kept_with_every_write() {
        let mut areas = areas();
        assert_eq!(areas.map, [0b01_00_10_00, 0]);
        assert_eq!(areas.write(3, &[], &[0; PAGE_SIZE]).expect("written"), Kind::Empty);
        let refused = areas.write(4, &[], &[7; PAGE_SIZE]).expect_err("no place").to_string();
        let wanted = "block 4: refused 8: the full area has no place for the block: ";
        assert!(refused.starts_with(wanted), "{refused}");
        // A page that is none: nothing is decided, so nothing is carried out.
        let refused = areas.write(1, &[], &[0; 100]).expect_err("no page").to_string();
        let wanted = "block 1: refused 1: a page has a wrong length: ";
        assert!(refused.starts_with(wanted), "{refused}");
        assert_eq!(areas.map, [0b00_00_10_00, 0]);
        assert!(areas.check_kept_map().is_ok());
    }

    /// Blocks from 2 on are dropped, the map's pairs with them, and can be written again. Only what
    /// nothing is kept of can be given back.
    #[test]
    fn the_map_is_kept_with_every_cut() {
        let mut areas = areas();
        assert_eq!(areas.cut(2).expect("cut"), Cut { at: 2, before: 4, after: 2 });
        assert_eq!(areas.map, [0b00_00_10_00, 0]);
        let mut page = vec![1; PAGE_SIZE];
        assert_eq!(areas.read(3, &[5; PAGE_SIZE], &mut page).expect("read"), Kind::Empty);
        assert_eq!(page, [5; PAGE_SIZE]);
        areas.write(2, &[], &[7; PAGE_SIZE]).expect("written");
        assert_eq!(areas.map, [0b00_01_10_00, 0]);
        assert!(areas.shorten(2).is_err());
        assert_eq!(areas.shorten(3).expect("shortened"), 3);
        assert_eq!((areas.blocks(), areas.full.len()), (3, full_area_len(3)));
        assert_eq!(areas.map, [0b00_01_10_00]);
        assert!(areas.check_kept_map().is_ok());
        assert!(areas.cut(4).is_err());
        assert_eq!(areas.cut(0).expect("cut"), Cut { at: 0, before: 3, after: 0 });
        assert_eq!(areas.map, [0]);
    }

    /// What a map that missed a write would give, and that it would be noticed.
    #[test]
    fn a_map_that_missed_a_write_is_noticed() {
        let mut areas = areas();
        areas.map.fill(0);
        let mut page = vec![1; PAGE_SIZE];
        assert_eq!(areas.read(3, &[], &mut page).expect("read"), Kind::Empty);
        assert_eq!(page, [0; PAGE_SIZE]);
        let problem = areas.check_kept_map().expect_err("noticed").to_string();
        let wanted = "the map that was kept is not the one that Build makes: ";
        assert!(problem.starts_with(wanted), "{problem}");
    }
}
