//! Both areas of a kept segment, mapped to be read, and held against what the manifest says.

use std::io;
use std::path::{Path, PathBuf};

use mapped::View;
use thonxiliko::{
    build, full_area_len, judge, map_len, patch_area_len, read, read_mapped, tally, BuildRefusal,
    Kind, Tally, FULL_HEADER_SIZE, PAGE_SIZE, PATCH_HEADER_SIZE, SLOT_SIZE,
};

use crate::manifest::{AreaSums, Segment};
use crate::problem::{At, Outcome, Problem, NOT_AS_CLOSED};
use crate::progress::Progress;
use crate::sha256::{Digest, Sha256};
use crate::spelled::spelled;

/// One area file, if it is there.
struct AreaFile {
    path: PathBuf,
    view: Option<View>,
}

impl AreaFile {
    fn open(path: &Path) -> Outcome<AreaFile> {
        let view = match View::open(path) {
            Err(error) if error.kind() == io::ErrorKind::NotFound => None,
            opened => Some(opened.at(path)?),
        };
        Ok(AreaFile { path: path.into(), view })
    }

    fn bytes(&self) -> &[u8] {
        self.view.as_ref().map_or(&[], View::bytes)
    }

    fn digest(&self, progress: &mut Progress) -> Digest {
        let mut sum = Sha256::new();
        for piece in self.bytes().chunks(1 << 20) {
            sum.take(piece);
            progress.add(piece.len() as u64);
        }
        sum.digest()
    }

    fn fault(&self, text: &str) -> Problem {
        Problem::fault(text).of(&self.path)
    }

    /// The file must be there with so many bytes.
    fn must_have(&self, bytes: usize) -> Outcome<()> {
        match &self.view {
            None => Err(self.fault("the area file is not there: restore both from a copy")),
            Some(view) if view.bytes().len() != bytes => Err(self.fault(&format!(
                "the area file has {} bytes and must have {bytes}: restore both from a copy",
                view.bytes().len()
            ))),
            Some(_) => Ok(()),
        }
    }
}

/// Both area files of a segment, as far as they are there.
pub struct Held {
    patch: AreaFile,
    full: AreaFile,
}

impl Held {
    pub fn open((patch, full): &(PathBuf, PathBuf)) -> Outcome<Held> {
        Ok(Held { patch: AreaFile::open(patch)?, full: AreaFile::open(full)? })
    }

    pub fn patch(&self) -> &[u8] {
        self.patch.bytes()
    }

    pub fn full(&self) -> &[u8] {
        self.full.bytes()
    }

    pub fn blocks(&self) -> u64 {
        (self.patch().len().saturating_sub(PATCH_HEADER_SIZE) / SLOT_SIZE) as u64
    }

    /// The places of the full area; none where it is absent.
    pub fn places(&self) -> Option<u64> {
        let pages = self.full().len().saturating_sub(FULL_HEADER_SIZE) / PAGE_SIZE;
        self.full.view.as_ref().map(|_| pages as u64)
    }

    /// How many bytes both files have.
    pub fn bytes(&self) -> u64 {
        (self.patch().len() + self.full().len()) as u64
    }

    /// What is not as the manifest says: files, lengths and, where the segment is closed, checksums.
    pub fn faults(&self, segment: &Segment, progress: &mut Progress) -> Vec<Problem> {
        let mut faults = self.length_faults(segment);
        if let (true, Some(sums)) = (faults.is_empty(), segment.sums) {
            let found = self.sums(progress);
            let other = |file: &AreaFile| {
                file.fault(&format!("the SHA-256 is not the manifest's: {NOT_AS_CLOSED}"))
            };
            faults.extend((found.patch != sums.patch).then(|| other(&self.patch)));
            faults.extend((found.full != sums.full).then(|| other(&self.full)));
        }
        faults
    }

    /// The first file that is not there or has a wrong length is an error.
    pub fn must_have_lengths_of(&self, segment: &Segment) -> Outcome<()> {
        self.length_faults(segment).into_iter().next().map_or(Ok(()), Err)
    }

    fn length_faults(&self, segment: &Segment) -> Vec<Problem> {
        let patch = self.patch.must_have(patch_area_len(segment.blocks));
        // The full area of a live segment may have grown.
        let places = match (segment.is_live(), self.places()) {
            (true, Some(found)) => Some(found.clamp(segment.places.unwrap_or(0), segment.blocks)),
            _ => segment.places,
        };
        let full = match places {
            Some(places) => self.full.must_have(full_area_len(places)),
            None if self.full.view.is_some() => {
                let text = "the manifest names no full area for this segment: restore both area \
                    files from a copy";
                Err(self.full.fault(text))
            }
            None => Ok(()),
        };
        [patch, full].into_iter().filter_map(Result::err).collect()
    }

    pub fn sums(&self, progress: &mut Progress) -> AreaSums {
        let patch = self.patch.digest(progress);
        AreaSums { patch, full: self.full.view.is_some().then(|| self.full.digest(progress)) }
    }

    /// The map that Build makes, which checks every block.
    pub fn map(&self) -> Result<Vec<u8>, BuildRefusal> {
        let mut map = vec![0; map_len(self.blocks())];
        build(self.patch(), self.full(), &mut map)?;
        Ok(map)
    }

    pub fn tally(&self, map: &[u8]) -> Outcome<Tally> {
        Ok(tally(map, self.blocks())?)
    }

    /// Reads one block by its slot.
    pub fn read(&self, block: u64, base: &[u8], page: &mut [u8]) -> Outcome<Kind> {
        read(self.patch(), self.full(), block, base, page)
            .map_err(|refusal| of_block(refusal, block))
    }

    /// Reads one block by the map that was made of these areas.
    pub fn read_mapped(
        &self,
        map: &[u8],
        block: u64,
        base: &[u8],
        page: &mut [u8],
    ) -> Outcome<Kind> {
        read_mapped(self.patch(), self.full(), map, block, base, page)
            .map_err(|refusal| of_block(refusal, block))
    }

    /// The kind of a block below n.
    pub fn kind(&self, block: u64) -> Outcome<Kind> {
        let start = PATCH_HEADER_SIZE + SLOT_SIZE * block as usize;
        let judged = judge(&self.patch()[start..start + SLOT_SIZE]);
        judged.map(|slot| slot.kind).map_err(|refusal| of_block(refusal, block))
    }

    /// The bytes of a block's place in the full area, if it has one.
    pub fn place(&self, block: u64) -> Option<&[u8]> {
        let start = FULL_HEADER_SIZE + PAGE_SIZE * block as usize;
        self.full().get(start..start + PAGE_SIZE)
    }

    /// Whether a block's place holds something though its slot, which is of this kind, does not refer to it.
    pub fn is_stray(&self, block: u64, kind: Kind) -> bool {
        let place = self.place(block).unwrap_or(&[]);
        kind != Kind::Full && place.iter().any(|byte| *byte != 0)
    }

    /// Lists every block: its file, its number, its kind, and whether it has a place in the full area.
    pub fn list(&self, path: &Path) -> Outcome<()> {
        let name = spelled(path);
        for block in 0..self.blocks() {
            let kind = match self.kind(block)? {
                Kind::Empty => "EMPTY",
                Kind::Patch => "PATCH",
                Kind::Full => "full",
            };
            let place = if self.place(block).is_some() { "place" } else { "-" };
            println!("{name} {block} {kind} {place}");
        }
        Ok(())
    }
}

/// A refusal, told with its block and with what to do.
fn of_block(refusal: impl Into<Problem>, block: u64) -> Problem {
    refusal.into().of_block(block)
}
