//! Areas in sparse files that are mapped into memory. A place that is zero already is not written to, so
//! that Format, small changes, cuts and sweeps leave the holes of the files as they are.
//!
//! Holes are made by whoever makes the file. The library sees bytes and no files: it fills holes only
//! where it has something to store, and it never punches one. A place that is cleared is zeros on disk.

use std::fs::{self, File, OpenOptions};
use std::io::{self, Write};
use std::os::unix::fs::MetadataExt;
use std::path::{Path, PathBuf};

use differential::arena::Mapping;
use thonxiliko::{
    build, carry_out, compare, cut, cut_mapped, format, full_area_len, highest, map_len,
    patch_area_len, read, sweep, Kind, Stores, FULL_HEADER_SIZE, PAGE_SIZE, PATCH_HEADER_SIZE,
    PAYLOAD_SIZE,
};

/// n and m: 4 MiB of slots and 64 MiB of places.
const BLOCKS: u64 = 8_192;
/// What a few blocks of a file system take at most. A header and a page are much less, an area whose
/// holes are filled is much more.
const FEW: u64 = 128 * 1024;

/// A folder of its own for each test, removed in the end.
struct Folder(PathBuf);

impl Folder {
    fn new(test: &str) -> Folder {
        let path = std::env::temp_dir().join(format!("thonxiliko-{}-{test}", std::process::id()));
        fs::create_dir_all(&path).expect("a folder for temporary files");
        Folder(path)
    }
}

impl Drop for Folder {
    fn drop(&mut self) {
        // What is left behind is no reason to fail.
        let _ = fs::remove_dir_all(&self.0);
    }
}

/// A file of one hole, mapped.
struct Sparse {
    file: File,
    mapping: Mapping,
}

impl Sparse {
    fn new(path: &Path, length: usize) -> Sparse {
        let mut options = OpenOptions::new();
        let file = options.read(true).write(true).create_new(true).open(path).expect("a new file");
        file.set_len(length as u64).expect("a length");
        let mapping = Mapping::of_file(&file, length);
        Sparse { file, mapping }
    }

    fn bytes(&mut self) -> &mut [u8] {
        self.mapping.bytes()
    }

    /// Bytes that it takes on disk. Some file systems settle that only when all is written out.
    fn taken(&self) -> u64 {
        self.file.sync_all().expect("a file on disk");
        self.file.metadata().expect("an open file").blocks() * 512
    }
}

/// Both areas in files of holes.
struct Areas {
    patch: Sparse,
    full: Sparse,
    _folder: Folder,
}

impl Areas {
    /// None, and a word on it that is not held back, where the file system does not tell holes.
    fn new(test: &str) -> Option<Areas> {
        let folder = Folder::new(test);
        if let Some(reason) = no_holes(&folder.0.join("probe")) {
            // Not by a macro: what those print is shown for failed tests only.
            let _ =
                writeln!(io::stderr(), "SKIPPED  {test}: {reason}; TMPDIR names another folder");
            return None;
        }
        let patch = Sparse::new(&folder.0.join("patch"), patch_area_len(BLOCKS));
        let full = Sparse::new(&folder.0.join("full"), full_area_len(BLOCKS));
        Some(Areas { patch, full, _folder: folder })
    }

    /// Sound headers, put there without Format; all else is holes, as fresh areas may be.
    fn with_headers(test: &str) -> Option<Areas> {
        let mut areas = Areas::new(test)?;
        let mut patch = [0; PATCH_HEADER_SIZE];
        let mut full = [0; FULL_HEADER_SIZE];
        format(&mut patch, &mut full).expect("sound lengths");
        areas.patch.bytes()[..PATCH_HEADER_SIZE].copy_from_slice(&patch);
        areas.full.bytes()[..FULL_HEADER_SIZE].copy_from_slice(&full);
        Some(areas)
    }

    fn format(&mut self) {
        format(self.patch.bytes(), self.full.bytes()).expect("sound lengths");
    }

    /// Writes a page over a base of zeros: Compare decides, and that is carried out.
    fn write(&mut self, block: u64, page: &[u8]) -> Kind {
        self.write_told(Stores::All, block, page)
    }

    /// The same, told so many stores.
    fn write_told(&mut self, stores: Stores, block: u64, page: &[u8]) -> Kind {
        let mut payload = [0; PAYLOAD_SIZE];
        let decision = compare(&[], page, &mut payload).expect("a sound page");
        let (patch, full) = (self.patch.bytes(), self.full.bytes());
        carry_out(patch, full, block, &decision, stores).expect("a sound store").kind
    }

    fn sweep(&mut self) {
        sweep(self.patch.bytes(), self.full.bytes()).expect("a sound store");
    }

    fn cut(&mut self, k: u64) {
        cut(self.patch.bytes(), self.full.bytes(), k).expect("a sound store");
    }

    fn highest(&mut self) -> u64 {
        highest(self.patch.bytes()).expect("a sound store")
    }

    /// Bytes on disk of both areas.
    fn taken(&self) -> [u64; 2] {
        [self.patch.taken(), self.full.taken()]
    }

    fn read(&mut self, block: u64) -> Vec<u8> {
        let mut page = vec![0xAB; PAGE_SIZE];
        read(self.patch.bytes(), self.full.bytes(), block, &[], &mut page).expect("a sound store");
        page
    }

    fn build(&mut self) {
        let mut map = vec![0; map_len(BLOCKS)];
        build(self.patch.bytes(), self.full.bytes(), &mut map).expect("a sound store");
    }
}

/// Why room on disk cannot be measured here, if so: a hole that is read, and one byte that is written in
/// its midst, must take a few blocks and not the whole file.
fn no_holes(probe: &Path) -> Option<String> {
    const LENGTH: usize = 8 << 20;
    let mut file = Sparse::new(probe, LENGTH);
    let before = file.taken();
    assert!(file.bytes().iter().all(|byte| *byte == 0));
    let looked_at = file.taken();
    file.bytes()[LENGTH / 2] = 1;
    let after = file.taken();
    (before > FEW || looked_at > FEW || after > FEW || after == before).then(|| {
        format!(
            "the file system gives a file of {LENGTH} bytes {before} when it is new, \
             {looked_at} once it was read and {after} with one byte written"
        )
    })
}

fn one_byte(byte: u8) -> Vec<u8> {
    let mut page = vec![0; PAGE_SIZE];
    page[100] = byte;
    page
}

fn hold_few(what: &str, taken: u64) {
    assert!(taken <= FEW, "{what}: {} KiB on disk, {} at most", taken / 1024, FEW / 1024);
}

#[test]
fn format_takes_room_for_the_headers_alone() {
    let mut areas = match Areas::new("format") {
        Some(areas) => areas,
        None => return,
    };
    areas.format();
    // The headers are there: a Format that does nothing takes no room either.
    areas.build();
    hold_few("the full area after Format", areas.full.taken());
    hold_few("the patch area after Format", areas.patch.taken());
}

#[test]
fn patch_writes_take_no_room_in_the_full_area() {
    let mut areas = match Areas::with_headers("patch") {
        Some(areas) => areas,
        None => return,
    };
    let before = areas.full.taken();
    for block in 0..BLOCKS {
        assert_eq!(areas.write(block, &one_byte(1)), Kind::Patch);
    }
    let after = areas.full.taken();
    assert_eq!(areas.read(BLOCKS - 1), one_byte(1));
    areas.build();
    // Every slot is in use, so that the patch area has no hole left.
    assert!(areas.patch.taken() >= patch_area_len(BLOCKS) as u64);
    assert_eq!(before, after, "bytes on disk before and after {BLOCKS} PATCH writes");
}

#[test]
fn a_full_page_takes_its_own_room_and_keeps_it() {
    let mut areas = match Areas::with_headers("full") {
        Some(areas) => areas,
        None => return,
    };
    let before = areas.full.taken();
    assert_eq!(areas.write(BLOCKS / 2, &[9; PAGE_SIZE]), Kind::Full);
    let with_page = areas.full.taken();
    assert!(with_page >= before + PAGE_SIZE as u64, "a page is on disk");
    hold_few("the full area with one page", with_page);

    // EMPTY over it: its place is zeros, written as bytes. The library punches no hole: the room stays
    // taken, unless the file system makes holes of zeros by itself.
    assert_eq!(areas.write(BLOCKS / 2, &[0; PAGE_SIZE]), Kind::Empty);
    assert_eq!(areas.read(BLOCKS / 2), [0; PAGE_SIZE]);
    areas.build();
    assert!(areas.full.taken() <= with_page);
}

/// Format clears what is there, wherever it is, and fills no hole but what shares a few blocks with it.
#[test]
fn format_clears_used_places_and_leaves_holes() {
    let mut areas = match Areas::with_headers("again") {
        Some(areas) => areas,
        None => return,
    };
    for block in [0, BLOCKS / 2, BLOCKS - 1] {
        assert_eq!(areas.write(block, &[9; PAGE_SIZE]), Kind::Full);
    }
    // A byte by itself at the end of a place that no slot refers to.
    areas.full.bytes()[full_area_len(BLOCKS / 4) - 1] = 1;
    areas.format();
    areas.build();
    assert!(areas.full.bytes()[FULL_HEADER_SIZE..].iter().all(|byte| *byte == 0));
    assert!(areas.patch.bytes()[PATCH_HEADER_SIZE..].iter().all(|byte| *byte == 0));
    hold_few("the full area after Format", areas.full.taken());
    hold_few("the patch area after Format", areas.patch.taken());
}

/// A cut of areas that hold nothing, at every place and with a map, fills no hole; nor does looking for
/// the highest block.
#[test]
fn a_cut_of_holes_takes_no_room() {
    let mut areas = match Areas::with_headers("cut-holes") {
        Some(areas) => areas,
        None => return,
    };
    let before = areas.taken();
    for k in [BLOCKS, BLOCKS / 2, 1, 0] {
        areas.cut(k);
    }
    let mut map = vec![0xFF; map_len(BLOCKS)];
    cut_mapped(areas.patch.bytes(), areas.full.bytes(), &mut map, 0).expect("a sound store");
    // It did its work: a cut that does nothing takes no room either.
    assert!(map.iter().all(|byte| *byte == 0));
    assert_eq!(areas.highest(), 0);
    assert_eq!(areas.taken(), before, "bytes on disk before and after the cuts");
}

/// A cut clears what is there, wherever it is, and fills no hole but what shares a few blocks with it.
#[test]
fn a_cut_clears_used_places_and_leaves_holes() {
    let mut areas = match Areas::with_headers("cut-used") {
        Some(areas) => areas,
        None => return,
    };
    for block in [0, BLOCKS / 2, BLOCKS - 1] {
        assert_eq!(areas.write(block, &[9; PAGE_SIZE]), Kind::Full);
    }
    assert_eq!(areas.write(BLOCKS / 8, &one_byte(1)), Kind::Patch);
    // A byte by itself at the end of a place that no slot refers to.
    areas.full.bytes()[full_area_len(BLOCKS / 4) - 1] = 1;
    areas.cut(1);
    areas.build();
    assert_eq!(areas.highest(), 1);
    assert_eq!(areas.read(0), [9; PAGE_SIZE]);
    assert!(areas.full.bytes()[full_area_len(1)..].iter().all(|byte| *byte == 0));
    assert!(areas.patch.bytes()[patch_area_len(1)..].iter().all(|byte| *byte == 0));
    hold_few("the full area after the cut", areas.full.taken());
    hold_few("the patch area after the cut", areas.patch.taken());
}

/// A sweep of areas that hold nothing, or pages in use alone, fills no hole.
#[test]
fn a_sweep_of_holes_takes_no_room() {
    let mut areas = match Areas::with_headers("sweep-holes") {
        Some(areas) => areas,
        None => return,
    };
    let before = areas.taken();
    areas.sweep();
    assert_eq!(areas.taken(), before, "bytes on disk before and after the sweep");
    for block in [0, BLOCKS - 1] {
        assert_eq!(areas.write(block, &[9; PAGE_SIZE]), Kind::Full);
    }
    let before = areas.taken();
    areas.sweep();
    assert_eq!(areas.read(BLOCKS - 1), [9; PAGE_SIZE]);
    assert_eq!(areas.taken(), before, "bytes on disk before and after the second sweep");
}

/// A sweep clears the pages that stops have left, wherever they are, and fills no hole but what shares a
/// few blocks with them. The pages in use stay.
#[test]
fn a_sweep_clears_stray_pages_and_leaves_holes() {
    let mut areas = match Areas::with_headers("sweep-used") {
        Some(areas) => areas,
        None => return,
    };
    for block in [0, BLOCKS / 2, BLOCKS - 1] {
        assert_eq!(areas.write(block, &[9; PAGE_SIZE]), Kind::Full);
    }
    // One page loses its reference, another has none yet.
    assert_eq!(areas.write_told(Stores::One, BLOCKS / 2, &one_byte(1)), Kind::Patch);
    assert_eq!(areas.write_told(Stores::One, BLOCKS / 4, &[8; PAGE_SIZE]), Kind::Full);
    let place = |block: u64| full_area_len(block)..full_area_len(block + 1);
    assert_eq!(areas.full.bytes()[place(BLOCKS / 4)], [8; PAGE_SIZE]);
    areas.sweep();
    areas.build();
    for block in [BLOCKS / 4, BLOCKS / 2] {
        assert_eq!(areas.full.bytes()[place(block)], [0; PAGE_SIZE], "block {block}");
    }
    for block in [0, BLOCKS - 1] {
        assert_eq!(areas.read(block), [9; PAGE_SIZE], "block {block}");
    }
    hold_few("the full area after the sweep", areas.full.taken());
    hold_few("the patch area after the sweep", areas.patch.taken());
}
