//! Whole segments: every block written by the pair of calls, read and built, for growing n. The area does
//! not fit the caches any more, and that is so for the memory functions too.

use differential::arena::Mapping;
use independent::ALL;
use thonxiliko::{
    full_area_len, map_len, patch_area_len, Stores, FULL_HEADER_SIZE, MAX_BLOCKS, PAGE_SIZE,
    PATCH_HEADER_SIZE, PAYLOAD_SIZE, SLOT_SIZE,
};

use crate::calls::decided_by_independent;
use crate::limits::{self, opaque};
use crate::pages::Pages;
use crate::timing::{until_stable, Contender, Effort, Times};

/// Times are nanoseconds per block.
pub struct Row {
    pub blocks: u64,
    pub work: &'static str,
    pub times: Times,
}

pub const EFFORT: Effort = Effort { least: 5, quiet: 3, most: 15 };

pub fn fresh(blocks: u64) -> Vec<u8> {
    let mut patch = vec![0; patch_area_len(blocks)];
    thonxiliko::format(&mut patch, &mut []).expect("a sound length");
    patch
}

/// A patch area for each contender; all blocks get the same page. The full area is absent.
struct Segment {
    blocks: u64,
    effort: Effort,
    pages: Pages,
    /// Copies of the base and of a header, for the memory functions to compare them with.
    base: Vec<u8>,
    header: [Vec<u8>; 2],
    slot: [u8; SLOT_SIZE],
    library: Vec<u8>,
    limits: Vec<u8>,
    independent: Vec<u8>,
}

impl Segment {
    fn new(blocks: u64, effort: Effort) -> Segment {
        let pages = Pages::spread(20);
        Segment {
            blocks,
            effort,
            base: pages.base.clone(),
            pages,
            header: [fresh(0), fresh(0)],
            slot: [0x11; SLOT_SIZE],
            library: fresh(blocks),
            limits: fresh(blocks),
            independent: fresh(blocks),
        }
    }

    fn written(&mut self) -> Row {
        let Segment { blocks, effort, pages, header, slot, .. } = self;
        let (page, base, other) = (&pages.page, &pages.base, &self.base);
        let payload = &pages.payload;
        let (library, limits, plain) = (&mut self.library, &mut self.limits, &mut self.independent);
        let [mut first, mut second, mut third] = [[0; PAYLOAD_SIZE]; 3];
        let contenders = [
            Contender::new(|| {
                for block in 0..*blocks {
                    let made = thonxiliko::compare(base, page, &mut first).expect("sound pages");
                    let all = Stores::All;
                    let _ = opaque(thonxiliko::carry_out(library, &mut [], block, &made, all));
                }
            }),
            Contender::new(|| {
                for to in limits[PATCH_HEADER_SIZE..].chunks_exact_mut(SLOT_SIZE) {
                    limits::compare(base, other);
                    limits::copy(&mut second[..payload.len()], payload);
                    limits::compare(&header[0], &header[1]);
                    limits::compare(&second[..payload.len()], payload);
                    limits::copy(to, slot);
                }
            }),
            Contender::new(|| {
                for block in 0..*blocks {
                    let (kind, own) = decided_by_independent(base, page, &mut third);
                    opaque(independent::carry_out(plain, &mut [], block, kind, own, page, ALL));
                }
            }),
        ];
        row(*blocks, "written by the pair", *effort, contenders)
    }

    fn read(&self) -> Row {
        let Segment { blocks, effort, pages, header, slot, .. } = self;
        let (mut page, mut copy, mut third) = ([0; PAGE_SIZE], [0; PAGE_SIZE], [0; PAGE_SIZE]);
        let (library, limits, plain) = (&self.library, &self.limits, &self.independent);
        let contenders = [
            Contender::new(|| {
                for block in 0..*blocks {
                    let _ = opaque(thonxiliko::read(library, &[], block, &pages.base, &mut page));
                }
            }),
            Contender::new(|| {
                for from in limits[PATCH_HEADER_SIZE..].chunks_exact(SLOT_SIZE) {
                    limits::compare(&header[0], &header[1]);
                    limits::compare(from, slot);
                    limits::copy(&mut copy, &pages.base);
                }
            }),
            Contender::new(|| {
                for block in 0..*blocks {
                    opaque(independent::read(plain, &[], block, &pages.base, &mut third));
                }
            }),
        ];
        row(*blocks, "read", *effort, contenders)
    }

    fn built(&self) -> Row {
        let Segment { blocks, effort, header, slot, .. } = self;
        let mut map = vec![0; map_len(*blocks)];
        let (mut cleared, mut third) = (map.clone(), map.clone());
        let contenders = [
            Contender::new(|| {
                let _ = opaque(thonxiliko::build(&self.library, &[], &mut map));
            }),
            Contender::new(|| {
                limits::compare(&header[0], &header[1]);
                for from in self.limits[PATCH_HEADER_SIZE..].chunks_exact(SLOT_SIZE) {
                    limits::compare(from, slot);
                }
                limits::set(&mut cleared, 0);
            }),
            Contender::new(|| {
                opaque(independent::build(&self.independent, &[], &mut third));
            }),
        ];
        row(*blocks, "built", *effort, contenders)
    }
}

/// Measures library, limits and independent implementation by turns.
fn row(blocks: u64, work: &'static str, effort: Effort, mut contenders: [Contender; 3]) -> Row {
    until_stable(effort, || {
        let [library, limits, independent] = &mut contenders;
        let better = library.sample() | limits.sample();
        independent.sample();
        better
    });
    let [library, limits, independent] = contenders.map(|contender| contender.best / blocks as f64);
    Row { blocks, work, times: Times { library, limits, independent } }
}

/// Build of a segment whose full area has a place for each block and holds no page: 1 GiB of zeros,
/// which take no room.
fn empty_places(blocks: u64, effort: Effort) -> Row {
    let mut full = Mapping::new(full_area_len(blocks));
    let full = full.bytes();
    let mut patch = fresh(blocks);
    thonxiliko::format(&mut patch[..PATCH_HEADER_SIZE], &mut full[..FULL_HEADER_SIZE])
        .expect("sound lengths");
    let (header, slot, zeros) = (fresh(0), [0; SLOT_SIZE], [0; PAGE_SIZE]);
    let mut map = vec![0; map_len(blocks)];
    let mut third = map.clone();
    let contenders = [
        Contender::new(|| {
            let _ = opaque(thonxiliko::build(&patch, full, &mut map));
        }),
        Contender::new(|| {
            limits::compare(&patch[..PATCH_HEADER_SIZE], &header);
            for from in patch[PATCH_HEADER_SIZE..].chunks_exact(SLOT_SIZE) {
                limits::compare(from, &slot);
            }
            for place in full[FULL_HEADER_SIZE..].chunks_exact(PAGE_SIZE) {
                limits::compare(place, &zeros);
            }
        }),
        Contender::new(|| {
            opaque(independent::build(&patch, full, &mut third));
        }),
    ];
    row(blocks, "built, EMPTY, m = n", effort, contenders)
}

pub fn rows(effort: Effort, most_blocks: u64) -> Vec<Row> {
    let mut rows = Vec::new();
    for blocks in [1_024, 8_192, 65_536, MAX_BLOCKS] {
        if blocks <= most_blocks {
            let mut segment = Segment::new(blocks, effort);
            rows.extend([segment.written(), segment.read(), segment.built()]);
        }
    }
    rows.push(empty_places(most_blocks, effort));
    rows
}
