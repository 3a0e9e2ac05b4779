//! A map that is kept: reads by it against reads by the slots, and writes with it against the same
//! writes and then Build. A page is written by the pair: Compare decides, and that is carried out.
//!
//! Blocks have pages of their own, no two alike, and are read in a shuffled order: one page again and
//! again would be known by heart. The limits touch the same memory in the same order.

use differential::rng::Rng;
use independent::ALL;
use thonxiliko::{
    full_area_len, map_len, patch_area_len, Decision, Kind, Stores, FULL_HEADER_SIZE, MAX_BLOCKS,
    PAGE_SIZE, PATCH_HEADER_SIZE, PAYLOAD_SIZE, SLOT_SIZE,
};

use crate::calls::decided_by_independent;
use crate::limits::{self, opaque};
use crate::pages::Pages;
use crate::segments;
use crate::timing::{until_stable, Contender, Effort, Times, ONCE};

/// Times are nanoseconds, per block for reads and per batch for writes.
pub struct Row {
    pub blocks: u64,
    pub work: String,
    pub times: Times,
}

pub const EFFORT: Effort = Effort { least: 20, quiet: 5, most: 100 };

/// Blocks of the store that is read.
const READ: u64 = 1_024;
/// Writes of a batch.
const BATCH: usize = 64;

/// What all slots of the limits hold, so that memcmp looks at all of each.
pub const SLOT: [u8; SLOT_SIZE] = [0x11; SLOT_SIZE];

/// A patch area for the limits.
pub fn plain_slots(blocks: u64) -> Vec<u8> {
    let mut patch = segments::fresh(blocks);
    patch[PATCH_HEADER_SIZE..].fill(SLOT[0]);
    patch
}

/// Measures library, limits and independent implementation by turns; a time is for so many pieces.
fn row(
    blocks: u64,
    work: String,
    pieces: u64,
    effort: Effort,
    mut contenders: [Contender; 3],
) -> Row {
    until_stable(effort, || {
        let [library, limits, independent] = &mut contenders;
        let better = library.sample() | limits.sample();
        independent.sample();
        better
    });
    let [library, limits, independent] = contenders.map(|contender| contender.best / pieces as f64);
    Row { blocks, work, times: Times { library, limits, independent } }
}

/// A store whose blocks all have one kind, or by turns each of the three, and the map kept by its writes.
struct Store {
    name: &'static str,
    pages: Vec<Pages>,
    kinds: Vec<Kind>,
    patch: Vec<u8>,
    full: Vec<u8>,
    map: Vec<u8>,
    plain_slots: Vec<u8>,
    /// The order in which blocks are read.
    order: Vec<u64>,
}

/// Reads a block into a page, or does what stands for it.
type ReadBlock<'r> = &'r dyn Fn(u64, &mut [u8]);

/// A page of each kind over a base of its own.
fn page_of(kind: Kind, number: u64) -> Pages {
    match kind {
        Kind::Empty => Pages::drawn_with(number, 0),
        Kind::Patch => Pages::drawn_with(number, 200),
        Kind::Full => Pages::drawn_with(number, PAGE_SIZE),
    }
}

impl Store {
    fn new(name: &'static str, blocks: u64, kind_of: fn(u64) -> Kind) -> Store {
        let pages: Vec<Pages> = (0..blocks).map(|block| page_of(kind_of(block), block)).collect();
        let mut store = Store {
            name,
            pages,
            kinds: Vec::new(),
            patch: vec![0; patch_area_len(blocks)],
            full: vec![0; full_area_len(blocks)],
            map: vec![0; map_len(blocks)],
            plain_slots: plain_slots(blocks),
            order: (0..blocks).collect(),
        };
        thonxiliko::format(&mut store.patch, &mut store.full).expect("sound lengths");
        let Store { pages, kinds, patch, full, map, .. } = &mut store;
        let mut buffer = [0; PAYLOAD_SIZE];
        for (block, Pages { base, page, .. }) in (0..).zip(pages.iter()) {
            let made = thonxiliko::compare(base, page, &mut buffer).expect("sound pages");
            let written = thonxiliko::carry_out_mapped(patch, full, map, block, &made, Stores::All);
            let written = written.expect("a sound store");
            assert_eq!(written.kind, kind_of(block));
            kinds.push(written.kind);
        }
        Rng::new(5).shuffle(&mut store.order);
        store
    }

    fn base(&self, block: u64) -> &[u8] {
        &self.pages[block as usize].base
    }

    fn place(&self, block: u64) -> &[u8] {
        &self.full[full_area_len(block)..][..PAGE_SIZE]
    }

    /// What the rules make a read touch: both headers, the slot if it is looked at, and the page.
    fn touch(&self, block: u64, slot: bool, headers: &[Vec<u8>; 2], page: &mut [u8]) {
        limits::compare(&self.plain_slots[..PATCH_HEADER_SIZE], &headers[0]);
        limits::compare(&self.full[..FULL_HEADER_SIZE], &headers[1]);
        if slot {
            limits::compare(&self.plain_slots[patch_area_len(block)..][..SLOT_SIZE], &SLOT);
        }
        match self.kinds[block as usize] {
            Kind::Full => limits::copy(page, self.place(block)),
            _ => limits::copy(page, self.base(block)),
        }
    }

    fn headers(&self) -> [Vec<u8>; 2] {
        [self.patch[..PATCH_HEADER_SIZE].to_vec(), self.full[..FULL_HEADER_SIZE].to_vec()]
    }

    /// A row of work on each block in turn, by the library, by memory functions and by plain Rust.
    fn each_block(
        &self,
        work: &str,
        effort: Effort,
        [library, limits, independent]: [ReadBlock; 3],
    ) -> Row {
        let through = |read: ReadBlock| {
            let mut page = [0; PAGE_SIZE];
            self.order.iter().for_each(|block| read(*block, &mut page));
        };
        let contenders = [
            Contender::new(move || through(library)),
            Contender::new(move || through(limits)),
            Contender::new(move || through(independent)),
        ];
        let blocks = self.order.len() as u64;
        row(blocks, format!("{work}, {}", self.name), blocks, effort, contenders)
    }

    fn read(&self, effort: Effort) -> Row {
        let Store { patch, full, .. } = self;
        let headers = self.headers();
        self.each_block(
            "read",
            effort,
            [
                &|block, page| {
                    let _ = opaque(thonxiliko::read(patch, full, block, self.base(block), page));
                },
                &|block, page| self.touch(block, true, &headers, page),
                &|block, page| {
                    opaque(independent::read(patch, full, block, self.base(block), page));
                },
            ],
        )
    }

    fn read_by_map(&self, effort: Effort) -> Row {
        let Store { patch, full, map, .. } = self;
        let headers = self.headers();
        // Only a PATCH slot is looked at.
        let looks = |block: u64| self.kinds[block as usize] == Kind::Patch;
        self.each_block(
            "read by the map",
            effort,
            [
                &|block, page| {
                    let base = self.base(block);
                    let _ = opaque(thonxiliko::read_mapped(patch, full, map, block, base, page));
                },
                &|block, page| self.touch(block, looks(block), &headers, page),
                &|block, page| {
                    let base = self.base(block);
                    opaque(independent::read_mapped(patch, full, map, block, base, page));
                },
            ],
        )
    }
}

/// A patch area with a patch in each block, and its map.
#[derive(Clone)]
struct Segment {
    patch: Vec<u8>,
    map: Vec<u8>,
}

/// Writes all over a segment without a full area, and the map afterwards.
struct Batch {
    blocks: u64,
    writes: Vec<(u64, Pages)>,
    /// Copies of their bases, for memcmp to look at all of each.
    bases: Vec<Vec<u8>>,
    segment: Segment,
}

impl Batch {
    fn new(blocks: u64) -> Batch {
        let mut segment = Segment { patch: segments::fresh(blocks), map: vec![0; map_len(blocks)] };
        let twenty = Pages::spread(20).decision();
        for block in 0..blocks {
            let Segment { patch, map } = &mut segment;
            thonxiliko::carry_out_mapped(patch, &mut [], map, block, &twenty, Stores::All)
                .expect("sound");
        }
        let mut rng = Rng::new(9);
        let write = |number: usize| {
            (rng.below(blocks as usize) as u64, Pages::drawn_with(number as u64, 200))
        };
        let writes: Vec<(u64, Pages)> = (0..BATCH).map(write).collect();
        let bases = writes.iter().map(|(_, pages)| pages.base.clone()).collect();
        Batch { blocks, writes, bases, segment }
    }

    /// The memory functions of the writes: page and base, payload into the buffer; header, payload checked,
    /// slot.
    fn touch(&self, patch: &mut [u8], header: &[u8]) {
        let mut buffer = [0; PAYLOAD_SIZE];
        for ((block, Pages { base, payload, .. }), other) in self.writes.iter().zip(&self.bases) {
            limits::compare(base, other);
            limits::copy(&mut buffer[..payload.len()], payload);
            limits::compare(&patch[..PATCH_HEADER_SIZE], header);
            limits::compare(&buffer[..payload.len()], payload);
            let at = patch_area_len(*block);
            limits::copy(&mut patch[at..at + SLOT_SIZE], &SLOT);
        }
    }

    /// Every write by the library's pair, carried out by this call.
    fn by_library(&self, mut carry_out: impl FnMut(u64, &Decision)) {
        let mut buffer = [0; PAYLOAD_SIZE];
        for (block, Pages { base, page, .. }) in &self.writes {
            let made = thonxiliko::compare(base, page, &mut buffer).expect("sound pages");
            carry_out(*block, &made);
        }
    }

    /// The same by the independent implementation; no page is stored whole.
    fn by_independent(&self, mut carry_out: impl FnMut(u64, u32, &[u8])) {
        let mut buffer = [0; PAYLOAD_SIZE];
        for (block, Pages { base, page, .. }) in &self.writes {
            let (kind, payload) = decided_by_independent(base, page, &mut buffer);
            carry_out(*block, kind, payload);
        }
    }

    fn with_map(&self, effort: Effort) -> Row {
        let [mut library, mut plain] = [self.segment.clone(), self.segment.clone()];
        let (mut limits, header) = (plain_slots(self.blocks), segments::fresh(0));
        let contenders = [
            Contender::new(|| {
                let Segment { patch, map } = &mut library;
                self.by_library(|block, made| {
                    let full = &mut [];
                    let _ = opaque(thonxiliko::carry_out_mapped(
                        patch,
                        full,
                        map,
                        block,
                        made,
                        Stores::All,
                    ));
                });
            }),
            Contender::new(|| self.touch(&mut limits, &header)),
            Contender::new(|| {
                let Segment { patch, map } = &mut plain;
                self.by_independent(|at, kind, payload| {
                    let full = &mut [];
                    opaque(independent::carry_out_mapped(
                        patch,
                        full,
                        map,
                        at,
                        kind,
                        payload,
                        &[],
                        ALL,
                    ));
                });
            }),
        ];
        let row = row(
            self.blocks,
            format!("{BATCH} writes by the pair, with the map"),
            1,
            effort,
            contenders,
        );
        // What was measured did its work.
        let mut built = vec![0; library.map.len()];
        thonxiliko::build(&library.patch, &[], &mut built).expect("a sound store");
        assert!(library.map == built && plain.map == built);
        row
    }

    fn then_build(&self, effort: Effort) -> Row {
        let [mut library, mut plain] = [self.segment.clone(), self.segment.clone()];
        let (mut limits, header) = (plain_slots(self.blocks), segments::fresh(0));
        let mut map = self.segment.map.clone();
        let contenders = [
            Contender::new(|| {
                let Segment { patch, map } = &mut library;
                self.by_library(|block, made| {
                    let _ = opaque(thonxiliko::carry_out(patch, &mut [], block, made, Stores::All));
                });
                let _ = opaque(thonxiliko::build(patch, &[], map));
            }),
            Contender::new(|| {
                self.touch(&mut limits, &header);
                limits::compare(&limits[..PATCH_HEADER_SIZE], &header);
                for slot in limits[PATCH_HEADER_SIZE..].chunks_exact(SLOT_SIZE) {
                    limits::compare(slot, &SLOT);
                }
                limits::set(&mut map, 0);
            }),
            Contender::new(|| {
                let Segment { patch, map } = &mut plain;
                self.by_independent(|at, kind, payload| {
                    opaque(independent::carry_out(patch, &mut [], at, kind, payload, &[], ALL));
                });
                opaque(independent::build(patch, &[], map));
            }),
        ];
        row(self.blocks, format!("{BATCH} writes by the pair, then Build"), 1, effort, contenders)
    }
}

fn in_turn(block: u64) -> Kind {
    [Kind::Empty, Kind::Patch, Kind::Full][(block % 3) as usize]
}

pub fn read_rows(once: bool) -> Vec<Row> {
    let (effort, blocks) = if once { (ONCE, 64) } else { (EFFORT, READ) };
    let mut rows = Vec::new();
    for (name, kind_of) in [
        ("EMPTY", (|_| Kind::Empty) as fn(u64) -> Kind),
        ("PATCH of 1 to 200", |_| Kind::Patch),
        ("FULL_REF", |_| Kind::Full),
        ("the three by turns", in_turn),
    ] {
        let store = Store::new(name, blocks, kind_of);
        rows.extend([store.read(effort), store.read_by_map(effort)]);
    }
    rows
}

pub fn write_rows(once: bool) -> Vec<Row> {
    let mut rows = Vec::new();
    for (blocks, effort) in [(64, EFFORT), (1_024, EFFORT), (MAX_BLOCKS, segments::EFFORT)] {
        if once && blocks > 1_024 {
            continue;
        }
        let batch = Batch::new(blocks);
        let effort = if once { ONCE } else { effort };
        rows.extend([batch.with_map(effort), batch.then_build(effort)]);
    }
    rows
}
