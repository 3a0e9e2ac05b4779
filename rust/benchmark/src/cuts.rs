//! A table cut short, and the highest block, in the largest areas. Times are nanoseconds per block that
//! is cut or looked at.
//!
//! A cut leaves nothing to cut, so its areas are made anew each time; only the cut is timed. What it takes
//! depends on what the memory held. The limits are both headers compared, and memset over the slots,
//! places and pairs that it drops; where those are zeros already, memcmp with zeros once more.

use differential::arena::Mapping;
use differential::rng::Rng;
use thonxiliko::{
    full_area_len, map_len, patch_area_len, Kind, FULL_HEADER_SIZE, PAGE_SIZE, PATCH_HEADER_SIZE,
    PAYLOAD_SIZE, SLOT_SIZE,
};

use crate::limits::{self, opaque};
use crate::maps::{plain_slots, SLOT};
use crate::segments::{self, Row};
use crate::timing::{until_stable, Contender, Effort, Times};

pub const EFFORT: Effort = Effort { least: 4, quiet: 3, most: 10 };
/// Pages that places are filled from; no two neighbours are alike.
pub const PAGES: usize = 61;

/// The kind of each block.
pub type KindOf = fn(u64) -> Kind;

/// No two stretches of blocks have the same kinds.
pub fn drawn(block: u64) -> Kind {
    [Kind::Empty, Kind::Patch, Kind::Full][Rng::for_case(17, "kind", block).below(3)]
}

/// A slot of this kind. Payloads are drawn, and each has a length of its own; no call here looks at their
/// entries.
fn put_slot(slot: &mut [u8], kind: Kind, block: u64) {
    slot[0] = kind.number() as u8;
    if kind == Kind::Patch {
        let mut rng = Rng::for_case(17, "payload", block);
        let length = rng.between(1, PAYLOAD_SIZE);
        slot[1] = 1;
        slot[2..4].copy_from_slice(&(length as u16).to_le_bytes());
        rng.fill(&mut slot[8..8 + length]);
    }
}

/// A patch area with these slots.
pub fn patch_of(blocks: u64, kind_of: KindOf) -> Vec<u8> {
    let mut patch = segments::fresh(blocks);
    let slots = patch[PATCH_HEADER_SIZE..].chunks_exact_mut(SLOT_SIZE);
    slots.zip(0..).for_each(|(slot, block)| put_slot(slot, kind_of(block), block));
    patch
}

/// What the areas hold before they are cut.
#[derive(Clone, Copy)]
enum Before {
    /// Zeros that were never written.
    New,
    /// Blocks of these kinds; every byte was written once, zeros too.
    Used(KindOf),
}

/// Areas with a place for each block, and a map.
struct Areas {
    patch: Mapping,
    full: Mapping,
    map: Vec<u8>,
}

/// What areas are made from, and where they are cut.
struct Ground {
    blocks: u64,
    k: u64,
    patch: Vec<u8>,
    /// A header and pages of the full area.
    header: Vec<u8>,
    pages: Vec<u8>,
    before: Before,
    /// Zeros for memcmp, and copies of both headers.
    zeros: Vec<u8>,
    headers: [Vec<u8>; 2],
}

impl Ground {
    fn new(blocks: u64, k: u64, before: Before) -> Ground {
        let mut header = vec![0; FULL_HEADER_SIZE];
        thonxiliko::format(&mut segments::fresh(0), &mut header).expect("sound lengths");
        let patch = match before {
            Before::New => segments::fresh(0),
            Before::Used(kind_of) => patch_of(blocks, kind_of),
        };
        let headers = [segments::fresh(0), header.clone()];
        let pages = Rng::new(19).bytes(PAGES * PAGE_SIZE);
        Ground { blocks, k, patch, header, pages, before, zeros: vec![0; PAGE_SIZE], headers }
    }

    fn areas(&self) -> Areas {
        let mut patch = Mapping::new(patch_area_len(self.blocks));
        let mut full = Mapping::new(full_area_len(self.blocks));
        patch.bytes()[..self.patch.len()].copy_from_slice(&self.patch);
        full.bytes()[..FULL_HEADER_SIZE].copy_from_slice(&self.header);
        if let Before::Used(kind_of) = self.before {
            let places = full.bytes()[FULL_HEADER_SIZE..].chunks_exact_mut(PAGE_SIZE);
            for (place, block) in places.zip(0..) {
                let page = PAGE_SIZE * (block as usize % PAGES);
                match kind_of(block) {
                    Kind::Full => limits::copy(place, &self.pages[page..page + PAGE_SIZE]),
                    _ => limits::set(place, 0),
                }
            }
        }
        Areas { patch, full, map: vec![0xAA; map_len(self.blocks)] }
    }

    /// What is measured does its work.
    fn check(&self, cut: fn(&Ground, &mut Areas)) {
        let mut areas = self.areas();
        cut(self, &mut areas);
        let Areas { patch, full, .. } = &mut areas;
        let (patch, full) = (patch.bytes(), full.bytes());
        assert!(patch[patch_area_len(self.k)..].iter().all(|byte| *byte == 0));
        assert!(full[full_area_len(self.k)..].iter().all(|byte| *byte == 0));
        assert_eq!(patch[..PATCH_HEADER_SIZE], self.headers[0]);
    }

    fn check_headers(&self, areas: &mut Areas) {
        limits::compare(&areas.patch.bytes()[..PATCH_HEADER_SIZE], &self.headers[0]);
        limits::compare(&areas.full.bytes()[..FULL_HEADER_SIZE], &self.headers[1]);
    }

    fn by_memset(&self, areas: &mut Areas) {
        self.check_headers(areas);
        limits::set(&mut areas.patch.bytes()[patch_area_len(self.k)..], 0);
        limits::set(&mut areas.full.bytes()[full_area_len(self.k)..], 0);
    }

    /// With the pairs as well. K is a multiple of 4.
    fn by_memset_mapped(&self, areas: &mut Areas) {
        self.by_memset(areas);
        limits::set(&mut areas.map[map_len(self.k)..], 0);
    }

    fn by_memcmp(&self, areas: &mut Areas) {
        self.check_headers(areas);
        for slot in areas.patch.bytes()[patch_area_len(self.k)..].chunks_exact(SLOT_SIZE) {
            limits::compare(slot, &self.zeros[..SLOT_SIZE]);
        }
        for place in areas.full.bytes()[full_area_len(self.k)..].chunks_exact(PAGE_SIZE) {
            limits::compare(place, &self.zeros);
        }
    }

    /// One cut: by the library, by memory functions and by plain Rust.
    fn row(&self, work: &'static str, effort: Effort, cuts: [fn(&Ground, &mut Areas); 3]) -> Row {
        self.check(cuts[0]);
        let contenders = cuts
            .map(|cut| Contender::prepared(move || self.areas(), move |areas| cut(self, areas)));
        row(self.blocks, self.blocks - self.k, work, effort, contenders)
    }
}

fn library(ground: &Ground, areas: &mut Areas) {
    let _ = opaque(thonxiliko::cut(areas.patch.bytes(), areas.full.bytes(), ground.k));
}

fn plain(ground: &Ground, areas: &mut Areas) {
    opaque(independent::cut(areas.patch.bytes(), areas.full.bytes(), ground.k));
}

fn library_mapped(ground: &Ground, areas: &mut Areas) {
    let Areas { patch, full, map } = areas;
    let _ = opaque(thonxiliko::cut_mapped(patch.bytes(), full.bytes(), map, ground.k));
}

fn plain_mapped(ground: &Ground, areas: &mut Areas) {
    let Areas { patch, full, map } = areas;
    opaque(independent::cut_mapped(patch.bytes(), full.bytes(), map, ground.k));
}

/// Measures library, limits and independent implementation by turns; a time is for so many pieces.
pub fn row(
    blocks: u64,
    pieces: u64,
    work: &'static str,
    effort: Effort,
    mut contenders: [Contender; 3],
) -> Row {
    until_stable(effort, || {
        let [library, limits, independent] = &mut contenders;
        let better = library.sample() | limits.sample();
        independent.sample();
        better
    });
    let [library, limits, independent] = contenders.map(|contender| contender.best / pieces as f64);
    Row { blocks, work, times: Times { library, limits, independent } }
}

/// The highest block of a patch area with these slots. The limits compare the header and each slot.
fn highest(blocks: u64, work: &'static str, effort: Effort, kind_of: KindOf) -> Row {
    let patch = patch_of(blocks, kind_of);
    let (header, slots) = (segments::fresh(0), plain_slots(blocks));
    let contenders = [
        Contender::new(|| {
            let _ = opaque(thonxiliko::highest(&patch));
        }),
        Contender::new(|| {
            limits::compare(&slots[..PATCH_HEADER_SIZE], &header);
            for slot in slots[PATCH_HEADER_SIZE..].chunks_exact(SLOT_SIZE) {
                limits::compare(slot, &SLOT);
            }
        }),
        Contender::new(|| {
            opaque(independent::highest(&patch));
        }),
    ];
    row(blocks, blocks, work, effort, contenders)
}

pub fn rows(effort: Effort, blocks: u64) -> Vec<Row> {
    let empty = Before::Used(|_| Kind::Empty);
    let cut = |work, before, k, cuts| Ground::new(blocks, k, before).row(work, effort, cuts);
    let by_memset = [library, Ground::by_memset, plain];
    let mapped = [library_mapped, Ground::by_memset_mapped, plain_mapped];
    vec![
        cut("cut at 0, new memory", Before::New, 0, by_memset),
        cut("cut at 0, zeros already", empty, 0, by_memset),
        cut("cut at 0, zeros already, by memcmp", empty, 0, [library, Ground::by_memcmp, plain]),
        cut("cut at 0, PATCH", Before::Used(|_| Kind::Patch), 0, by_memset),
        cut("cut at 0, FULL_REF", Before::Used(|_| Kind::Full), 0, by_memset),
        cut("cut at 0, kinds drawn", Before::Used(drawn), 0, by_memset),
        cut("cut at n / 2, FULL_REF", Before::Used(|_| Kind::Full), blocks / 2, by_memset),
        cut("cut at 0 with a map, FULL_REF", Before::Used(|_| Kind::Full), 0, mapped),
        cut("cut at 0 with a map, kinds drawn", Before::Used(drawn), 0, mapped),
        highest(blocks, "highest, EMPTY", effort, |_| Kind::Empty),
        highest(blocks, "highest, PATCH", effort, |_| Kind::Patch),
        highest(blocks, "highest, FULL_REF", effort, |_| Kind::Full),
        highest(blocks, "highest, kinds drawn", effort, drawn),
    ]
}
