//! Reads by a map: what they give where a slot is damaged and the map is not, where the map is damaged,
//! and where it missed a write or is from before a stop.

use thonxiliko::{Kind, Stores, PAGE_SIZE};

use crate::cases::{filled, Given, Ground};
use crate::checksum;
use crate::flips::in_patch_area;
use crate::shipped::Block;
use crate::store::{place, slot, Store};

/// Where a bit lies: in a slot's area, by its part, or in the map, by the kind of its block.
#[derive(Clone, Copy, Debug, PartialEq, Eq)]
pub enum Bit {
    Area(crate::flips::Part),
    Pair(Kind),
}

/// How many bits came to what, when the block was read by the map. Each is counted in `bits` and in one
/// other number, but for `taken`, which is a share of `other_page`.
#[derive(Clone, Debug, PartialEq, Eq)]
pub struct Counts {
    pub bit: Bit,
    pub bits: u64,
    /// By the number of the refusal.
    pub refused: [u64; 12],
    pub other_page: u64,
    pub taken: u64,
    pub same_page: u64,
}

impl Counts {
    fn new(bit: Bit) -> Counts {
        Counts { bit, bits: 0, refused: [0; 12], other_page: 0, taken: 0, same_page: 0 }
    }

    /// Every bit came to one thing.
    pub fn add_up(&self) -> bool {
        let refused: u64 = self.refused.iter().sum();
        self.bits == refused + self.other_page + self.same_page && self.taken <= self.other_page
    }
}

/// The counts of one sort of bits, which are made if there are none yet.
fn of(table: &mut Vec<Counts>, bit: Bit) -> &mut Counts {
    let at = table.iter().position(|counts| counts.bit == bit).unwrap_or_else(|| {
        table.push(Counts::new(bit));
        table.len() - 1
    });
    &mut table[at]
}

fn ask(store: &Store, map: &[u8], blocks: &[Block], block: usize, counts: &mut Counts) {
    let mut page = [0; PAGE_SIZE];
    counts.bits += 1;
    match store.read_mapped(map, block, &mut page) {
        Err(fault) => counts.refused[fault.refusal.number() as usize] += 1,
        Ok(_) if page[..] == blocks[block].page[..] => counts.same_page += 1,
        Ok(_) => {
            counts.other_page += 1;
            counts.taken += u64::from(checksum::taken(&page, blocks[block].number));
        }
    }
}

/// Flips each bit of the patch area beside the map that was kept, then each bit of the map.
pub fn count(store: &Store, blocks: &[Block]) -> Vec<Counts> {
    let mut map = store.map().expect("a sound store");
    let kinds = store.kinds().expect("a sound store");
    let mut table = Vec::new();
    let mut damaged = store.clone();
    for at in 0..store.patch.len() {
        let (part, block) = in_patch_area(store, at);
        for bit in 0..8 {
            damaged.patch[at] ^= 1 << bit;
            ask(&damaged, &map, blocks, block, of(&mut table, Bit::Area(part)));
            damaged.patch[at] ^= 1 << bit;
        }
    }
    for block in 0..kinds.len() {
        for bit in 0..2 {
            let flip = 1 << (2 * (block % 4) + bit);
            map[block / 4] ^= flip;
            ask(store, &map, blocks, block, of(&mut table, Bit::Pair(kinds[block])));
            map[block / 4] ^= flip;
        }
    }
    table
}

/// One block of a store whose map is not its own any more: by its slot, and by the map.
#[derive(Clone, Debug)]
pub struct Case {
    pub what: &'static str,
    pub block: usize,
    pub by_slot: Given,
    pub by_map: Given,
}

/// Pairs in a map.
const EMPTY: u8 = 0;
const FULL: u8 = 1;
const PATCH: u8 = 2;

fn set_pair(map: &mut [u8], block: usize, pair: u8) {
    map[block / 4] &= !(3 << (2 * (block % 4)));
    map[block / 4] |= pair << (2 * (block % 4));
}

/// A sound store, and the map that its writes kept.
struct Kept<'b> {
    ground: Ground<'b>,
    blocks: &'b [Block],
    store: &'b Store,
    map: Vec<u8>,
}

impl Kept<'_> {
    /// Alters copies of the store and the map, and reads a block by its slot and by the map.
    fn case(
        &self,
        what: &'static str,
        block: usize,
        alter: impl FnOnce(&mut Store, &mut [u8]),
    ) -> Case {
        let (mut store, mut map) = (self.store.clone(), self.map.clone());
        alter(&mut store, &mut map);
        let mut page = [0; PAGE_SIZE];
        let read = store.read(block, &mut page);
        let by_slot = self.ground.came(&store, block, read, &page);
        let read = store.read_mapped(&map, block, &mut page);
        let by_map = self.ground.came(&store, block, read, &page);
        Case { what, block, by_slot, by_map }
    }
}

/// Writes that the map missed, areas that changed beside it, and a write that was stopped.
pub fn cases(store: &Store, blocks: &[Block]) -> Vec<Case> {
    let (ground, map) = (Ground::new(store, blocks), store.map().expect("a sound store"));
    let kept = Kept { ground, blocks, store, map };
    let mut cases = missed(&kept);
    cases.extend(changed(&kept));
    cases.extend(stopped(&kept));
    cases
}

fn missed(kept: &Kept) -> Vec<Case> {
    let missed = |what, block, pair| kept.case(what, block, |_, map| set_pair(map, block, pair));
    let ([patch, _], [full, _]) = (kept.ground.patch, kept.ground.full);
    let (empty, past) = (kept.ground.empty, kept.ground.empty_past);
    vec![
        missed("a PATCH write that the map missed, EMPTY before", patch, EMPTY),
        missed("a PATCH write that the map missed, full before", patch, FULL),
        missed("a FULL_REF write that the map missed, EMPTY before", full, EMPTY),
        missed("a FULL_REF write that the map missed, PATCH before", full, PATCH),
        missed("a write of the base that the map missed, PATCH before", empty, PATCH),
        missed("a write of the base that the map missed, full before", empty, FULL),
        missed("the map says full of a block not below m", past, FULL),
    ]
}

fn changed(kept: &Kept) -> Vec<Case> {
    let ([patch, _], [full, _]) = (kept.ground.patch, kept.ground.full);
    let fresh = |store: &mut Store, _: &mut [u8]| {
        *store = Store::fresh(kept.blocks, store.pages()).expect("sound lengths");
    };
    vec![
        kept.case("a PATCH slot set to zeros, the map kept", patch, |store, _| {
            store.patch[slot(patch)].fill(0)
        }),
        kept.case("a FULL_REF slot set to zeros, the map kept", full, |store, _| {
            store.patch[slot(full)].fill(0)
        }),
        kept.case("a full page set to zeros, the map kept", full, |store, _| {
            store.full[place(full)].fill(0)
        }),
        kept.case("both areas formatted, the map kept: a PATCH block", patch, fresh),
        kept.case("both areas formatted, the map kept: a full block", full, fresh),
    ]
}

/// A full block is to be as its base again. Its slot is, and then the process ends.
fn stopped(kept: &Kept) -> Vec<Case> {
    let [full, _] = kept.ground.full;
    let stop = |store: &mut Store| {
        let base = &kept.blocks[full].base;
        store.write_told(full, base, &filled(base), Stores::One).expect("a sound store");
    };
    vec![
        kept.case("a write of the base stopped after one store, full before", full, |store, _| {
            stop(store)
        }),
        kept.case("a write of the base so stopped, then swept, full before", full, |store, _| {
            stop(store);
            store.sweep().expect("sound slots");
        }),
    ]
}
