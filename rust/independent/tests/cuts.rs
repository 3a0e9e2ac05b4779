//! What a cut leaves, and which block is the highest, worked by hand from the rules. Nothing is linked
//! for these.

use independent::{
    build, carry_out_mapped, cut, cut_mapped, format, highest, read, Done, Extent, ALL,
};

const PAGE: usize = 8192;

/// A kind, a payload and a page.
type Decision<'d> = (u32, &'d [u8], &'d [u8]);

/// Byte 0 becomes 7.
const SMALL: Decision = (1, &[0, 7], &[]);
const FIVES: Decision = (2, &[], &[5; PAGE]);
const SIXES: Decision = (2, &[], &[6; PAGE]);

#[derive(Clone, Debug, PartialEq, Eq)]
struct Store {
    patch: Vec<u8>,
    full: Vec<u8>,
    map: Vec<u8>,
}

impl Store {
    /// Six blocks, four places, and a map of zeros with a byte after it.
    fn fresh() -> Store {
        let mut store = Store {
            patch: vec![0; 512 + 6 * 512],
            full: vec![0; 4096 + 4 * PAGE],
            map: vec![0, 0, 0xEE],
        };
        assert_eq!(format(&mut store.patch, &mut store.full).number, 0);
        store
    }

    fn carry_out(&mut self, block: u64, (kind, payload, page): Decision) {
        let Store { patch, full, map } = self;
        let written = carry_out_mapped(patch, full, map, block, kind, payload, page, ALL);
        assert_eq!(written.number, 0, "block {block}");
    }

    /// Blocks 1 and 3 full, blocks 2 and 4 PATCH.
    fn used() -> Store {
        let mut store = Store::fresh();
        store.carry_out(1, FIVES);
        store.carry_out(2, SMALL);
        store.carry_out(3, SIXES);
        store.carry_out(4, SMALL);
        assert_eq!(store.map, [0x64, 0x02, 0xEE]);
        store
    }

    fn cut(&mut self, k: u64) -> u32 {
        let Done { number } = cut_mapped(&mut self.patch, &mut self.full, &mut self.map, k);
        number
    }

    fn highest(&self) -> (u32, u64) {
        let Extent { number, blocks } = highest(&self.patch);
        (number, blocks)
    }
}

/// The bytes of each K: what is left is the store without the blocks that it covers.
#[test]
fn a_cut_leaves_the_blocks_below() {
    for (k, map, extent) in [
        (0, [0x00, 0x00], 0),
        (1, [0x00, 0x00], 0),
        (2, [0x04, 0x00], 2),
        (3, [0x24, 0x00], 3),
        (4, [0x64, 0x00], 4),
        (5, [0x64, 0x02], 5),
        (6, [0x64, 0x02], 5),
    ] {
        let mut store = Store::used();
        assert_eq!(store.cut(k), 0);
        let mut left = Store::fresh();
        for (block, decision) in [(1, FIVES), (2, SMALL), (3, SIXES), (4, SMALL)] {
            if block < k {
                left.carry_out(block, decision);
            }
        }
        assert_eq!(store, left, "K = {k}");
        assert_eq!(store.map, [map[0], map[1], 0xEE], "K = {k}");
        assert_eq!(store.highest(), (0, extent), "K = {k}");
        let mut built = vec![0xEE; 3];
        assert_eq!(build(&store.patch, &store.full, &mut built).number, 0);
        assert_eq!(built, store.map);
    }
}

/// The areas are the same without a map.
#[test]
fn a_cut_without_a_map() {
    for k in 0..9 {
        let (mut with, mut without) = (Store::used(), Store::used());
        let number = if k > 6 { 5 } else { 0 };
        assert_eq!(with.cut(k), number);
        assert_eq!(cut(&mut without.patch, &mut without.full, k).number, number);
        assert_eq!((with.patch, with.full), (without.patch, without.full), "K = {k}");
    }
}

/// Every byte that is not a block's from K on stays, whatever it is: noise in slots, in places whose slot
/// does not refer to them, in pairs of no block and behind the map. Both headers stay.
#[test]
fn a_cut_looks_at_no_block() {
    for k in 0..=6 {
        let mut store = Store::fresh();
        store.patch[512..].fill(0xAB);
        store.full[4096..].fill(0xCD);
        store.map.fill(0xFF);
        let before = store.clone();
        assert_eq!(store.cut(k), 0);
        let (slots, places) = (512 + 512 * k as usize, 4096 + PAGE * k as usize);
        for (at, byte) in store.patch.iter().enumerate() {
            assert_eq!(*byte, if at < slots { before.patch[at] } else { 0 }, "patch byte {at}");
        }
        for (at, byte) in store.full.iter().enumerate() {
            assert_eq!(*byte, if at < places { before.full[at] } else { 0 }, "full byte {at}");
        }
        let map = [
            [0x00, 0xF0],
            [0x03, 0xF0],
            [0x0F, 0xF0],
            [0x3F, 0xF0],
            [0xFF, 0xF0],
            [0xFF, 0xF3],
            [0xFF, 0xFF],
        ][k as usize];
        assert_eq!(store.map, [map[0], map[1], 0xFF], "K = {k}");
    }
}

#[test]
fn a_refused_cut_leaves_everything() {
    let mut store = Store::used();
    let mut refused = |number: u32, k: u64, alter: fn(&mut Store)| {
        alter(&mut store);
        let before = store.clone();
        assert_eq!(store.cut(k), number, "K = {k}");
        assert_eq!(store, before);
    };
    refused(5, 7, |_| {});
    refused(5, 1 << 55, |_| {});
    refused(5, u64::MAX, |_| {});
    // The full header's, then the patch header's: magic 3, version 4.
    refused(4, 7, |store| store.full[8] = 2);
    refused(3, 0, |store| store.patch[511] = 1);
    refused(4, 0, |store| store.patch[8] = 1);
    refused(3, 0, |store| store.patch[0] = 0);
    // A map that is too short for 6 blocks, also where no block is cut.
    refused(9, 0, |store| store.map.truncate(1));
    refused(9, 6, |_| {});
    refused(9, 7, |_| {});
    refused(2, 0, |store| store.full.push(0));
    refused(2, 7, |store| store.patch.truncate(511));
}

/// Blocks that were cut read as their bases, which may be others by then.
#[test]
fn cut_blocks_read_as_their_bases() {
    let mut store = Store::used();
    assert_eq!(store.cut(3), 0);
    let base = vec![4; PAGE];
    for (block, kind, page) in
        [(1, 2, vec![5; PAGE]), (3, 0, base.clone()), (4, 0, base.clone()), (5, 0, base.clone())]
    {
        let mut read_page = vec![0xEE; PAGE];
        let reading = read(&store.patch, &store.full, block, &base, &mut read_page);
        assert_eq!((reading.number, reading.kind), (0, kind), "block {block}");
        assert_eq!(read_page, page, "block {block}");
    }
}

#[test]
fn the_highest_block() {
    let mut store = Store::fresh();
    assert_eq!(store.highest(), (0, 0));
    store.carry_out(0, SMALL);
    assert_eq!(store.highest(), (0, 1));
    store.carry_out(3, FIVES);
    assert_eq!(store.highest(), (0, 4));
    store.carry_out(5, SMALL);
    assert_eq!(store.highest(), (0, 6));
    store.carry_out(5, (0, &[], &[]));
    assert_eq!(store.highest(), (0, 4));
    // A payload that breaks is not looked at, and neither is a place.
    store.carry_out(4, SMALL);
    store.patch[512 + 4 * 512 + 2] = 3;
    store.full[4096 + 2 * PAGE] = 1;
    assert_eq!(store.highest(), (0, 5));
}

/// An unsound slot anywhere: below the highest, in its place, above it.
#[test]
fn an_unsound_slot_refuses() {
    for block in 0..6 {
        let mut store = Store::used();
        store.patch[512 + 512 * block + 511] = 1;
        assert_eq!(store.highest(), (6, 0), "block {block}");
        // The header comes first, and the length before it.
        store.patch[10] = 1;
        assert_eq!(store.highest(), (3, 0));
        store.patch[9] = 1;
        assert_eq!(store.highest(), (4, 0));
        store.patch[7] = 0;
        assert_eq!(store.highest(), (3, 0));
        store.patch.pop();
        assert_eq!(store.highest(), (2, 0));
    }
}

#[test]
fn no_blocks_at_all() {
    let mut store = Store::fresh();
    store.patch.truncate(512);
    store.full.truncate(4096);
    store.map = vec![0xEE];
    let before = store.clone();
    assert_eq!(store.highest(), (0, 0));
    assert_eq!(store.cut(0), 0);
    assert_eq!(store.cut(1), 5);
    store.map.clear();
    assert_eq!(store.cut(0), 0);
    assert_eq!((store.patch, store.full), (before.patch, before.full));
    assert_eq!(highest(&[]).number, 2);
}
