//! What becomes of a lent map, and what a read by a map gives, worked by hand from the rules. Nothing is
//! linked for these.

use independent::{
    build, carry_out, carry_out_mapped, format, read, read_mapped, Reading, Written, ALL,
};

const PAGE: usize = 8192;

/// A kind, a payload and a page.
type Decision<'d> = (u32, &'d [u8], &'d [u8]);

/// Byte 0 becomes 7. The page is not looked at.
const EMPTY: Decision = (0, &[], &[]);
const SMALL: Decision = (1, &[0, 7], &[]);
const FULL: Decision = (2, &[], &[5; PAGE]);

struct Store {
    patch: Vec<u8>,
    full: Vec<u8>,
    map: Vec<u8>,
}

impl Store {
    /// Six blocks, six places, and a map of zeros with a byte after it.
    fn fresh() -> Store {
        let mut store = Store {
            patch: vec![0; 512 + 6 * 512],
            full: vec![0; 4096 + 6 * PAGE],
            map: vec![0, 0, 0xEE],
        };
        assert_eq!(format(&mut store.patch, &mut store.full).number, 0);
        store
    }

    fn carry_out(&mut self, block: u64, (kind, payload, page): Decision) -> Written {
        let Store { patch, full, map } = self;
        carry_out_mapped(patch, full, map, block, kind, payload, page, ALL)
    }

    fn read(&self, map: &[u8], block: u64, base: &[u8]) -> (Reading, Vec<u8>) {
        let mut page = vec![0xEE; PAGE];
        let reading = read_mapped(&self.patch, &self.full, map, block, base, &mut page);
        (reading, page)
    }
}

fn done(kind: u32) -> Reading {
    Reading { number: 0, kind, offset: 0 }
}

fn refused(number: u32, offset: u32) -> Reading {
    Reading { number, kind: 0, offset }
}

/// A day's decisions over a base of zeros, and the map after each.
#[test]
fn a_map_follows_its_decisions() {
    let mut store = Store::fresh();
    for (block, decision, map) in [
        (0, SMALL, [0x02, 0x00]),
        (1, FULL, [0x06, 0x00]),
        (3, SMALL, [0x86, 0x00]),
        (5, FULL, [0x86, 0x04]),
        (4, SMALL, [0x86, 0x06]),
        (2, FULL, [0x96, 0x06]),
        (0, FULL, [0x95, 0x06]),
        (1, SMALL, [0x99, 0x06]),
        (3, EMPTY, [0x19, 0x06]),
        (5, EMPTY, [0x19, 0x02]),
        (0, EMPTY, [0x18, 0x02]),
    ] {
        let written = store.carry_out(block, decision);
        let length = if decision.0 == 1 { 2 } else { 0 };
        assert_eq!(written, Written { number: 0, kind: decision.0, length }, "block {block}");
        assert_eq!(store.map, [map[0], map[1], 0xEE], "block {block}");
    }
    let mut built = vec![0xEE; 3];
    assert_eq!(build(&store.patch, &store.full, &mut built).number, 0);
    assert_eq!(built, store.map);
}

/// The same without a map, but for the map.
#[test]
fn the_areas_are_those_without_a_map() {
    let mut store = Store::fresh();
    let (mut patch, mut full) = (store.patch.clone(), store.full.clone());
    for (block, decision) in
        [(0, SMALL), (5, FULL), (5, SMALL), (6, SMALL), (4, (3, &[], &[])), (4, (1, &[0], &[]))]
    {
        let (kind, payload, page) = decision;
        let plain = carry_out(&mut patch, &mut full, block, kind, payload, page, ALL);
        assert_eq!(store.carry_out(block, decision), plain);
        assert_eq!((&store.patch, &store.full), (&patch, &full));
    }
}

/// Pairs of 3, of other blocks and of none, stay; the block's own goes.
#[test]
fn only_the_own_pair_is_set() {
    for (block, map) in [(0, [0xFE, 0xFF]), (3, [0xBF, 0xFF]), (4, [0xFF, 0xFE]), (5, [0xFF, 0xFB])]
    {
        let mut store = Store::fresh();
        store.map = vec![0xFF; 3];
        assert_eq!(store.carry_out(block, SMALL).number, 0);
        assert_eq!(store.map, [map[0], map[1], 0xFF], "block {block}");
    }
}

#[test]
fn a_refused_decision_leaves_the_map() {
    let mut store = Store::fresh();
    store.map = vec![0x2D; 2];
    assert_eq!(store.carry_out(6, SMALL).number, 5);
    assert_eq!(store.carry_out(0, (2, &[], &[5; PAGE - 1])).number, 1);
    assert_eq!(store.carry_out(0, (3, &[], &[])).number, 6);
    assert_eq!(store.carry_out(0, (1, &[0, 7, 0], &[])).number, 7);
    store.full.truncate(4096 + PAGE);
    assert_eq!(store.carry_out(1, FULL).number, 8);
    store.patch[0] = 0;
    assert_eq!(store.carry_out(0, SMALL).number, 3);
    assert_eq!(store.map, [0x2D; 2]);
    store.map.truncate(1);
    assert_eq!(store.carry_out(0, SMALL).number, 9);
    store.full.push(0);
    assert_eq!(store.carry_out(0, SMALL).number, 2);
    assert_eq!(store.carry_out(0, (2, &[], &[])).number, 1);
    assert_eq!(store.map, [0x2D]);
}

/// Block 0 PATCH, block 1 FULL_REF, block 2 a payload that breaks, block 3 no sound slot, block 4 EMPTY
/// with a page in its place.
fn of_every_sort() -> Store {
    let mut store = Store::fresh();
    store.carry_out(0, SMALL);
    store.carry_out(1, FULL);
    store.carry_out(2, SMALL);
    store.patch[512 + 2 * 512 + 2] = 3; // a third byte, a jump without a value
    store.patch[512 + 3 * 512] = 9;
    store.full[4096 + 4 * PAGE..4096 + 5 * PAGE].fill(8);
    store
}

#[test]
fn a_read_does_what_the_pair_says() {
    let store = of_every_sort();
    let base = vec![4; PAGE];
    let mut patched = base.clone();
    patched[0] = 7;
    let untouched = vec![0xEE; PAGE];
    for block in 0..6 {
        // The base, whatever the slot is.
        assert_eq!(store.read(&[0, 0], block, &base), (done(0), base.clone()));
        // The place, whatever the slot is.
        let place = match block {
            1 => vec![5; PAGE],
            4 => vec![8; PAGE],
            _ => vec![0; PAGE],
        };
        assert_eq!(store.read(&[0x55, 0x55], block, &base), (done(2), place));
        // A sound PATCH slot and no other.
        let by_patch = match block {
            0 => (done(1), patched.clone()),
            2 => (refused(7, 2), untouched.clone()),
            _ => (refused(6, 0), untouched.clone()),
        };
        assert_eq!(store.read(&[0xAA, 0xAA], block, &base), by_patch, "block {block}");
        assert_eq!(store.read(&[0xFF, 0xFF], block, &base), (refused(11, 0), untouched.clone()));
    }
    assert_eq!(store.read(&[0xFF, 0xFF], 6, &base).0, refused(5, 0));
    assert_eq!(store.read(&[0xFF], 0, &base).0, refused(9, 0));
    // 3s all around.
    assert_eq!(store.read(&[0xFE, 0xFF], 0, &base), (done(1), patched));
    assert_eq!(store.read(&[0x3F, 0xFF], 3, &base), (done(0), base));
}

#[test]
fn a_full_page_wants_a_place() {
    let mut store = of_every_sort();
    store.full.truncate(4096 + PAGE);
    assert_eq!(store.read(&[0x55, 0x55], 0, &[]).0, done(2));
    assert_eq!(store.read(&[0x55, 0x55], 1, &[]).0, refused(8, 0));
    store.full.clear();
    assert_eq!(store.read(&[0x55, 0x55], 0, &[]).0, refused(8, 0));
    assert_eq!(store.read(&[0, 0], 1, &[]), (done(0), vec![0; PAGE]));
}

/// With its own map each block reads as it does without one.
#[test]
fn reads_by_the_kept_map_are_reads() {
    let mut store = Store::fresh();
    store.carry_out(1, FULL);
    store.carry_out(3, SMALL);
    store.carry_out(4, FULL);
    store.carry_out(4, SMALL);
    for block in 0..7 {
        let mut page = vec![0xEE; PAGE];
        let plain = read(&store.patch, &store.full, block, &[], &mut page);
        assert_eq!(store.read(&store.map, block, &[]), (plain, page), "block {block}");
    }
}
