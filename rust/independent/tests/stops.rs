//! A write that is stopped after none or one of its stores, and the sweep after it, worked by hand from
//! the rules. Nothing is linked for these.

use independent::{
    build, carry_out, carry_out_mapped, cut, format, read, read_mapped, sweep, Written, ALL,
};

const PAGE: usize = 8192;

/// A kind, a payload and a page.
type Decision = (u32, &'static [u8], &'static [u8]);

const EMPTY: Decision = (0, &[], &[]);
/// Byte 1 becomes 9.
const PATCH: Decision = (1, &[1, 9], &[]);
const NINES: Decision = (2, &[], &[9; PAGE]);
const FIVES: Decision = (2, &[], &[5; PAGE]);

/// The slot of PATCH, and that of another patch: byte 0 becomes 7.
const PATCH_SLOT: &[u8] = &[1, 1, 2, 0, 0, 0, 0, 0, 1, 9];
const OTHER_PATCH: &[u8] = &[1, 1, 2, 0, 0, 0, 0, 0, 0, 7];

#[derive(Clone, Debug, PartialEq, Eq)]
struct Store {
    patch: Vec<u8>,
    full: Vec<u8>,
    map: Vec<u8>,
}

impl Store {
    /// Fresh areas of four blocks and three places, and a map of zeros.
    fn fresh() -> Store {
        let mut store =
            Store { patch: vec![0; 512 + 4 * 512], full: vec![0; 4096 + 3 * PAGE], map: vec![0] };
        assert_eq!(format(&mut store.patch, &mut store.full).number, 0);
        store
    }

    /// Block 0 EMPTY, block 1 PATCH, block 2 full of fives, block 3 PATCH and without a place.
    fn used() -> Store {
        Store::fresh()
            .with_slot(1, OTHER_PATCH)
            .with_slot(2, &[2])
            .with_place(2, 5)
            .with_slot(3, OTHER_PATCH)
            .with_map(0b10_01_10_00)
    }

    fn with_slot(mut self, block: usize, bytes: &[u8]) -> Store {
        let slot = &mut self.patch[512 + 512 * block..][..512];
        slot.fill(0);
        slot[..bytes.len()].copy_from_slice(bytes);
        self
    }

    /// Block 3 has none.
    fn with_place(mut self, block: usize, byte: u8) -> Store {
        let start = 4096 + PAGE * block;
        self.full.iter_mut().skip(start).take(PAGE).for_each(|place| *place = byte);
        self
    }

    fn with_map(mut self, pairs: u8) -> Store {
        self.map = vec![pairs];
        self
    }

    /// Five places for four blocks.
    fn with_a_place_too_many(mut self) -> Store {
        self.full.resize(4096 + 5 * PAGE, 0);
        self
    }

    /// Carries out a decision, told this number of stores, with the map; gives the answer. Without the
    /// map the answer and the areas must be the same.
    fn told(&mut self, stores: u64, block: u64, (kind, payload, page): Decision) -> [u32; 3] {
        let mut plain = self.clone();
        let Store { patch, full, .. } = &mut plain;
        let without = carry_out(patch, full, block, kind, payload, page, stores);
        let Store { patch, full, map } = self;
        let with = carry_out_mapped(patch, full, map, block, kind, payload, page, stores);
        assert_eq!((without, &plain.patch, &plain.full), (with, &self.patch, &self.full));
        let Written { number, kind, length } = with;
        [number, kind, length]
    }

    fn write(&mut self, block: u64, decision: Decision) {
        assert_eq!(self.told(ALL, block, decision)[0], 0);
    }

    fn sweep(&mut self) -> u32 {
        sweep(&self.patch, &mut self.full).number
    }

    /// What Read says of a block over a base of fours, and the first two bytes and the last of the page.
    fn reads(&self, block: u64) -> (u32, u32, [u8; 3]) {
        let mut page = vec![0xEE; PAGE];
        let reading = read(&self.patch, &self.full, block, &[4; PAGE], &mut page);
        (reading.number, reading.kind, [page[0], page[1], page[PAGE - 1]])
    }

    fn reads_by_map(&self, map: &[u8], block: u64) -> (u32, u32, [u8; 3]) {
        let mut page = vec![0xEE; PAGE];
        let Store { patch, full, .. } = self;
        let reading = read_mapped(patch, full, map, block, &[4; PAGE], &mut page);
        (reading.number, reading.kind, [page[0], page[1], page[PAGE - 1]])
    }

    /// What Build says, and the map that it makes.
    fn built(&self) -> (u32, u8) {
        let mut map = [0xEE];
        (build(&self.patch, &self.full, &mut map).number, map[0])
    }
}

/// What stands in a slot, its first bytes, and in a place, which is full of one byte.
type Block = (&'static [u8], u8);

/// Block and decision, the answer, what stands after one store, and what stands after all of them, with
/// the map.
type Write = (u64, Decision, [u32; 3], Block, (Block, u8));

const WRITES: [Write; 11] = [
    (0, EMPTY, [0, 0, 0], (&[], 0), ((&[], 0), 0b10_01_10_00)),
    (0, PATCH, [0, 1, 2], (PATCH_SLOT, 0), ((PATCH_SLOT, 0), 0b10_01_10_10)),
    (0, NINES, [0, 2, 0], (&[], 9), ((&[2], 9), 0b10_01_10_01)),
    (1, EMPTY, [0, 0, 0], (&[], 0), ((&[], 0), 0b10_01_00_00)),
    (1, PATCH, [0, 1, 2], (PATCH_SLOT, 0), ((PATCH_SLOT, 0), 0b10_01_10_00)),
    (1, NINES, [0, 2, 0], (OTHER_PATCH, 9), ((&[2], 9), 0b10_01_01_00)),
    (2, EMPTY, [0, 0, 0], (&[], 5), ((&[], 0), 0b10_00_10_00)),
    (2, PATCH, [0, 1, 2], (PATCH_SLOT, 5), ((PATCH_SLOT, 0), 0b10_10_10_00)),
    // The slot is FULL_REF already: the page is all that there is to store.
    (2, NINES, [0, 2, 0], (&[2], 9), ((&[2], 9), 0b10_01_10_00)),
    // No place: the slot is all that there is to store, but 1 is not "all" for the map.
    (3, EMPTY, [0, 0, 0], (&[], 0), ((&[], 0), 0b00_01_10_00)),
    (3, PATCH, [0, 1, 2], (PATCH_SLOT, 0), ((PATCH_SLOT, 0), 0b10_01_10_00)),
];

/// Told 0 nothing is stored; told 1 the first store is made, and the map stays; told all it is the whole
/// write. The answer is the same.
#[test]
fn each_kind_on_each_block() {
    for (block, decision, answer, after_one, (after_all, map)) in WRITES {
        let name = format!("kind {} on block {block}", decision.0);
        let of = |(slot, place): Block| {
            Store::used().with_slot(block as usize, slot).with_place(block as usize, place)
        };
        let whole = of(after_all).with_map(map);
        for (stores, after) in [(0, Store::used()), (1, of(after_one)), (2, whole.clone())] {
            let mut store = Store::used();
            assert_eq!(store.told(stores, block, decision), answer, "{name}, told {stores}");
            assert_eq!(store, after, "{name}, told {stores}");
            // Told all after that it is the whole write.
            store.write(block, decision);
            assert_eq!(store, whole, "{name}, told {stores} and then all");
        }
    }
}

/// Numbers that would be 0 or 1 if they were cut to 8, 16 or 32 bits are neither.
#[test]
fn any_other_number_is_all() {
    let numbers = [2, 3, 255, 256, 257, 65_536, 65_537, 1 << 31, 1 << 32, (1 << 32) + 1];
    for stores in numbers.into_iter().chain([1 << 63, (1 << 63) + 1, u64::MAX - 1, u64::MAX]) {
        let mut store = Store::used();
        assert_eq!(store.told(stores, 2, PATCH), [0, 1, 2]);
        let whole = Store::used().with_slot(2, PATCH_SLOT).with_place(2, 0);
        assert_eq!(store, whole.with_map(0b10_10_10_00), "told {stores}");
        let mut store = Store::used();
        assert_eq!(store.told(stores, 0, NINES), [0, 2, 0]);
        let whole = Store::used().with_slot(0, &[2]).with_place(0, 9);
        assert_eq!(store, whole.with_map(0b10_01_10_01), "told {stores}");
    }
}

/// A stray page goes with the second store and not before; a page that comes is there before its slot.
#[test]
fn the_place_of_a_stray_page() {
    let stray = || Store::used().with_place(0, 0x77);
    let mut store = stray();
    assert_eq!(store.told(1, 0, PATCH), [0, 1, 2]);
    assert_eq!(store, stray().with_slot(0, PATCH_SLOT));
    store.write(0, PATCH);
    assert_eq!(store, Store::used().with_slot(0, PATCH_SLOT).with_map(0b10_01_10_10));
    let mut store = stray();
    assert_eq!(store.told(1, 0, NINES), [0, 2, 0]);
    assert_eq!(store, Store::used().with_place(0, 9));
}

/// Whatever is told, the refusals are the same and nothing changes. The map is too short only for the
/// call that is lent one.
#[test]
fn the_same_refusals() {
    let mut store = Store::used();
    let mut refused = |number: u32, block: u64, decision: Decision, alter: fn(&mut Store)| {
        alter(&mut store);
        let before = store.clone();
        for stores in [0, 1, 2, u64::MAX] {
            let answer = store.told(stores, block, decision);
            assert_eq!(answer, [number, 0, 0], "block {block}, told {stores}");
            assert_eq!(store, before);
        }
    };
    refused(7, 0, (1, &[0], &[]), |_| {});
    refused(8, 3, NINES, |_| {});
    refused(6, 3, (3, &[], &[]), |_| {});
    refused(5, 4, EMPTY, |_| {});
    refused(4, 4, PATCH, |store| store.full[8] = 2);
    refused(3, 0, NINES, |store| store.patch[0] = 0);
    refused(2, 0, EMPTY, |store| store.full.push(0));
    refused(1, 0, (2, &[], &[9; PAGE - 1]), |_| {});
    for stores in [0, 1, 2] {
        let mut store = Store::used();
        let Store { patch, full, .. } = &mut store;
        let written = carry_out_mapped(patch, full, &mut [], 0, 0, &[], &[], stores);
        assert_eq!(written, Written { number: 9, kind: 0, length: 0 });
    }
}

/// After a stop the block reads as before or as after the whole write, and every other as before.
#[test]
fn what_a_block_reads_as_after_a_stop() {
    let before = [(0, 0, [4, 4, 4]), (0, 1, [7, 4, 4]), (0, 2, [5, 5, 5]), (0, 1, [7, 4, 4])];
    let as_before = |store: &Store, but: usize| {
        (0..4).all(|block| block == but || store.reads(block as u64) == before[block])
    };
    // Block and decision, and what the block reads as once it was told 1.
    for (block, decision, after_one) in [
        (0, PATCH, (0, 1, [4, 9, 4])),
        // The page is there, but the slot does not refer to it.
        (0, NINES, (0, 0, [4, 4, 4])),
        (1, EMPTY, (0, 0, [4, 4, 4])),
        (1, PATCH, (0, 1, [4, 9, 4])),
        (1, NINES, (0, 1, [7, 4, 4])),
        (2, EMPTY, (0, 0, [4, 4, 4])),
        (2, PATCH, (0, 1, [4, 9, 4])),
        (2, NINES, (0, 2, [9, 9, 9])),
        (3, EMPTY, (0, 0, [4, 4, 4])),
        (3, PATCH, (0, 1, [4, 9, 4])),
    ] {
        let name = format!("kind {} on block {block}", decision.0);
        let mut store = Store::used();
        store.told(0, block as u64, decision);
        assert!(as_before(&store, 4), "{name}, told 0");
        store.told(1, block as u64, decision);
        assert_eq!(store.reads(block as u64), after_one, "{name}, told 1");
        assert!(as_before(&store, block), "{name}, told 1");
        // The sweep changes none of that.
        assert_eq!(store.sweep(), 0);
        assert_eq!(store.reads(block as u64), after_one, "{name}, swept");
        assert!(as_before(&store, block), "{name}, swept");
    }
}

#[test]
fn a_sweep_clears_what_no_slot_refers_to() {
    // Block by block: whether the place holds the noise that it held, or zeros.
    let mut store = Store::used().with_place(0, 0x77).with_place(1, 0x78).with_place(2, 0x79);
    assert_eq!(store.built(), (10, 0xEE));
    assert_eq!(store.sweep(), 0);
    assert_eq!(store, Store::used().with_place(2, 0x79));
    assert_eq!(store.built(), (0, 0b10_01_10_00));
    // Once more, and over areas that Build accepts, it changes nothing.
    let swept = store.clone();
    assert_eq!(store.sweep(), 0);
    assert_eq!(store, swept);

    // One byte at either end of a place.
    for at in [4096, 4096 + PAGE - 1, 4096 + PAGE, 4096 + 2 * PAGE - 1] {
        let mut store = Store::used();
        store.full[at] = 1;
        assert_eq!(store.sweep(), 0);
        assert_eq!(store, Store::used(), "byte {at}");
    }
    // A payload that breaks is not looked at, and Build says so afterwards.
    let broken = || Store::used().with_slot(1, &[1, 1, 3, 0, 0, 0, 0, 0, 0, 7, 0]);
    let mut store = broken().with_place(1, 1);
    assert_eq!(store.sweep(), 0);
    assert_eq!(store, broken());
    assert_eq!(store.built(), (7, 0xEE));
}

/// The lowest block with a fault decides, and nothing is changed, not even below it.
#[test]
fn a_sweep_that_is_refused() {
    let refused = |number: u32, mut store: Store| {
        let before = store.clone();
        assert_eq!(store.sweep(), number);
        assert_eq!(store, before);
    };
    let stray = || Store::used().with_place(0, 0x77);
    refused(6, stray().with_slot(3, &[3]));
    refused(8, stray().with_slot(3, &[2]));
    refused(6, stray().with_slot(0, &[0, 1]));
    refused(6, stray().with_slot(1, &[3]).with_slot(3, &[2]));
    // Not below m, and no sound FULL_REF: 6.
    refused(6, stray().with_slot(3, &[2, 1]));
    // 8 at a block below that of 6: one place fewer, block 2 has none any more.
    let mut fewer = stray().with_slot(3, &[3]);
    fewer.full.truncate(4096 + 2 * PAGE);
    refused(8, fewer.clone());
    refused(6, fewer.with_slot(1, &[3]));

    // The headers, patch before full, come before the slots; the lengths before the headers.
    let unsound = || stray().with_slot(0, &[3]).with_slot(3, &[2]);
    let altered = |alter: fn(&mut Store)| {
        let mut store = unsound();
        alter(&mut store);
        store
    };
    refused(3, altered(|store| store.full[4095] = 1));
    refused(4, altered(|store| store.full[9] = 1));
    refused(3, altered(|store| (store.patch[511], store.full[9]) = (1, 1)));
    refused(4, altered(|store| (store.patch[8], store.full[0]) = (1, 1)));
    refused(2, altered(|store| store.patch.push(0)));
    refused(2, altered(|store| store.full.truncate(4095)));
    refused(2, altered(|store| (store.patch[0], store.full[0]) = (0, 0)).with_a_place_too_many());
}

/// All slots are looked at, whether there is anything to clear or not.
#[test]
fn a_sweep_without_places() {
    for places in [0, 4096] {
        let cut_off = |mut store: Store| {
            store.full.truncate(places);
            store
        };
        let mut store = cut_off(Store::used().with_slot(2, &[]));
        let before = store.clone();
        assert_eq!(store.sweep(), 0);
        assert_eq!(store, before);
        assert_eq!(cut_off(Store::used()).sweep(), 8);
        assert_eq!(cut_off(Store::used().with_slot(1, &[1])).sweep(), 6);
        assert_eq!(cut_off(Store::used().with_slot(3, &[1])).sweep(), 8);
        assert_eq!(cut_off(Store::used().with_slot(2, &[]).with_slot(3, &[1])).sweep(), 6);
    }
    let mut none = Store::fresh();
    none.patch.truncate(512);
    none.full.truncate(4096);
    assert_eq!(none.sweep(), 0);
    none.full.clear();
    assert_eq!(none.sweep(), 0);
    assert_eq!(sweep(&[], &mut []).number, 2);
}

/// The writes of a short run, of which one is stopped. The cut at 2 comes before the last of them.
const RUN: [(u64, Decision); 5] = [(2, FIVES), (1, NINES), (2, PATCH), (1, FIVES), (2, NINES)];

/// The run, with this write told this number of stores, and then a sweep.
fn run_stopped_at(stopped: usize, stores: u64) -> Store {
    let mut store = Store::fresh();
    for (number, (block, decision)) in RUN.into_iter().enumerate() {
        if number == 4 {
            assert_eq!(cut(&mut store.patch, &mut store.full, 2).number, 0);
        }
        let told = if number == stopped { stores } else { ALL };
        store.told(told, block, decision);
    }
    assert_eq!(store.sweep(), 0);
    store
}

#[test]
fn a_run_stopped_at_each_of_its_writes() {
    let ended = |block_1: (&[u8], u8), block_2: (&[u8], u8)| {
        let store = Store::fresh().with_slot(1, block_1.0).with_place(1, block_1.1);
        store.with_slot(2, block_2.0).with_place(2, block_2.1)
    };
    let whole = ended((&[2], 5), (&[2], 9));
    for (stopped, told_0, told_1) in [
        // Written over and cut, with or without it.
        (0, whole.clone(), whole.clone()),
        (1, whole.clone(), whole.clone()),
        (2, whole.clone(), whole.clone()),
        // Without it the page of nines stands. Told 1 its page replaces that one under the old FULL_REF.
        (3, ended((&[2], 9), (&[2], 9)), whole.clone()),
        // After the cut its slot is EMPTY, so told 1 leaves a stray page that is swept.
        (4, ended((&[2], 5), (&[], 0)), ended((&[2], 5), (&[], 0))),
    ] {
        for (stores, expected) in [(0, &told_0), (1, &told_1), (2, &whole)] {
            let Store { patch, full, .. } = run_stopped_at(stopped, stores);
            assert!(patch == expected.patch, "write {stopped} told {stores}: the patch area");
            assert!(full == expected.full, "write {stopped} told {stores}: the full area");
        }
    }
}

/// A map from before the stop must not be read by: it is built anew after the sweep.
#[test]
fn a_map_from_before_the_stop() {
    let mut store = Store::used();
    assert_eq!(store.told(1, 2, PATCH), [0, 1, 2]);
    let old = store.map.clone();
    assert_eq!(store.sweep(), 0);
    assert_eq!(store.reads(2), (0, 1, [4, 9, 4]));
    // By the old pair 1 it is a full page, and its place is zeros by now.
    assert_eq!(store.reads_by_map(&old, 2), (0, 2, [0, 0, 0]));
    assert_eq!(store.built(), (0, 0b10_10_10_00));
    assert_eq!(store.reads_by_map(&[0b10_10_10_00], 2), (0, 1, [4, 9, 4]));
}
