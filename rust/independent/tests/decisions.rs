//! What becomes of a block when a decision is carried out, worked by hand from the rules. Nothing is
//! linked for these.

use independent::{apply, build, carry_out, compare, format, read, Written, ALL};

const PAGE: usize = 8192;

#[derive(Clone, Debug, PartialEq, Eq)]
struct Store {
    patch: Vec<u8>,
    full: Vec<u8>,
}

impl Store {
    /// Fresh areas of three blocks and two places.
    fn fresh() -> Store {
        let mut store = Store { patch: vec![0; 512 + 3 * 512], full: vec![0; 4096 + 2 * PAGE] };
        assert_eq!(format(&mut store.patch, &mut store.full).number, 0);
        store
    }

    /// Sound headers; every byte of slots and places is in use and of no meaning.
    fn of_noise() -> Store {
        let mut store = Store::fresh();
        store.patch[512..].fill(0xAB);
        store.full[4096..].fill(0xCD);
        store
    }

    fn carry_out(&mut self, block: u64, kind: u32, payload: &[u8], page: &[u8]) -> [u32; 3] {
        let Written { number, kind, length } =
            carry_out(&mut self.patch, &mut self.full, block, kind, payload, page, ALL);
        [number, kind, length]
    }

    /// The same store with other bytes from a place on.
    fn with_slot(mut self, block: usize, bytes: &[u8]) -> Store {
        let slot = &mut self.patch[512 + 512 * block..][..512];
        slot.fill(0);
        slot[..bytes.len()].copy_from_slice(bytes);
        self
    }

    fn with_place(mut self, block: usize, byte: u8) -> Store {
        self.full[4096 + PAGE * block..][..PAGE].fill(byte);
        self
    }
}

/// Of every old block nothing is left, and no other block is touched.
#[test]
fn each_kind_over_noise() {
    let page = [9; PAGE];
    for block in [0, 1] {
        let at = block as u64;
        let mut store = Store::of_noise();
        assert_eq!(store.carry_out(at, 0, &[0, 7], &page), [0, 0, 0]);
        assert_eq!(store, Store::of_noise().with_slot(block, &[]).with_place(block, 0));

        let mut store = Store::of_noise();
        assert_eq!(store.carry_out(at, 1, &[0, 7], &page), [0, 1, 2]);
        let slot = [1, 1, 2, 0, 0, 0, 0, 0, 0, 7];
        assert_eq!(store, Store::of_noise().with_slot(block, &slot).with_place(block, 0));

        let mut store = Store::of_noise();
        assert_eq!(store.carry_out(at, 2, &[0, 7], &page), [0, 2, 0]);
        assert_eq!(store, Store::of_noise().with_slot(block, &[2]).with_place(block, 9));
    }
}

/// Block 2 has no place: EMPTY and PATCH touch its slot alone, FULL_REF is refused.
#[test]
fn a_block_without_a_place() {
    let mut store = Store::of_noise();
    assert_eq!(store.carry_out(2, 2, &[], &[9; PAGE]), [8, 0, 0]);
    assert_eq!(store, Store::of_noise());
    assert_eq!(store.carry_out(2, 1, &[0xFE, 1], &[]), [0, 1, 2]);
    assert_eq!(store, Store::of_noise().with_slot(2, &[1, 1, 2, 0, 0, 0, 0, 0, 0xFE, 1]));
    assert_eq!(store.carry_out(2, 0, &[], &[]), [0, 0, 0]);
    assert_eq!(store, Store::of_noise().with_slot(2, &[]));
}

/// A page of any length with kinds other than 2, a payload of any sort with kinds other than 1.
#[test]
fn what_is_not_looked_at_refuses_nothing() {
    for page in [0, 1, 8191, 8192, 8193] {
        let page = vec![3; page];
        assert_eq!(Store::fresh().carry_out(0, 0, &[], &page), [0, 0, 0]);
        assert_eq!(Store::fresh().carry_out(0, 1, &[0, 7], &page), [0, 1, 2]);
        assert_eq!(Store::fresh().carry_out(0, 3, &[], &page), [6, 0, 0]);
        let expected = if page.len() == PAGE { [0, 2, 0] } else { [1, 0, 0] };
        assert_eq!(Store::fresh().carry_out(0, 2, &[], &page), expected);
    }
    let overlong = [0; 1000];
    for payload in [&[][..], &[0], &[0xFF, 0, 0, 5], &overlong] {
        assert_eq!(Store::fresh().carry_out(0, 0, payload, &[]), [0, 0, 0]);
        assert_eq!(Store::fresh().carry_out(0, 2, payload, &[3; PAGE]), [0, 2, 0]);
        assert_eq!(Store::fresh().carry_out(0, 3, payload, &[]), [6, 0, 0]);
        assert_eq!(Store::fresh().carry_out(0, 1, payload, &[3; PAGE]), [7, 0, 0]);
    }
}

/// 7 has no offset, wherever the payload breaks.
#[test]
fn payloads_that_are_not_sound() {
    let breaks_late = [&[0; 502][..], &[0xFF, 0xFE]].concat();
    let payloads: [&[u8]; 8] = [
        &[],
        &[0],
        &[0, 7, 0],
        &[0xFF, 0x00, 0x20, 0x01],
        &[0xFF, 0xFF, 0x1F, 0x01, 0x00, 0x02],
        &[0xFF, 0x00, 0x00, 0x05],
        &breaks_late,
        &[0; 506],
    ];
    for payload in payloads {
        let mut store = Store::of_noise();
        assert_eq!(store.carry_out(0, 1, payload, &[]), [7, 0, 0], "{payload:02X?}");
        assert_eq!(store, Store::of_noise());
    }
}

/// Sound payloads that no Compare with this page makes: a value that the base has, 252 entries out of a
/// buffer that was lent whole.
#[test]
fn any_sound_payload_is_taken() {
    let base = vec![4; PAGE];
    let whole = [&[0, 7][..], &[0; 502]].concat();
    for payload in [&[9, 4][..], &[0xFF, 0xFF, 0x1F, 0x00], &whole] {
        let mut store = Store::of_noise();
        let length = payload.len() as u32;
        assert_eq!(store.carry_out(1, 1, payload, &base), [0, 1, length]);
        let (mut page, mut applied) = (vec![0; PAGE], vec![0; PAGE]);
        assert_eq!(read(&store.patch, &store.full, 1, &base, &mut page).kind, 1);
        assert_eq!(apply(&base, payload, &mut applied).number, 0);
        assert_eq!(page, applied);
    }
    // The last of them: the first trap of callers. Bytes 1 to 251 of the page are zeros.
    let mut page = vec![0; PAGE];
    assert_eq!(apply(&base, &whole, &mut page).entries, 252);
    assert_eq!((page[0], &page[1..252], page[252]), (7, &[0; 251][..], 4));
}

#[test]
fn kinds_above_2() {
    for kind in [3, 4, 255, 256, 257, 258, 65_537, 1 << 31, (1 << 31) + 2, u32::MAX - 1, u32::MAX] {
        let mut store = Store::of_noise();
        assert_eq!(store.carry_out(0, kind, &[0, 7], &[9; PAGE]), [6, 0, 0], "kind {kind}");
        assert_eq!(store, Store::of_noise());
    }
}

/// 1 with kind 2, then 2, headers, 5, 6, 8 and 7; each beside all that may come after it.
#[test]
fn the_order_of_refusals() {
    let mut store = Store::of_noise();
    let mut refused = |number: u32, block: u64, kind: u32, alter: fn(&mut Store)| {
        alter(&mut store);
        let before = store.clone();
        let page = if number == 1 { &[9; PAGE][1..] } else { &[9; PAGE] };
        let answer = store.carry_out(block, kind, &[0], page);
        assert_eq!(answer, [number, 0, 0], "block {block}, kind {kind}");
        assert_eq!(store, before);
    };
    refused(7, 0, 1, |_| {});
    refused(7, 2, 1, |_| {});
    refused(8, 2, 2, |_| {});
    refused(6, 2, 3, |_| {});
    for kind in 0..4 {
        refused(5, 3, kind, |_| {});
        refused(5, u64::MAX, kind, |_| {});
    }
    // The full header's, then the patch header's: magic 3, version 4.
    refused(4, 3, 3, |store| store.full[8] = 2);
    refused(3, 3, 2, |store| store.patch[511] = 1);
    refused(4, 3, 1, |store| store.patch[8] = 1);
    refused(3, 3, 0, |store| store.patch[0] = 0);
    for kind in 0..4 {
        refused(2, 3, kind, |store| store.full.push(0));
    }
    refused(1, 3, 2, |_| {});
}

/// A write by the pair, over a base that is not zeros: what Compare decides, what is stored, and that it
/// reads back over the same base.
#[test]
fn a_write_by_the_pair() {
    let base = vec![4; PAGE];
    let changed = |count: usize| {
        let mut page = base.clone();
        page[..count].fill(5);
        page
    };
    // Bytes that differ, Compare's kind and length, and what is answered.
    for (count, decided, answer) in [
        (0, (0, 0), [0, 0, 0]),
        (1, (1, 2), [0, 1, 2]),
        (252, (1, 504), [0, 1, 504]),
        (253, (2, 506), [0, 2, 0]),
        (PAGE, (2, 16_384), [0, 2, 0]),
    ] {
        let page = changed(count);
        let mut buffer = [0xEE; 504];
        let compared = compare(&base, &page, &mut buffer);
        assert_eq!((compared.number, (compared.kind, compared.length)), (0, decided));
        let own = if compared.kind == 1 { &buffer[..compared.length as usize] } else { &[] };
        let mut store = Store::of_noise().with_slot(0, &[]).with_place(0, 0).with_slot(2, &[]);
        assert_eq!(store.carry_out(1, compared.kind, own, &page), answer);
        let mut again = vec![0xEE; PAGE];
        let reading = read(&store.patch, &store.full, 1, &base, &mut again);
        assert_eq!((reading.number, reading.kind), (0, decided.0));
        assert_eq!(again, page);
        assert_eq!(build(&store.patch, &store.full, &mut [0]).number, 0);
    }
}
