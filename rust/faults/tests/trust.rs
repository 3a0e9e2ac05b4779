//! What docs/TRUST.md says of damaged stores is so. The promises are written here by hand, and the
//! tables in the document must be those that the program prints.

use std::sync::Mutex;

use faults::cases::{self, Case, Given, Others, Page};
use faults::flips::{self, Counts, Part, PARTS};
use faults::maps::{self, Bit};
use faults::shipped::{self, Block};
use faults::store::{place, slot, Store};
use faults::{checksum, tables};
use thonxiliko::{entries, show, Kind, Refusal, Stores, PAGE_SIZE, SLOT_SIZE};

fn ground() -> (Store, Vec<Block>) {
    let blocks = shipped::blocks(&shipped::folder()).expect("the shipped pages");
    (Store::of(&blocks).expect("a store"), blocks)
}

/// The counts of the whole store, made once for all tests.
fn table() -> flips::Table {
    static TABLE: Mutex<Option<flips::Table>> = Mutex::new(None);
    let mut table = TABLE.lock().expect("no test failed while it counted");
    *table.get_or_insert_with(|| {
        let (store, blocks) = ground();
        flips::count(&store, &blocks)
    })
}

/// The first block of a kind.
fn first(store: &Store, kind: Kind) -> usize {
    let kinds = store.kinds().expect("a sound store");
    kinds.iter().position(|other| *other == kind).expect("a block of each kind")
}

fn read(store: &Store, block: usize) -> (Result<Kind, Refusal>, Vec<u8>) {
    let mut page = vec![0xAB; PAGE_SIZE];
    (store.read(block, &mut page).map_err(Refusal::from), page)
}

#[test]
fn the_undamaged_store_is_sound() {
    let (store, blocks) = ground();
    assert_eq!(store.build(), Ok(()));
    for (at, block) in blocks.iter().enumerate() {
        let (kind, page) = read(&store, at);
        assert!(kind.is_ok() && page == block.page, "block {at}");
    }
}

/// The checksum here is the server's: it fits every page that a server wrote, and no other block.
#[test]
fn the_checksum_is_postgresqls() {
    let (_, blocks) = ground();
    for Block { number, base, page } in &blocks {
        for page in [base, page].into_iter().filter(|page| !page.is_empty()) {
            assert!(checksum::taken(page, *number));
            assert!(!checksum::taken(page, number + 1));
            let mut other = page.clone();
            other[100] ^= 1;
            assert!(!checksum::taken(&other, *number));
        }
    }
}

#[test]
fn every_flipped_bit_comes_to_one_thing() {
    let (store, _) = ground();
    let table = table();
    let of = |part: Part| table[part as usize];
    let mut all = Counts::default();
    for part in PARTS {
        assert!(of(part).bits > 0 && of(part).add_up(), "{part:?}: {:?}", of(part));
        all.add(&of(part));
    }
    assert_eq!(all.bits, 8 * (store.patch.len() + store.full.len()) as u64);

    // Noticed, every bit.
    for header in [Part::PatchHeader, Part::FullHeader] {
        assert_eq!(of(header).header + of(header).version, of(header).bits);
    }
    assert_eq!(of(Part::PatchTail).slot, of(Part::PatchTail).bits);
    // An offset names the damaged entry at times, and an entry behind it at others.
    let payloads = of(Part::Payload);
    assert!(payloads.named > 0 && payloads.named < payloads.payload);
    assert_eq!(of(Part::FullSlot).refused_by_build(), of(Part::FullSlot).bits);
    assert_eq!(of(Part::ZeroPlace).stray_right, of(Part::ZeroPlace).bits);

    // Not noticed: most of the payloads, every bit of a full page, an EMPTY slot that becomes FULL_REF.
    assert!(of(Part::Payload).other_page > of(Part::Payload).bits / 2);
    assert_eq!(of(Part::FullPage).other_page, of(Part::FullPage).bits);
    assert_eq!((of(Part::EmptySlot).other_page, of(Part::EmptySlot).taken), (1, 1));
}

/// A flipped bit that makes a long jump short is noticed, and the offset names that very entry.
#[test]
fn a_long_jump_that_becomes_short_is_named() {
    let (store, blocks) = ground();
    let mut met = 0;
    for block in 0..blocks.len() {
        let payload = show(&store.patch, block as u64).unwrap_or(&[]);
        let mut reader = entries(payload);
        let mut offset = reader.offset();
        while reader.next().is_some() {
            // A high byte with one bit, and a low byte that is a short jump.
            let high_byte = match payload[offset..] {
                [255, 0..=254, high, ..] => high,
                _ => 0,
            };
            if high_byte.is_power_of_two() {
                let mut damaged = store.clone();
                damaged.patch[slot(block)][8 + offset + 2] ^= high_byte;
                let fault = damaged.read(block, &mut [0; PAGE_SIZE]).unwrap_err();
                assert_eq!((fault.refusal, fault.offset), (Refusal::Payload, Some(offset)));
                let built = damaged.build().unwrap_err();
                assert_eq!((built.block, built.offset), (Some(block as u64), Some(offset)));
                met += 1;
            }
            offset = reader.offset();
        }
    }
    assert!(met > 0, "the shipped pages have such a jump");
}

/// The counts can tell: held against another page than the one that was written, no flip gives the page.
#[test]
fn the_counts_tell_right_from_wrong() {
    let (store, blocks) = ground();
    let block = blocks[first(&store, Kind::Patch)].clone();
    let mut small = Store::fresh(std::slice::from_ref(&block), 1).expect("a store");
    small.write(0, &block).expect("a sound store");
    let place = |table: flips::Table| table[Part::ZeroPlace as usize];

    let right = place(flips::count(&small, std::slice::from_ref(&block)));
    assert_eq!((right.stray_right, right.stray_wrong), (right.bits, 0));
    let mut other = block;
    other.page[PAGE_SIZE - 1] ^= 1;
    let wrong = place(flips::count(&small, &[other]));
    assert_eq!((wrong.stray_right, wrong.stray_wrong), (0, wrong.bits));
}

#[test]
fn a_patch_slot_of_zeros_reads_as_its_base() {
    let (mut store, blocks) = ground();
    let block = first(&store, Kind::Patch);
    store.patch[slot(block)].fill(0);
    assert_eq!(read(&store, block), (Ok(Kind::Empty), blocks[block].base.clone()));
    assert_ne!(blocks[block].base, blocks[block].page);
    assert_eq!(store.build(), Ok(()));
    // The base page is a page of the server's own: its checksum fits.
    assert!(checksum::taken(&blocks[block].base, blocks[block].number));
}

#[test]
fn a_lost_full_page_is_zeros_and_a_stray_one_is_noticed_by_build() {
    let (store, blocks) = ground();
    let block = first(&store, Kind::Full);
    let mut lost = store.clone();
    lost.full[place(block)].fill(0);
    assert_eq!(read(&lost, block), (Ok(Kind::Full), vec![0; PAGE_SIZE]));
    assert_eq!(lost.build(), Ok(()));

    let mut stray = store;
    stray.patch[slot(block)].fill(0);
    assert_eq!(read(&stray, block), (Ok(Kind::Empty), blocks[block].base.clone()));
    let fault = stray.build().unwrap_err();
    assert_eq!((fault.refusal, fault.block), (Refusal::StrayPage, Some(block as u64)));
}

#[test]
fn a_cut_area_is_refused_with_2_unless_whole_slots_are_cut() {
    let (store, blocks) = ground();
    let last = blocks.len() - 1;
    for cut in 1..SLOT_SIZE {
        let mut damaged = store.clone();
        damaged.patch.truncate(store.patch.len() - cut);
        assert_eq!(read(&damaged, 0).0, Err(Refusal::AreaLength), "{cut} bytes");
        assert_eq!(damaged.build().unwrap_err().refusal, Refusal::AreaLength);
    }
    let mut shorter = store.clone();
    shorter.patch.truncate(store.patch.len() - SLOT_SIZE);
    assert_eq!(shorter.build(), Ok(()));
    assert_eq!(read(&shorter, last).0, Err(Refusal::Block));
    for cut in [1, 511, 4_096, PAGE_SIZE - 1] {
        let mut damaged = store.clone();
        damaged.full.truncate(store.full.len() - cut);
        assert_eq!(read(&damaged, 0).0, Err(Refusal::AreaLength), "{cut} bytes");
        assert_eq!(damaged.build().unwrap_err().refusal, Refusal::AreaLength);
    }
}

#[test]
fn another_base_is_not_noticed() {
    let (store, blocks) = ground();
    for kind in [Kind::Empty, Kind::Patch, Kind::Full] {
        let block = first(&store, kind);
        let mut damaged = store.clone();
        damaged.bases[block] = cases::later_base(&blocks[block]);
        assert_eq!(damaged.build(), Ok(()));
        let (given, page) = read(&damaged, block);
        assert_eq!(given, Ok(kind));
        // A full page needs no base; what the others give depends on it.
        assert_eq!(page == blocks[block].page, kind == Kind::Full);
    }
}

/// Cases of the table that nothing above has by hand.
#[test]
fn swapped_and_doubled_slots_are_not_noticed() {
    let (store, blocks) = ground();
    let all = cases::all(&store, &blocks);
    let case = |what: &str| -> &Case {
        all.iter().find(|case| case.what == what).unwrap_or_else(|| panic!("no case '{what}'"))
    };
    for what in ["two PATCH slots swapped", "a PATCH slot also over an EMPTY one"] {
        let case = case(what);
        assert_eq!((case.build, case.others), ((0, None), Others::Written), "{what}");
        for (_, given) in &case.reads {
            let never = Given::Page { kind: Kind::Patch, page: Page::Never, taken: false };
            assert_eq!(*given, never, "{what}");
        }
    }
    let older = case("a PATCH slot as it was before the last write");
    assert_eq!(older.build, (0, None));
    let taken = Given::Page { kind: Kind::Patch, page: Page::Earlier, taken: true };
    assert_eq!(older.reads[0].1, taken);
}

fn read_by(map: &[u8], store: &Store, block: usize) -> (Result<Kind, Refusal>, Vec<u8>) {
    let mut page = vec![0xAB; PAGE_SIZE];
    (store.read_mapped(map, block, &mut page).map_err(Refusal::from), page)
}

#[test]
fn by_its_own_map_every_block_reads_as_it_was_written() {
    let (store, blocks) = ground();
    let map = store.map().expect("a sound store");
    for (at, block) in blocks.iter().enumerate() {
        assert_eq!(read_by(&map, &store, at), read(&store, at));
        assert_eq!(read_by(&map, &store, at).1, block.page, "block {at}");
    }
}

/// The case to fear: the page of last night, by a read that is not refused, and its checksum fits.
#[test]
fn a_map_that_missed_a_write_gives_the_page_of_before() {
    let (store, blocks) = ground();
    let nothing_written = vec![0; store.map().expect("a sound store").len()];
    for kind in [Kind::Patch, Kind::Full] {
        let block = first(&store, kind);
        let Block { base, page, number } = &blocks[block];
        assert_eq!(read_by(&nothing_written, &store, block), (Ok(Kind::Empty), base.clone()));
        assert!(base != page && checksum::taken(base, *number));
    }
}

/// What a kept map notices and Read does not: a PATCH slot that was lost.
#[test]
fn a_lost_patch_slot_is_noticed_by_a_kept_map() {
    let (mut store, blocks) = ground();
    let map = store.map().expect("a sound store");
    let block = first(&store, Kind::Patch);
    store.patch[slot(block)].fill(0);
    assert_eq!(read(&store, block), (Ok(Kind::Empty), blocks[block].base.clone()));
    assert_eq!(read_by(&map, &store, block), (Err(Refusal::Slot), vec![0xAB; PAGE_SIZE]));
}

/// Slots that the map makes needless are not looked at; PATCH slots are noticed as Read notices them; a
/// bit of a map is noticed by chance.
#[test]
fn every_bit_comes_to_one_thing_when_read_by_a_map() {
    let (store, blocks) = ground();
    let (table, by_map) = (table(), maps::count(&store, &blocks));
    let mut bits = 0;
    for counts in &by_map {
        assert!(counts.bits > 0 && counts.add_up(), "{counts:?}");
        bits += counts.bits;
        match counts.bit {
            Bit::Area(Part::EmptySlot | Part::FullSlot) => {
                assert_eq!(counts.same_page, counts.bits)
            }
            Bit::Area(part) => {
                let by_slot = table[part as usize];
                assert_eq!(counts.refused[6..8], [by_slot.slot, by_slot.payload], "{part:?}");
                assert_eq!(counts.refused[3..5], [by_slot.header, by_slot.version], "{part:?}");
                let pages = (counts.other_page, counts.same_page);
                assert_eq!(pages, (by_slot.other_page, by_slot.same_page), "{part:?}");
            }
            // One bit makes 3 of 1 or 2, and 0 by the other.
            Bit::Pair(Kind::Patch | Kind::Full) => {
                let half = counts.bits / 2;
                assert_eq!((counts.refused[11], counts.other_page), (half, half));
            }
            Bit::Pair(Kind::Empty) => assert_eq!(counts.refused[11], 0),
        }
    }
    assert_eq!(bits, 8 * store.patch.len() as u64 + 2 * blocks.len() as u64);
}

/// Cases of the table that nothing above has by hand.
#[test]
fn what_a_wrong_map_says_is_done() {
    let (store, blocks) = ground();
    let all = maps::cases(&store, &blocks);
    let by_map = |what: &str| {
        let case = all.iter().find(|case| case.what == what);
        case.unwrap_or_else(|| panic!("no case '{what}'")).by_map
    };
    let page = |kind, page| Given::Page { kind, page, taken: true };
    let missed = "a PATCH write that the map missed, full before";
    assert_eq!(by_map(missed), page(Kind::Full, Page::Zeros));
    let missed = "a FULL_REF write that the map missed, PATCH before";
    assert_eq!(by_map(missed), Given::Refused(6));
    assert_eq!(by_map("the map says full of a block not below m"), Given::Refused(8));
    let lost = "a FULL_REF slot set to zeros, the map kept";
    assert_eq!(by_map(lost), page(Kind::Full, Page::Written));
}

/// A sweep where no write was stopped: Build accepts the store again, and a page is gone for good.
#[test]
fn a_sweep_erases_the_page_of_a_lost_slot() {
    let (mut store, blocks) = ground();
    let block = first(&store, Kind::Full);
    store.patch[slot(block)].fill(0);
    assert_eq!(store.full[place(block)], blocks[block].page);
    assert_eq!(store.build().unwrap_err().refusal, Refusal::StrayPage);
    store.sweep().expect("sound slots");
    assert_eq!(store.build(), Ok(()));
    assert_eq!(store.full[place(block)], [0; PAGE_SIZE]);
    assert_eq!(read(&store, block), (Ok(Kind::Empty), blocks[block].base.clone()));
}

/// The trap: a full block is to be as its base again, the write is stopped and swept. By the map from
/// before it is zeros, neither the page that it was nor the one that it became.
#[test]
fn a_map_from_before_a_stop_gives_zeros_after_the_sweep() {
    let (mut store, blocks) = ground();
    let map = store.map().expect("a sound store");
    let block = first(&store, Kind::Full);
    let Block { base, page, .. } = &blocks[block];
    assert!(base.len() == PAGE_SIZE && base[..] != [0; PAGE_SIZE] && page[..] != [0; PAGE_SIZE]);
    store.write_told(block, base, base, Stores::One).expect("a sound store");
    assert_eq!(read_by(&map, &store, block), (Ok(Kind::Full), page.clone()));
    assert_eq!(read(&store, block), (Ok(Kind::Empty), base.clone()));
    store.sweep().expect("sound slots");
    assert_eq!(read_by(&map, &store, block), (Ok(Kind::Full), vec![0; PAGE_SIZE]));
    let anew = store.map().expect("a sound store");
    assert_eq!(read_by(&anew, &store, block), (Ok(Kind::Empty), base.clone()));
}

/// The document's figures are those of this tree.
#[test]
fn the_document_has_the_tables_that_are_printed() {
    let path = shipped::folder().join("../../docs/TRUST.md");
    let document = std::fs::read_to_string(path).expect("docs/TRUST.md");
    let (store, blocks) = ground();
    let table = table();
    let printed = [
        tables::kinds(&store.kinds().expect("a sound store"), store.pages()),
        tables::flips(&table),
        tables::in_words(&table),
        tables::cases(&cases::all(&store, &blocks)),
        tables::mapped_flips(&maps::count(&store, &blocks)),
        tables::mapped_cases(&maps::cases(&store, &blocks)),
    ];
    for text in printed {
        let missing = text.lines().find(|line| !document.lines().any(|other| other == *line));
        assert!(
            document.contains(&text),
            "docs/TRUST.md is not what 'cargo run -p faults' prints, from here on: {missing:?}"
        );
    }
}
