//! Where payloads break and what a reader of entries gives, worked by hand from the rules. Nothing is
//! linked for these.

use independent::{apply, build, format, next, read, read_mapped, Applied, Built, Reading, Step};

const PAGE: usize = 8192;

/// The entries of a payload and how it ends: at its end, or by a stop at an offset.
struct Worked {
    payload: Vec<u8>,
    entries: Vec<(i32, u8)>,
    breaks_at: Option<u32>,
}

fn sound(payload: &[u8], entries: &[(i32, u8)]) -> Worked {
    Worked { payload: payload.to_vec(), entries: entries.to_vec(), breaks_at: None }
}

fn broken(payload: &[u8], entries: &[(i32, u8)], at: u32) -> Worked {
    Worked { payload: payload.to_vec(), entries: entries.to_vec(), breaks_at: Some(at) }
}

fn worked_by_hand() -> Vec<Worked> {
    vec![
        sound(&[0x00, 0x07], &[(0, 7)]),
        sound(&[0xFE, 0x01], &[(254, 1)]),
        sound(&[0xFF, 0xFF, 0x00, 0x01], &[(255, 1)]),
        sound(&[0xFF, 0xFF, 0x1F, 0x01], &[(8191, 1)]),
        sound(&[0x00, 0x01, 0xFE, 0x01], &[(0, 1), (255, 1)]),
        sound(&[0x00, 0x01, 0xFF, 0xFF, 0x00, 0x01], &[(0, 1), (256, 1)]),
        // The long code: 256, whose low byte is 0, 510 and 511, in the first entry and in a later one.
        sound(&[0xFF, 0x00, 0x01, 0x05], &[(256, 5)]),
        sound(&[0xFF, 0xFE, 0x01, 0x05], &[(510, 5)]),
        sound(&[0xFF, 0xFF, 0x01, 0x05], &[(511, 5)]),
        sound(&[0x00, 0x01, 0xFF, 0x00, 0x01, 0x05], &[(0, 1), (257, 5)]),
        // A jump of 255 in two entries, the second from position 255.
        sound(&[0xFF, 0xFF, 0x00, 0x01, 0xFF, 0xFF, 0x00, 0x02], &[(255, 1), (511, 2)]),
        // The long code with a jump below 255: 0 (P12), 1, 253 and 254, in each entry.
        broken(&[0xFF, 0x00, 0x00, 0x05], &[], 0),
        broken(&[0xFF, 0x01, 0x00, 0x05], &[], 0),
        broken(&[0xFF, 0xFD, 0x00, 0x05], &[], 0),
        broken(&[0xFF, 0xFE, 0x00, 0x05], &[], 0),
        broken(&[0x00, 0x01, 0xFF, 0x00, 0x00, 0x05], &[(0, 1)], 2),
        broken(&[0x00, 0x01, 0xFF, 0xFE, 0x00, 0x05], &[(0, 1)], 2),
        broken(&[0xFF, 0xFF, 0x00, 0x01, 0xFF, 0xFE, 0x00, 0x05], &[(255, 1)], 4),
        broken(
            &[0x00, 0x01, 0xFF, 0xFF, 0x00, 0x01, 0xFF, 0xFE, 0x00, 0x05],
            &[(0, 1), (256, 1)],
            6,
        ),
        // The same in an entry that would leave the page, and twice: the first counts.
        broken(&[0xFF, 0xFF, 0x1F, 0x01, 0xFF, 0x00, 0x00, 0x05], &[(8191, 1)], 4),
        broken(&[0x00, 0x01, 0xFF, 0x01, 0x00, 0x05, 0xFF, 0x01, 0x00, 0x05], &[(0, 1)], 2),
        // Out of the page: by one jump of 8,192 (P7), by the entry after the last byte (P8), by far.
        broken(&[0xFF, 0x00, 0x20, 0x01], &[], 0),
        broken(&[0xFF, 0xFF, 0x1F, 0x01, 0x00, 0x02], &[(8191, 1)], 4),
        broken(&[0xFF, 0xFE, 0x1F, 0x01, 0x01, 0x02], &[(8190, 1)], 4),
        broken(&[0x00, 0x07, 0xFF, 0xFF, 0xFF, 0x01], &[(0, 7)], 2),
        // The first unsound entry counts, not a later one.
        broken(&[0xFF, 0x00, 0x20, 0x01, 0x00], &[], 0),
        broken(&[0xFF, 0x00, 0x00, 0x05, 0x00], &[], 0),
        // Cut off: after a jump (P9), inside the long code, before its value.
        broken(&[0x00], &[], 0),
        broken(&[0xFF], &[], 0),
        broken(&[0xFF, 0x00], &[], 0),
        broken(&[0xFF, 0x00, 0x00], &[], 0),
        broken(&[0xFF, 0xFF, 0x00], &[], 0),
        broken(&[0x00, 0x07, 0x00], &[(0, 7)], 2),
        broken(&[0x00, 0x01, 0xFF, 0xFF, 0x00], &[(0, 1)], 2),
        broken(&[0xFF, 0xFF, 0x00, 0x01, 0xFE], &[(255, 1)], 4),
        broken(&[0x00, 0x01, 0xFF, 0xFF, 0x00, 0x01, 0xFF, 0x00], &[(0, 1), (256, 1)], 6),
        // The longest that is sound, one byte less, and overlong ones: whole entries, a cut one,
        // entries that break early.
        sound(&[0; 504], &(0..252).map(|at| (at, 0)).collect::<Vec<_>>()),
        broken(&[0; 503], &(0..251).map(|at| (at, 0)).collect::<Vec<_>>(), 502),
        broken(&[0; 505], &[], 0),
        broken(&[0; 506], &[], 0),
        broken(&[&[0x00, 0x07, 0xFF, 0x00, 0x20][..], &[0; 600]].concat(), &[], 0),
        broken(&[&[0x00, 0x07, 0xFF, 0x00, 0x00][..], &[0; 600]].concat(), &[], 0),
        broken(&[], &[], 0),
    ]
}

/// A base of zeros with the entries' bytes.
fn page_of(entries: &[(i32, u8)]) -> Vec<u8> {
    let mut page = vec![0; PAGE];
    entries.iter().for_each(|(position, value)| page[*position as usize] = *value);
    page
}

#[test]
fn apply_gives_the_offset_of_the_first_unsound_entry() {
    for Worked { payload, entries, breaks_at } in worked_by_hand() {
        let mut page = vec![0xEE; PAGE];
        let applied = apply(&[], &payload, &mut page);
        match breaks_at {
            Some(offset) => {
                let refused = Applied { number: 7, entries: 0, last: 0, offset };
                assert_eq!(applied, refused, "{payload:02X?}");
                assert_eq!(page, [0xEE; PAGE], "{payload:02X?}");
            }
            None => {
                let (count, last) = (entries.len() as u32, entries[entries.len() - 1].0);
                let done = Applied { number: 0, entries: count, last, offset: 0 };
                assert_eq!(applied, done, "{payload:02X?}");
                assert_eq!(page, page_of(&entries), "{payload:02X?}");
            }
        }
    }
}

/// Another refusal has no offset, though the payload breaks past its beginning.
#[test]
fn a_wrong_page_is_refused_without_an_offset() {
    let refused = Applied { number: 1, ..Applied::default() };
    assert_eq!(apply(&[1], &[0x00, 0x07, 0x00], &mut [0; PAGE]), refused);
    assert_eq!(apply(&[], &[0x00, 0x07, 0x00], &mut [0; 1]), refused);
}

/// A patch area of three blocks, the payload in block 1.
fn area_with(payload: &[u8]) -> Vec<u8> {
    let mut patch = vec![0; 512 + 3 * 512];
    assert_eq!(format(&mut patch, &mut []).number, 0);
    patch[1024..1026].copy_from_slice(&[1, 1]);
    patch[1026..1028].copy_from_slice(&(payload.len() as u16).to_le_bytes());
    patch[1032..1032 + payload.len()].copy_from_slice(payload);
    patch
}

#[test]
fn both_reads_and_build_pass_the_offset_on() {
    for Worked { payload, breaks_at, .. } in worked_by_hand() {
        if !(1..=504).contains(&payload.len()) {
            continue;
        }
        let patch = area_with(&payload);
        let reading = read(&patch, &[], 1, &[], &mut [0; PAGE]);
        // By pair 2 of block 1.
        let by_map = read_mapped(&patch, &[], &[0b1000], 1, &[], &mut [0; PAGE]);
        assert_eq!(by_map, reading, "{payload:02X?}");
        let built = build(&patch, &[], &mut [0; 1]);
        match breaks_at {
            Some(offset) => {
                assert_eq!(reading, Reading { number: 7, kind: 0, offset }, "{payload:02X?}");
                assert_eq!(built, Built { number: 7, block: 1, offset }, "{payload:02X?}");
            }
            None => {
                assert_eq!(reading, Reading { number: 0, kind: 1, offset: 0 }, "{payload:02X?}");
                assert_eq!(built, Built::default(), "{payload:02X?}");
            }
        }
    }
}

/// Other refusals of a block whose payload breaks past its beginning have no offset.
#[test]
fn other_refusals_of_a_block_have_no_offset() {
    let sound_slot = area_with(&[0x00, 0x07, 0x00]);
    let mut unsound_slot = sound_slot.clone();
    unsound_slot[1024 + 4] = 1;
    let mut page = [0; PAGE];
    let refused = |number| Reading { number, kind: 0, offset: 0 };
    assert_eq!(read(&sound_slot, &[], 1, &[1], &mut page), refused(1));
    assert_eq!(read(&sound_slot[1..], &[], 1, &[], &mut page), refused(2));
    assert_eq!(read(&sound_slot, &[], 3, &[], &mut page), refused(5));
    assert_eq!(read(&unsound_slot, &[], 1, &[], &mut page), refused(6));
    assert_eq!(build(&unsound_slot, &[], &mut [0]), Built { number: 6, block: 1, offset: 0 });
    assert_eq!(build(&sound_slot, &[], &mut []), Built { number: 9, block: 0, offset: 0 });
}

/// From the beginning to the end or the stop, and two steps more that change nothing.
#[test]
fn a_reader_gives_the_entries_and_stands_where_it_ended() {
    for Worked { payload, entries, breaks_at } in worked_by_hand() {
        let (mut at, mut position) = (0, -1);
        for (wanted, value) in &entries {
            let step = next(&payload, at, position);
            assert_eq!((step.number, step.found), (0, 1), "{payload:02X?}");
            assert_eq!((step.position, step.value), (*wanted, u32::from(*value)));
            (at, position) = (step.at, step.position);
        }
        let stands_at = breaks_at.map_or(payload.len() as u64, u64::from);
        let number = if breaks_at.is_some() { 7 } else { 0 };
        for _ in 0..3 {
            let step = next(&payload, at, position);
            let stands = Step { number, found: 0, at: stands_at, position, value: 0 };
            assert_eq!(step, stands, "{payload:02X?}");
            (at, position) = (step.at, step.position);
        }
    }
}

/// Any place and position, in the order of the rules.
#[test]
fn one_step_from_anywhere() {
    let stands = |number, at, position| Step { number, found: 0, at, position, value: 0 };
    let gives = |at, position, value| Step { number: 0, found: 1, at, position, value };
    let two = [0x00, 0x07, 0x02, 0x08];

    // Empty and overlong first, wherever the reader stands.
    for at in [0, 1, 504, 505, u64::MAX] {
        for position in [-1, 5, 8191, 8192, -2, i32::MIN, i32::MAX] {
            assert_eq!(next(&[], at, position), stands(7, at, position));
            assert_eq!(next(&[0; 505], at, position), stands(7, at, position));
        }
    }
    // Then the end, whatever the position.
    for at in [4, 5, 1 << 32, u64::MAX] {
        for position in [-1, 8192, -2, i32::MIN, i32::MAX] {
            assert_eq!(next(&two, at, position), stands(0, at, position));
        }
    }
    // Then the position.
    for position in [8192, -2, i32::MIN, i32::MAX] {
        assert_eq!(next(&two, 0, position), stands(7, 0, position));
    }
    // Then the entry: at either place, between them, at the page's end and past it.
    assert_eq!(next(&two, 0, -1), gives(2, 0, 7));
    assert_eq!(next(&two, 2, 0), gives(4, 3, 8));
    assert_eq!(next(&two, 2, -1), gives(4, 2, 8));
    assert_eq!(next(&two, 1, 0), gives(3, 8, 2));
    assert_eq!(next(&two, 3, 0), stands(7, 3, 0));
    assert_eq!(next(&two, 0, 8190), gives(2, 8191, 7));
    assert_eq!(next(&two, 0, 8191), stands(7, 0, 8191));
    assert_eq!(next(&two, 2, 8188), gives(4, 8191, 8));
    assert_eq!(next(&two, 2, 8189), stands(7, 2, 8189));
    // A jump of 255 in the long code and one of 254, from anywhere and from inside another entry.
    let long = [0x00, 0xFF, 0xFE, 0x00, 0xFF, 0xFF, 0x00, 0x09];
    for position in [-1, 0, 7000] {
        assert_eq!(next(&long, 4, position), gives(8, position + 256, 9));
        assert_eq!(next(&long, 1, position), stands(7, 1, position));
        assert_eq!(next(&long, 2, position), gives(4, position + 255, 0));
    }
}

/// The spelling of entries by the writer's rule, which is the only one that the reader takes.
fn spelled(entries: &[(i32, u8)]) -> Vec<u8> {
    let mut bytes = Vec::new();
    let mut next = 0;
    for (position, value) in entries {
        match u8::try_from(position - next) {
            Ok(jump @ 0..=254) => bytes.push(jump),
            _ => {
                bytes.push(255);
                bytes.extend(((position - next) as u16).to_le_bytes());
            }
        }
        bytes.push(*value);
        next = position + 1;
    }
    bytes
}

/// The entries of a payload by the reader; none if it is not sound.
fn read_through(payload: &[u8]) -> Option<Vec<(i32, u8)>> {
    let mut entries = Vec::new();
    let mut step = next(payload, 0, -1);
    while step.found == 1 {
        entries.push((step.position, step.value as u8));
        step = next(payload, step.at, step.position);
    }
    (step.number == 0).then_some(entries)
}

/// Every long jump, alone and after an entry: sound from 255 to the page's end, and then the only
/// spelling of its entries.
#[test]
fn every_long_jump() {
    let untouched = [0xEE; PAGE];
    let mut page = untouched;
    for jump in 0..=u16::MAX {
        let [low, high] = jump.to_le_bytes();
        for before in [&[][..], &[(0, 1)]] {
            let payload = [&spelled(before)[..], &[0xFF, low, high, 0x05]].concat();
            let position = i32::from(jump) + before.len() as i32;
            let applied = apply(&[], &payload, &mut page);
            if jump >= 255 && position <= 8191 {
                let entries = [before, &[(position, 5)]].concat();
                let count = entries.len() as u32;
                assert_eq!(
                    applied,
                    Applied { number: 0, entries: count, last: position, offset: 0 }
                );
                assert!(page[..] == page_of(&entries), "{payload:02X?}");
                assert_eq!(read_through(&payload).as_deref(), Some(&entries[..]));
                assert_eq!(spelled(&entries), payload);
                page = untouched;
            } else {
                let offset = 2 * before.len() as u32;
                assert_eq!(applied, Applied { number: 7, entries: 0, last: 0, offset });
                assert!(page == untouched, "{payload:02X?}");
                assert_eq!(read_through(&payload), None, "{payload:02X?}");
            }
        }
    }
}
