//! What a write that is stopped has stored, how blocks read after it, and what a sweep clears and refuses.

use super::{
    a_base, carry_out, carry_out_mapped, case, full_area, large, p1, patch_area, patch_slot, put,
    read, same, slot, sweep, with, zeros, Case, Put,
};
use crate::call::PAGE;
use crate::generate::Decision;

/// Four blocks and three places: EMPTY over a stray page, PATCH, FULL_REF, and PATCH without a place. The
/// map of their slots.
fn stoppable() -> ([Vec<u8>; 2], u8) {
    let slots = [slot(&[]), patch_slot(&[3, 3]), slot(&[2]), patch_slot(&[3, 3])];
    let patch = with(patch_area(4), 512, &slots.concat());
    let full = with(full_area(3), 4096, &[0x77; PAGE]);
    ([patch, with(full, 20_480, &[0x99; PAGE])], 0b10_01_10_00)
}

/// The page that is stored whole.
const SIXES: [u8; PAGE] = [6; PAGE];

/// For each block and kind what the whole write makes of the map; none where it is refused.
const MAP_AFTER: [(u64, [Option<u8>; 3]); 4] = [
    (0, [Some(0b10_01_10_00), Some(0b10_01_10_10), Some(0b10_01_10_01)]),
    (1, [Some(0b10_01_00_00), Some(0b10_01_10_00), Some(0b10_01_01_00)]),
    (2, [Some(0b10_00_10_00), Some(0b10_10_10_00), Some(0b10_01_10_00)]),
    (3, [Some(0b00_01_10_00), Some(0b10_01_10_00), None]),
];

/// The stores of a decision on a block of these, in their order.
fn stores_of(kind: u32, block: u64) -> Vec<Put> {
    let (slot_at, place_at) = (512 + 512 * block as usize, 4096 + 8192 * block as usize);
    let mut stores = match kind {
        0 => vec![put(0, slot_at, &slot(&[])), put(1, place_at, &zeros())],
        1 => vec![put(0, slot_at, &patch_slot(&[0, 7])), put(1, place_at, &zeros())],
        _ => vec![put(1, place_at, &SIXES), put(0, slot_at, &slot(&[2]))],
    };
    // Block 3 has no place.
    stores.retain(|store| store.buffer == 0 || block < 3);
    stores
}

/// One decision told so many stores, without a map and with it, and what each makes.
fn told(cases: &mut Vec<Case>, block: u64, decision: &Decision, map: u8, stores: u64) {
    let (areas, old) = stoppable();
    let length = decision.payload.len() as i128;
    let answer = [0, decision.kind.into(), length];
    let in_order = stores_of(decision.kind, block);
    let made = if stores < 2 { stores as usize } else { in_order.len() };
    let name = format!("kind {} on block {block}, told {stores}", decision.kind);
    let input = carry_out(areas.clone(), block, decision).storing(stores);
    cases.push(case(&name, input, &answer, &in_order[..made]));
    let mut puts = in_order[..made].to_vec();
    puts.extend((stores > 1).then(|| put(2, 0, &[map])));
    let input = carry_out_mapped(areas, &[old], block, decision).storing(stores);
    cases.push(case(&format!("{name}, with a map"), input, &answer, &puts));
}

/// Decisions told 0, 1 and all: so many of their stores are made, in order, and the map is set by all of
/// them alone, also where one is all that there is. The answer is the same.
pub fn stops(cases: &mut Vec<Case>) {
    let decisions = [same(&zeros()), p1(), large(&SIXES)];
    for (block, maps) in MAP_AFTER {
        for (decision, map) in decisions.iter().zip(maps) {
            // A full page without a place is refused; whatever is told, see below.
            let map = match map {
                Some(map) => map,
                None => continue,
            };
            for stores in [0, 1, 2, 3, 1 << 32, (1 << 32) + 1, 1 << 63, u64::MAX] {
                told(cases, block, decision, map, stores);
            }
        }
    }
}

/// What each block reads as after a write that was told 1: as before, or as after the whole of it.
pub fn reads_after_stops(cases: &mut Vec<Case>) {
    let new = || with(a_base(), 0, &[7]);
    let old = || with(a_base(), 3, &[3]);
    let before = [(0, a_base()), (1, old()), (2, vec![0x99; PAGE]), (1, old())];
    let writes: [(u32, u64, i128, Vec<u8>); 11] = [
        (0, 0, 0, a_base()),
        (1, 0, 1, new()),
        (2, 0, 0, a_base()),
        (0, 1, 0, a_base()),
        (1, 1, 1, new()),
        (2, 1, 1, old()),
        (0, 2, 0, a_base()),
        (1, 2, 1, new()),
        (2, 2, 2, SIXES.to_vec()),
        (0, 3, 0, a_base()),
        (1, 3, 1, new()),
    ];
    for (kind, stopped, reads, page) in writes {
        let ([mut patch, mut full], _) = stoppable();
        let first = &stores_of(kind, stopped)[0];
        let area = if first.buffer == 0 { &mut patch } else { &mut full };
        area[first.at..first.at + first.bytes.len()].copy_from_slice(&first.bytes);
        for (block, (as_before, page_before)) in before.iter().enumerate() {
            let name = format!("kind {kind} on block {stopped} stopped, block {block} read");
            let input = read(patch.clone(), full.clone(), block as u64, a_base());
            let own = block as u64 == stopped;
            let (kind, page) = if own { (reads, &page) } else { (*as_before, page_before) };
            cases.push(case(&name, input, &[0, kind], &[put(3, 0, page)]));
        }
    }
}

/// A sweep clears the places that no slot refers to, and nothing else.
pub fn sweeps(cases: &mut Vec<Case>) {
    let ([patch, full], _) = stoppable();
    let input = sweep([patch.clone(), full]);
    cases.push(case("a stray page swept", input, &[0], &[put(1, 4096, &zeros())]));
    let used = with(full_area(3), 4096, &[0x90; 3 * PAGE]);
    let both = put(1, 4096, &[0; 2 * PAGE]);
    let input = sweep([patch.clone(), used.clone()]);
    cases.push(case("two stray pages swept", input, &[0], &[both]));
    let all = [patch_area(3), used.clone()];
    let clean = [put(1, 4096, &[0; 3 * PAGE])];
    cases.push(case("three stray pages swept", sweep(all), &[0], &clean));
    let references = with(patch_area(3), 512, &slot(&[2]).repeat(3));
    cases.push(case("three pages in use swept", sweep([references, used.clone()]), &[0], &[]));
    for block in 0..3 {
        let one = with(patch_area(3), 512 + 512 * block, &slot(&[2]));
        let others = (0..3).filter(|other| *other != block);
        let puts: Vec<Put> = others.map(|other| put(1, 4096 + 8192 * other, &zeros())).collect();
        let input = sweep([one, used.clone()]);
        cases.push(case(&format!("all but page {block} swept"), input, &[0], &puts));
    }
    for places in [vec![], full_area(0)] {
        let name = format!("swept with a full area of {}", places.len());
        let slots = [patch_slot(&[0, 7]), slot(&[])].concat();
        let input = sweep([with(patch_area(2), 512, &slots), places]);
        cases.push(case(&name, input, &[0], &[]));
    }
}

/// Areas that Build accepts, and those with a byte more.
pub fn sweeps_of_bytes(cases: &mut Vec<Case>) {
    let ([patch, stray], _) = stoppable();
    let full = with(stray, 4096, &zeros());
    let input = sweep([patch.clone(), full.clone()]);
    cases.push(case("nothing to sweep", input, &[0], &[]));
    let zero_page = with(full.clone(), 20_480, &zeros());
    let input = sweep([patch.clone(), zero_page]);
    cases.push(case("a page of zeros that is in use", input, &[0], &[]));
    for at in [4096, 4097, 12_287, 12_288, 20_479] {
        let input = sweep([patch.clone(), with(full.clone(), at, &[1])]);
        cases.push(case(&format!("a stray byte {at} swept"), input, &[0], &[put(1, at, &[0])]));
    }
    for at in [20_480, 28_671] {
        let input = sweep([patch.clone(), with(full.clone(), at, &[1])]);
        cases.push(case(&format!("byte {at} of a page in use"), input, &[0], &[]));
    }
    // A payload that breaks is none of its business.
    let broken = with(patch, 1024, &patch_slot(&[9, 9, 9]));
    let input = sweep([broken, with(full, 12_288, &[1; PAGE])]);
    cases.push(case("a payload that breaks", input, &[0], &[put(1, 12_288, &zeros())]));
}

/// Refused sweeps, which leave everything: the lowest block at fault decides.
pub fn refused_sweeps(cases: &mut Vec<Case>) {
    let ([patch, full], _) = stoppable();
    let mut refused = |name: &str, slots: &[(usize, &[u8])], full: &[u8], number: i128| {
        let mut area = patch.clone();
        for (block, bytes) in slots {
            area = with(area, 512 + 512 * block, &slot(bytes));
        }
        let input = sweep([area, full.to_vec()]);
        cases.push(case(&format!("swept: {name}"), input, &[number], &[]));
    };
    let [one, two] = [full_area(1), with(full_area(2), 4096, &[0x77; PAGE])];
    for block in 0..4 {
        refused(&format!("kind 3 at block {block}"), &[(block, &[3])], &full, 6);
        refused(&format!("EMPTY with flags at block {block}"), &[(block, &[0, 1])], &full, 6);
    }
    refused("a reference without a place", &[(3, &[2])], &full, 8);
    refused("an unsound reference without a place", &[(3, &[2, 1])], &full, 6);
    refused("6 at block 0, 8 at block 3", &[(0, &[3]), (3, &[2])], &full, 6);
    refused("6 at block 2, 8 at block 3", &[(2, &[3]), (3, &[2])], &full, 6);
    refused("8 at block 2, 6 at block 3", &[(3, &[3])], &two, 8);
    refused("8 at blocks 2 and 3", &[(3, &[2])], &two, 8);
    refused("8 at block 1, 6 at block 2", &[(1, &[2]), (2, &[3])], &one, 8);
    for full in [vec![], full_area(0)] {
        let name = |what: &str| format!("{what}, full area of {}", full.len());
        refused(&name("8 at block 2"), &[], &full, 8);
        refused(&name("8 at block 0"), &[(0, &[2]), (1, &[3])], &full, 8);
        refused(&name("6 at block 1"), &[(1, &[3])], &full, 6);
        refused(&name("6 at block 3"), &[(2, &[]), (3, &[1])], &full, 6);
    }
    // Headers before slots, lengths before headers.
    let bad = with(full.clone(), 4095, &[1]);
    refused("3 before 6", &[(0, &[3])], &bad, 3);
    refused("4 before 8", &[(3, &[2])], &with(full.clone(), 9, &[1]), 4);
    refused("2 before 3 and 6", &[(0, &[3])], &[bad, vec![0]].concat(), 2);
    refused("2 for a place too many", &[(0, &[3])], &full_area(5), 2);
}

/// Every decision of the cases so far that is refused, told 0 and 1: the refusal is the same, and nothing
/// is changed.
pub fn refused_whatever_is_told(cases: &mut Vec<Case>) {
    let told_all = |case: &&Case| case.input.numbers.stores > 1 && case.input.call.carries_out();
    let refused = cases.iter().filter(told_all).filter(|case| case.expected.answer.number() != 0);
    let mut more: Vec<Case> = refused.flat_map(|case| [case.clone(), case.clone()]).collect();
    for (index, case) in more.iter_mut().enumerate() {
        case.input.numbers.stores = index as u64 % 2;
        case.name += &format!(", told {}", index % 2);
    }
    cases.extend(more);
}
