//! Every set of faults at once: the refusal must be that of the first fault in the order of the rules.
//!
//! For each call the faults stand in that order in a list, and each can be made without touching
//! what the others look at. All sets of them are tried. So the order is held to the list itself, and
//! not only to the independent implementation.

use crate::call::{
    Answer, Call, Input, Numbers, ALL, BEGINNING, FULL_HEADER, PAGE, PATCH_HEADER, PAYLOAD, SLOT,
};
use crate::generate::Areas;
use crate::harness::{Harness, Mismatch};

/// One fault: the number, block and offset that it is refused with, and how to make it.
struct Fault {
    number: i128,
    block: i128,
    offset: i128,
    make: fn(&mut Input),
    /// The kind of decision for which alone it is a fault, if it is not one for all.
    kind: Option<u32>,
}

fn fault(number: i128, make: fn(&mut Input)) -> Fault {
    Fault { number, block: 0, offset: 0, make, kind: None }
}

/// A fault of one block, which Build names.
fn fault_at(number: i128, block: i128, make: fn(&mut Input)) -> Fault {
    Fault { block, ..fault(number, make) }
}

/// A fault of what is looked at for decisions of one kind.
fn fault_of_kind(kind: u32, number: i128, make: fn(&mut Input)) -> Fault {
    Fault { kind: Some(kind), ..fault(number, make) }
}

impl Fault {
    /// A fault of a payload, which breaks at this offset.
    fn breaking_at(self, offset: i128) -> Fault {
        Fault { offset, ..self }
    }

    /// Whether it is one, all faults being made.
    fn counts(&self, input: &Input) -> bool {
        self.kind.map_or(true, |kind| kind == input.numbers.kind)
    }

    /// The answer if this fault decides.
    fn answer(&self, input: &Input) -> Answer {
        let Numbers { at, position, .. } = input.numbers;
        match input.call {
            Call::Apply => Answer::of(&[self.number, 0, 0, self.offset]),
            Call::Read | Call::ReadMapped => Answer::of(&[self.number, 0, self.offset]),
            Call::Build => Answer::of(&[self.number, self.block, self.offset]),
            Call::Next => Answer::of(&[self.number, 0, at.into(), position.into(), 0]),
            _ => Answer::of(&[self.number]),
        }
    }
}

// Where the buffers of Read, Build, the cuts, the sweep and of decisions stand.
const PATCH: usize = 0;
const FULL: usize = 1;
const BASE: usize = 2;
const DECIDED: usize = 2;
const LENT_PAGE: usize = 3;
const MAP: usize = 2;
// Where the pages stand behind the map.
const MAPPED_BASE: usize = 3;
const MAPPED_DECIDED: usize = 3;
const MAPPED_PAGE: usize = 4;

const SLOT_0: usize = PATCH_HEADER;
const SLOT_1: usize = PATCH_HEADER + SLOT;
const PLACE_0: usize = FULL_HEADER;
const PLACE_1: usize = FULL_HEADER + PAGE;

/// The six steps of the headers.
fn header_faults() -> Vec<Fault> {
    vec![
        fault(3, |input| input.buffers[PATCH][0] ^= 1),
        fault(4, |input| input.buffers[PATCH][8] ^= 1),
        fault(3, |input| input.buffers[PATCH][11] ^= 1),
        fault(3, |input| input.buffers[FULL][7] ^= 1),
        fault(4, |input| input.buffers[FULL][9] ^= 1),
        fault(3, |input| input.buffers[FULL][4095] ^= 1),
    ]
}

/// What Read checks first: pages, lengths, headers, block.
fn common_faults() -> Vec<Fault> {
    let mut faults = vec![
        fault(1, |input| input.buffers[BASE].push(0)),
        fault(1, |input| input.buffers[LENT_PAGE].truncate(PAGE - 1)),
        fault(2, |input| input.buffers[PATCH].push(0)),
        fault(2, |input| input.buffers[FULL].push(0)),
    ];
    faults.extend(header_faults());
    faults.push(fault(5, |input| input.numbers.block = 2));
    faults
}

fn unsound_slot_1(input: &mut Input) {
    input.buffers[PATCH][SLOT_1 + 4] = 1;
}

/// The short code of block 0's second entry, the last, becomes the first byte of a long one.
fn unsound_payload_0() -> Fault {
    fault_at(7, 0, |input| input.buffers[PATCH][SLOT_0 + 8 + 2] = 0xFF).breaking_at(2)
}

/// The same with block 1's third entry.
fn unsound_payload_1() -> Fault {
    fault_at(7, 1, |input| input.buffers[PATCH][SLOT_1 + 8 + 4] = 0xFF).breaking_at(4)
}

/// Two blocks: two entries in block 0 and three in block 1, so that their payloads break elsewhere.
fn patched(m: Option<usize>) -> Areas {
    let mut areas = Areas::fresh(2, m);
    for (block, entries) in [(0, 2), (1, 3)] {
        let payload = [0, 7].repeat(entries);
        let Areas { patch, full } = &mut areas;
        let written = independent::carry_out(patch, full, block, 1, &payload, &[], ALL);
        assert_eq!((written.number, written.length as usize), (0, 2 * entries));
    }
    areas
}

fn read_patch(harness: &mut Harness) -> Result<(), Mismatch> {
    let Areas { patch, full } = patched(Some(2));
    let input = Input::new(Call::Read, vec![patch, full, vec![0; PAGE], vec![0xEE; PAGE]]);
    let mut faults = common_faults();
    faults.push(fault(6, unsound_slot_1));
    faults.push(unsound_payload_1());
    all_sets(harness, &input.at_block(1), &faults)
}

fn read_full(harness: &mut Harness) -> Result<(), Mismatch> {
    let Areas { patch, full } = Areas::fresh(2, Some(1));
    let input = Input::new(Call::Read, vec![patch, full, vec![0; PAGE], vec![0xEE; PAGE]]);
    let mut faults = common_faults();
    faults.push(fault(6, unsound_slot_1));
    faults.push(fault(8, |input| input.buffers[PATCH][SLOT_1] = 2));
    all_sets(harness, &input.at_block(1), &faults)
}

/// Takes the last place away, so that block 1 has none. A byte too many stays one.
fn one_place_fewer(input: &mut Input) {
    let length = input.buffers[FULL].len() - PAGE;
    input.buffers[FULL].truncate(length);
}

/// A jump without a value at the end.
fn unsound_decision(input: &mut Input, payload: usize) {
    input.buffers[payload].push(0);
}

/// Decisions of each kind on block 1. The page is too short for FULL_REF alone, the payload unsound for
/// PATCH alone, the place missing for FULL_REF alone; a kind above 2 takes all of that away. The old slot
/// is not sound, which is no fault.
fn carry_out(harness: &mut Harness) -> Result<(), Mismatch> {
    let Areas { mut patch, full } = patched(Some(2));
    patch[SLOT_1 + 4] = 1;
    let mut faults = vec![
        fault_of_kind(2, 1, |input| input.buffers[LENT_PAGE].truncate(PAGE - 1)),
        fault(2, |input| input.buffers[PATCH].push(0)),
        fault(2, |input| input.buffers[FULL].push(0)),
    ];
    faults.extend(header_faults());
    faults.push(fault(5, |input| input.numbers.block = 2));
    faults.push(fault(6, |input| input.numbers.kind = 3));
    faults.push(fault_of_kind(2, 8, one_place_fewer));
    faults.push(fault_of_kind(1, 7, |input| unsound_decision(input, DECIDED)));
    for kind in 0..3 {
        let buffers = vec![patch.clone(), full.clone(), vec![0, 7], vec![5; PAGE]];
        let input = Input::new(Call::CarryOut, buffers).at_block(1).of_kind(kind);
        all_sets(harness, &input, &faults)?;
    }
    Ok(())
}

/// What a read by a map checks first: pages, lengths, map, headers, block. Of pages and areas, of which
/// Read has all, one each.
fn mapped_faults() -> Vec<Fault> {
    let mut faults = vec![
        fault(1, |input| input.buffers[MAPPED_BASE].push(0)),
        fault(2, |input| input.buffers[PATCH].push(0)),
        fault(9, |input| input.buffers[MAP].truncate(1)),
    ];
    faults.extend(header_faults());
    faults.push(fault(5, |input| input.numbers.block = 5));
    faults
}

/// Sets bits of block 1's pair.
fn pair_1(input: &mut Input, bits: u8) {
    input.buffers[MAP][0] |= bits << 2;
}

/// Five blocks, so that a map has two bytes, and the map of `patched`'s two.
fn five_patched(m: Option<usize>) -> [Vec<u8>; 3] {
    let Areas { patch, full } = patched(m);
    let mut longer = Areas::fresh(5, None).patch;
    longer[..patch.len()].copy_from_slice(&patch);
    [longer, full, vec![0b1010, 0]]
}

fn read_mapped_patch(harness: &mut Harness) -> Result<(), Mismatch> {
    let [patch, full, map] = five_patched(Some(2));
    let buffers = vec![patch, full, map, vec![0; PAGE], vec![0xEE; PAGE]];
    let mut faults = mapped_faults();
    faults.push(fault(11, |input| pair_1(input, 3)));
    faults.push(fault(6, unsound_slot_1));
    faults.push(unsound_payload_1());
    all_sets(harness, &Input::new(Call::ReadMapped, buffers).at_block(1), &faults)
}

/// By pair 1, and with the pages and areas that the others leave out. The slot is not sound, which is
/// no fault here.
fn read_mapped_full(harness: &mut Harness) -> Result<(), Mismatch> {
    let [mut patch, full, _] = five_patched(Some(1));
    patch[SLOT_1 + 4] = 1;
    let buffers = vec![patch, full, vec![0, 0], vec![0; PAGE], vec![0xEE; PAGE]];
    let mut faults = mapped_faults();
    faults[0] = fault(1, |input| input.buffers[MAPPED_PAGE].truncate(PAGE - 1));
    faults[1] = fault(2, |input| input.buffers[FULL].push(0));
    faults.push(fault(11, |input| pair_1(input, 3)));
    faults.push(fault(8, |input| pair_1(input, 1)));
    all_sets(harness, &Input::new(Call::ReadMapped, buffers).at_block(1), &faults)
}

/// The same with a map. Pairs of 3 are none of a decision's business. Of the areas one each, by turns.
fn carry_out_mapped(harness: &mut Harness) -> Result<(), Mismatch> {
    let [mut patch, full, _] = five_patched(Some(2));
    patch[SLOT_1 + 4] = 1;
    let mut faults = vec![
        fault_of_kind(2, 1, |input| input.buffers[MAPPED_PAGE].truncate(PAGE - 1)),
        fault(2, |input| input.buffers[PATCH].push(0)),
        fault(9, |input| input.buffers[MAP].truncate(1)),
    ];
    faults.extend(header_faults());
    faults.push(fault(5, |input| input.numbers.block = 5));
    faults.push(fault(6, |input| input.numbers.kind = u32::MAX));
    faults.push(fault_of_kind(2, 8, one_place_fewer));
    faults.push(fault_of_kind(1, 7, |input| unsound_decision(input, MAPPED_DECIDED)));
    for kind in 0..3 {
        if kind == 1 {
            faults[1] = fault(2, |input| input.buffers[FULL].push(0));
        }
        let buffers = vec![patch.clone(), full.clone(), vec![0xFF; 2], vec![0, 7], vec![5; PAGE]];
        let input = Input::new(Call::CarryOutMapped, buffers).at_block(1).of_kind(kind);
        all_sets(harness, &input, &faults)?;
    }
    Ok(())
}

/// What both cuts check alike: lengths, headers, K. K = n is no fault.
fn cut(harness: &mut Harness) -> Result<(), Mismatch> {
    let Areas { patch, full } = patched(Some(1));
    let mut faults = vec![
        fault(2, |input| input.buffers[PATCH].push(0)),
        fault(2, |input| input.buffers[FULL].push(0)),
    ];
    faults.extend(header_faults());
    faults.push(fault(5, |input| input.numbers.block = 3));
    for k in [1, 2] {
        let input = Input::new(Call::Cut, vec![patch.clone(), full.clone()]).at_block(k);
        all_sets(harness, &input, &faults)?;
    }
    Ok(())
}

/// Beside a map of pairs of 3, over an unsound slot and a page that no slot refers to: none of a cut's
/// business.
fn cut_mapped(harness: &mut Harness) -> Result<(), Mismatch> {
    let [mut patch, mut full, _] = five_patched(Some(2));
    patch[SLOT_1 + 4] = 1;
    full[PLACE_0] = 1;
    let mut faults = vec![
        fault(2, |input| input.buffers[PATCH].push(0)),
        fault(2, |input| input.buffers[FULL].push(0)),
        fault(9, |input| input.buffers[MAP].truncate(1)),
    ];
    faults.extend(header_faults());
    faults.push(fault(5, |input| input.numbers.block = 6));
    for k in [1, 5] {
        let buffers = vec![patch.clone(), full.clone(), vec![0xFF, 0xFF]];
        all_sets(harness, &Input::new(Call::CutMapped, buffers).at_block(k), &faults)?;
    }
    Ok(())
}

/// An unsound slot is the last of the faults, be it below the highest block, in its place or above it.
fn highest(harness: &mut Harness) -> Result<(), Mismatch> {
    let [patch, _, _] = five_patched(None);
    let mut faults = vec![fault(2, |input| input.buffers[PATCH].push(0))];
    // Those of the patch header.
    faults.extend(header_faults().into_iter().take(3));
    faults.extend([
        fault(6, |input| input.buffers[PATCH][SLOT_0 + 4] = 1),
        fault(6, unsound_slot_1),
        fault(6, |input| input.buffers[PATCH][SLOT_1 + 4 * SLOT - 1] = 1),
    ]);
    all_sets(harness, &Input::new(Call::Highest, vec![patch]), &faults)
}

/// Two blocks, and a place for the first. A stray page beside a payload that breaks is no fault, nor is a
/// reference to the place.
fn sweep_places(harness: &mut Harness) -> Result<(), Mismatch> {
    let Areas { patch, mut full } = patched(Some(1));
    full[PLACE_0..].fill(0x90);
    let (mut broken, mut in_use) = (patch.clone(), patch);
    broken[SLOT_0 + 8] = 0xFF;
    in_use[SLOT_0..SLOT_1].fill(0);
    in_use[SLOT_0] = 2;
    let mut faults = vec![
        fault(2, |input| input.buffers[PATCH].push(0)),
        fault(2, |input| input.buffers[FULL].push(0)),
    ];
    faults.extend(header_faults());
    faults.extend([
        fault(6, |input| input.buffers[PATCH][SLOT_0 + 511] = 1),
        fault(6, unsound_slot_1),
        fault(8, reference_1),
    ]);
    for patch in [broken, in_use] {
        all_sets(harness, &Input::new(Call::Sweep, vec![patch, full.clone()]), &faults)?;
    }
    Ok(())
}

/// Without a full area and with one that has no place: every slot counts all the same, 8 at block 0
/// before 6 at block 1.
fn sweep_without_places(harness: &mut Harness) -> Result<(), Mismatch> {
    for m in [None, Some(0)] {
        let Areas { patch, full } = Areas::fresh(2, m);
        let mut faults = vec![fault(2, |input| input.buffers[PATCH].push(0))];
        // Those of the patch header.
        faults.extend(header_faults().into_iter().take(3));
        faults.extend([
            fault(6, |input| input.buffers[PATCH][SLOT_0 + 5] = 1),
            fault(8, |input| input.buffers[PATCH][SLOT_0] = 2),
            fault(6, unsound_slot_1),
            fault(8, reference_1),
        ]);
        all_sets(harness, &Input::new(Call::Sweep, vec![patch, full]), &faults)?;
    }
    Ok(())
}

/// Block 1 refers to its place. What is wrong with its slot besides stays wrong.
fn reference_1(input: &mut Input) {
    let slot = &mut input.buffers[PATCH][SLOT_1..SLOT_1 + SLOT];
    slot[0] = 2;
    slot[1..4].fill(0);
    slot[8..].fill(0);
}

fn build_patches(harness: &mut Harness) -> Result<(), Mismatch> {
    let Areas { patch, full } = patched(Some(2));
    let input = Input::new(Call::Build, vec![patch, full, vec![0xEE; 1]]);
    let mut faults = vec![
        fault(2, |input| input.buffers[PATCH].push(0)),
        fault(9, |input| input.buffers[MAP].clear()),
    ];
    faults.extend(header_faults());
    faults.extend([
        fault_at(6, 0, |input| input.buffers[PATCH][SLOT_0 + 511] = 1),
        unsound_payload_0(),
        fault_at(10, 0, |input| input.buffers[FULL][PLACE_0 + 8191] = 1),
        fault_at(6, 1, unsound_slot_1),
        unsound_payload_1(),
        fault_at(10, 1, |input| input.buffers[FULL][PLACE_1] = 1),
    ]);
    all_sets(harness, &input, &faults)
}

fn build_full(harness: &mut Harness) -> Result<(), Mismatch> {
    let Areas { patch, full } = Areas::fresh(2, Some(0));
    let input = Input::new(Call::Build, vec![patch, full, vec![0xEE; 1]]);
    let mut faults = vec![
        fault(2, |input| input.buffers[FULL].push(0)),
        fault(9, |input| input.buffers[MAP].clear()),
    ];
    faults.extend(header_faults());
    faults.extend([
        fault_at(6, 0, |input| input.buffers[PATCH][SLOT_0 + 5] = 1),
        fault_at(8, 0, |input| input.buffers[PATCH][SLOT_0] = 2),
        fault_at(6, 1, unsound_slot_1),
        fault_at(8, 1, |input| input.buffers[PATCH][SLOT_1] = 2),
    ]);
    all_sets(harness, &input, &faults)
}

fn without_areas(harness: &mut Harness) -> Result<(), Mismatch> {
    let page = || vec![0; PAGE];
    let compare = Input::new(Call::Compare, vec![page(), page(), vec![0xEE; PAYLOAD]]);
    all_sets(
        harness,
        &compare,
        &[
            fault(1, |input| input.buffers[0].push(0)),
            fault(1, |input| input.buffers[1].clear()),
            fault(9, |input| input.buffers[2].truncate(PAYLOAD - 1)),
        ],
    )?;
    let apply = Input::new(Call::Apply, vec![page(), vec![0, 7], vec![0xEE; PAGE]]);
    all_sets(
        harness,
        &apply,
        &[
            fault(1, |input| input.buffers[0].push(0)),
            fault(1, |input| input.buffers[2].clear()),
            fault(7, |input| input.buffers[1].push(0)).breaking_at(2),
        ],
    )?;
    let judge = Input::new(Call::Judge, vec![vec![0; SLOT]]);
    all_sets(
        harness,
        &judge,
        &[fault(2, |input| input.buffers[0].push(0)), fault(6, |input| input.buffers[0][9] = 1)],
    )?;
    let Areas { patch, full } = Areas::fresh(1, Some(1));
    all_sets(
        harness,
        &Input::new(Call::Format, vec![patch, full]),
        &[
            fault(2, |input| input.buffers[PATCH].push(0)),
            fault(2, |input| input.buffers[FULL].push(0)),
        ],
    )
}

fn maps(harness: &mut Harness) -> Result<(), Mismatch> {
    // Five blocks: the second byte has one pair in use and three unused ones.
    let map = vec![0b1001_0001, 0b0000_0001];
    let look_up = Input::new(Call::LookUp, vec![map.clone()]).told(5).at_block(4);
    all_sets(
        harness,
        &look_up,
        &[
            fault(2, |input| input.numbers.n = 131_073),
            fault(9, |input| input.buffers[0].truncate(1)),
            fault(5, |input| input.numbers.block = u64::MAX),
            fault(11, |input| input.buffers[0].iter_mut().for_each(|byte| *byte |= 3)),
        ],
    )?;
    let tally = Input::new(Call::Tally, vec![map]).told(5);
    all_sets(
        harness,
        &tally,
        &[
            fault(2, |input| input.numbers.n = u64::MAX),
            fault(9, |input| input.buffers[0].truncate(1)),
            fault(11, |input| input.buffers[0][0] |= 0b1100_0000),
            fault(11, |input| {
                if let Some(last) = input.buffers[0].get_mut(1) {
                    *last |= 0b0100_0000;
                }
            }),
        ],
    )
}

/// What keeps a reader from an entry. The end, which has number 0, stands among them.
fn steps(harness: &mut Harness) -> Result<(), Mismatch> {
    let faults = [
        fault(7, |input| input.buffers[0].resize(PAYLOAD + 1, 0)),
        fault(0, |input| input.numbers.at = u64::MAX),
        fault(7, |input| input.numbers.position = PAGE as i32),
        fault(7, |input| input.buffers[0][0] = 0xFF),
    ];
    all_sets(harness, &Input::step(&[0, 7], BEGINNING), &faults)?;
    // The other sides of the same: an empty payload, the place just past it, a negative position, a
    // jump that leaves the page.
    let faults = [
        fault(7, |input| input.buffers[0].clear()),
        fault(0, |input| input.numbers.at = 2),
        fault(7, |input| input.numbers.position = -2),
        fault(7, |input| {
            if let Some(jump) = input.buffers[0].get_mut(0) {
                *jump = 200;
            }
        }),
    ];
    all_sets(harness, &Input::step(&[0, 7], (0, 8_000)), &faults)
}

/// Whether a call without a fault did its work.
fn did(input: &Input, answer: &Answer) -> bool {
    let kind = input.numbers.kind.into();
    match input.call {
        Call::Next => answer.0[..2] == [0, 1],
        // The payload has two bytes.
        Call::CarryOut | Call::CarryOutMapped => {
            *answer == Answer::of(&[0, kind, if kind == 1 { 2 } else { 0 }])
        }
        _ => answer.number() == 0,
    }
}

/// What a decision is told of its stores.
const TOLD: [u64; 5] = [ALL, 0, 1, 2, 1 << 32];

/// The numbers of stores that a set of faults is tried with. For decisions of up to two faults all of
/// them; of larger sets there are many, and they take turns.
fn told(start: &Input, set: u32) -> Vec<u64> {
    match set.count_ones() {
        _ if !start.call.carries_out() => vec![ALL],
        0..=2 => TOLD.to_vec(),
        _ => vec![TOLD[set as usize % TOLD.len()]],
    }
}

/// Tries every set of the faults; the first of them that is one must decide.
fn all_sets(harness: &mut Harness, start: &Input, faults: &[Fault]) -> Result<(), Mismatch> {
    for set in 0..1u32 << faults.len() {
        let chosen = faults.iter().enumerate().filter(|(at, _)| set >> at & 1 == 1);
        let chosen: Vec<&Fault> = chosen.map(|(_, fault)| fault).collect();
        for stores in told(start, set) {
            let mut input = start.clone().storing(stores);
            chosen.iter().for_each(|fault| (fault.make)(&mut input));
            check_set(harness, &input, &chosen)?;
        }
    }
    Ok(())
}

/// An input with these faults.
fn check_set(harness: &mut Harness, input: &Input, faults: &[&Fault]) -> Result<(), Mismatch> {
    let answer = harness.check(input)?.answer;
    let first = faults.iter().find(|fault| fault.counts(input));
    let expected = first.map(|fault| fault.answer(input));
    if expected.map_or(did(input, &answer), |expected| answer == expected) {
        return Ok(());
    }
    let numbers: Vec<i128> = faults.iter().map(|fault| fault.number).collect();
    Err(Mismatch {
        side: "order of refusals",
        input: format!("{input} with faults {numbers:?}"),
        found: format!("answer {:?}, by the order {expected:?}", answer.0),
    })
}

pub fn check(harness: &mut Harness) -> Result<(), Mismatch> {
    // Those with few sets first: what is wrong with them is then found soon.
    without_areas(harness)?;
    maps(harness)?;
    steps(harness)?;
    highest(harness)?;
    cut(harness)?;
    cut_mapped(harness)?;
    build_patches(harness)?;
    build_full(harness)?;
    read_patch(harness)?;
    read_full(harness)?;
    read_mapped_patch(harness)?;
    read_mapped_full(harness)?;
    of_sweeps(harness)?;
    of_decisions(harness)
}

/// Those of a sweep alone.
pub fn of_sweeps(harness: &mut Harness) -> Result<(), Mismatch> {
    sweep_without_places(harness)?;
    sweep_places(harness)
}

/// Those of a decision alone, which are the most.
pub fn of_decisions(harness: &mut Harness) -> Result<(), Mismatch> {
    carry_out(harness)?;
    of_decisions_with_a_map(harness)
}

pub fn of_decisions_with_a_map(harness: &mut Harness) -> Result<(), Mismatch> {
    carry_out_mapped(harness)
}
