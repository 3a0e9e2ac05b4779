//! Every length from 0 to 1,024 for each buffer of each call, and numbers near 2^64; decisions of every
//! kind, kinds near 2^32, and any number of stores.

use crate::call::{
    Answer, Call, Input, Told, ALL, BEGINNING, FULL_HEADER, PAGE, PATCH_HEADER, PAYLOAD, SLOT,
};
use crate::generate::{Areas, POSITIONS, STRANGE_KINDS, STRANGE_NUMBERS, STRANGE_STORES};
use crate::harness::{Harness, Mismatch};
use crate::rng::Rng;

const LONGEST: usize = 1024;

/// A store of two blocks, a patch in block 0 and a full page in block 1.
fn store() -> Areas {
    let mut areas = Areas::fresh(2, Some(2));
    let Areas { patch, full } = &mut areas;
    // Byte 4,000 becomes 1.
    independent::carry_out(patch, full, 0, 1, &[0xFF, 0xA0, 0x0F, 1], &[], ALL);
    independent::carry_out(patch, full, 1, 2, &[], &[7; PAGE], ALL);
    areas
}

/// An input that the call accepts.
fn accepted(call: Call) -> Input {
    let Areas { patch, full } = store();
    let base = vec![3; PAGE];
    let mut page = base.clone();
    page[100] = 4;
    match call {
        Call::Format => Input::new(call, vec![patch, full]),
        Call::Compare => Input::new(call, vec![base, page, vec![0xEE; PAYLOAD]]),
        Call::Apply => Input::new(call, vec![base, vec![100, 4], vec![0xEE; PAGE]]),
        Call::Judge => Input::new(call, vec![patch[512..1024].to_vec()]),
        Call::Show => Input::new(call, vec![patch]),
        Call::Read => Input::new(call, vec![patch, full, base, vec![0xEE; PAGE]]),
        // EMPTY, with what is not looked at; the other kinds come of it.
        Call::CarryOut => Input::new(call, vec![patch, full, vec![100, 4], page]),
        Call::Build => Input::new(call, vec![patch, full, vec![0xEE; 1]]),
        Call::LookUp => Input::new(call, vec![vec![0b0110]]).told(2).at_block(1),
        Call::Tally => Input::new(call, vec![vec![0b0110]]).told(2),
        Call::Next => Input::step(&[100, 4], BEGINNING),
        Call::CarryOutMapped => {
            Input::new(call, vec![patch, full, vec![0b0110], vec![100, 4], page])
        }
        Call::ReadMapped => {
            Input::new(call, vec![patch, full, vec![0b0110], base, vec![0xEE; PAGE]])
        }
        // From block 0 on, so that there is something to cut whatever n is.
        Call::Cut => Input::new(call, vec![patch, full]),
        Call::CutMapped => Input::new(call, vec![patch, full, vec![0b0110]]),
        Call::Highest => Input::new(call, vec![patch]),
        // With a stray page, so that there is something to sweep.
        Call::Sweep => Input::new(call, vec![patch, stray_page_0(full)]),
    }
}

/// The full area with a page in block 0's place, to which no slot refers.
fn stray_page_0(mut full: Vec<u8>) -> Vec<u8> {
    full[FULL_HEADER..FULL_HEADER + PAGE].fill(9);
    full
}

/// The same with one block and without a full area, if the call is lent both areas. Two pages in the
/// full area would make every patch area of up to 1,024 bytes too short.
fn without_full_area(call: Call) -> Option<Input> {
    let both = call.buffers().starts_with(&["patch", "full"]);
    both.then(|| {
        let mut input = accepted(call);
        input.buffers[0].truncate(PATCH_HEADER + SLOT);
        input.buffers[1].clear();
        input
    })
}

/// The same decision of other kinds: PATCH, and FULL_REF where there is a place. Kind 3, which is refused,
/// stands among them: whatever is beside it is not looked at.
fn other_kinds(input: &Input) -> Vec<Input> {
    let kinds: &[u32] = match input.buffers.get(1) {
        _ if !input.call.carries_out() => &[],
        Some(full) if full.is_empty() => &[1],
        _ => &[1, 2, 3],
    };
    kinds.iter().map(|kind| input.clone().of_kind(*kind)).collect()
}

/// Stops among the decisions: a patch told 1, and a full page told 0.
fn stops() -> impl Iterator<Item = Input> {
    let told = |call: Call| {
        let input = accepted(call);
        [input.clone().of_kind(1).storing(1), input.of_kind(2).storing(0)]
    };
    [Call::CarryOut, Call::CarryOutMapped].into_iter().flat_map(told)
}

/// All inputs whose lengths are changed.
fn starts() -> impl Iterator<Item = Input> {
    let both = |call: Call| [Some(accepted(call)), without_full_area(call)];
    let whole = Call::ALL.into_iter().flat_map(both).flatten().flat_map(|input| {
        let others = other_kinds(&input);
        std::iter::once(input).chain(others)
    });
    whole.chain(stops())
}

/// Each of them is accepted, so that each later refusal is due to what is changed; kind 3 is refused for
/// itself alone.
pub fn starting_points(harness: &mut Harness) -> Result<(), Mismatch> {
    for input in starts() {
        let outcome = harness.check(&input)?;
        let accepted = match input.call {
            Call::Show => outcome.answer.0[1] > 0,
            Call::Next => outcome.answer.0[1] == 1,
            call if call.carries_out() && input.numbers.kind == 3 => {
                outcome.answer == Answer::of(&[6])
            }
            _ => outcome.answer.number() == 0,
        };
        assert!(accepted, "what is changed is an accepted {input}");
    }
    Ok(())
}

/// Every buffer of every call with each length from 0 to 1,024: cut, or grown by zeros or by noise.
pub fn lengths(harness: &mut Harness, fillers: &[u8]) -> Result<(), Mismatch> {
    for start in starts() {
        for buffer in 0..start.buffers.len() {
            for length in 0..=LONGEST {
                for filler in fillers {
                    let mut input = start.clone();
                    input.buffers[buffer].resize(length, *filler);
                    harness.check(&input)?;
                }
            }
        }
    }
    Ok(())
}

/// Where something ends or begins: headers, slots, payloads, n = 0 and n = 1.
const EDGES: [usize; 10] = [0, 1, 503, 504, 505, 511, 512, 513, 1023, LONGEST];

/// Several buffers at once with lengths from 0 to 1,024, drawn at random.
pub fn many_lengths(harness: &mut Harness, rng: &mut Rng, rounds: usize) -> Result<(), Mismatch> {
    for _ in 0..rounds {
        for mut input in starts() {
            for bytes in &mut input.buffers {
                if rng.chance(60) {
                    let anywhere = rng.between(0, LONGEST);
                    let length = if rng.chance(50) { rng.pick(&EDGES) } else { anywhere };
                    bytes.resize(length, 0);
                }
            }
            harness.check(&input)?;
        }
    }
    Ok(())
}

/// Every call without a byte, and NULL or a forbidden address for each buffer.
pub fn nothing_at_all(harness: &mut Harness) -> Result<(), Mismatch> {
    for call in Call::ALL {
        let empty = vec![Vec::new(); call.buffers().len()];
        for number in STRANGE_NUMBERS.iter().copied().chain(0..4) {
            // Four turns: both ends, NULL and not.
            for _ in 0..4 {
                let mut input = Input::new(call, empty.clone()).told(number).at_block(number);
                input.numbers.at = number;
                if !call.carries_out() {
                    harness.check(&input)?;
                    continue;
                }
                for kind in [0, 1, 2, 3, u32::MAX] {
                    harness.check(&input.clone().of_kind(kind).storing(number))?;
                }
            }
        }
    }
    Ok(())
}

/// Each length of a payload of short entries, read from each of its places near an edge, and from
/// positions of every sort.
pub fn places(harness: &mut Harness) -> Result<(), Mismatch> {
    let payload = [1, 9].repeat(LONGEST / 2);
    for length in 0..=LONGEST {
        let near_the_end = (length.saturating_sub(3)..length + 3).map(|at| at as u64);
        for at in (0..3).chain(near_the_end).chain([u64::MAX]) {
            for position in [BEGINNING.1, 8_190, PAGE as i32] {
                harness.check(&Input::step(&payload[..length], (at, position)))?;
            }
        }
    }
    for at in STRANGE_NUMBERS.iter().copied().chain(0..8) {
        for position in POSITIONS {
            harness.check(&Input::step(&payload[..6], (at, position)))?;
            harness.check(&Input::step(&[255, 255, 31, 1, 255], (at, position)))?;
            // A jump of 254 in the long code at 0, and one of 255 at 4.
            harness.check(&Input::step(&[255, 254, 0, 1, 255, 255, 0, 1], (at, position)))?;
        }
    }
    Ok(())
}

/// Decisions of every kind on every block, with an answer written here: 5 for a block that is not there,
/// 6 for a kind above 2, else done.
fn decisions(harness: &mut Harness, call: Call, blocks: &[u64]) -> Result<(), Mismatch> {
    let kinds = STRANGE_KINDS.iter().copied().chain(0..3);
    for kind in kinds {
        for block in blocks {
            let input = accepted(call).at_block(*block).of_kind(kind);
            let expected: &[i128] = match (*block < 2, kind) {
                (false, _) => &[5],
                (true, 0) => &[0, 0, 0],
                (true, 1) => &[0, 1, 2],
                (true, 2) => &[0, 2, 0],
                (true, _) => &[6],
            };
            let answer = harness.check(&input)?.answer;
            if answer != Answer::of(expected) {
                let found = format!("answer {:?}, expected {expected:?}", answer.0);
                return Err(Mismatch { side: "by hand", input: input.to_string(), found });
            }
        }
    }
    Ok(())
}

/// What stands of a block: the first byte of its slot, the first of its place, and its pair.
type Standing = [u8; 3];

/// For each kind on a block: what stands after no store, after one and after all. Block 0 is PATCH with a
/// stray page of nines, block 1 full of sevens; the page is of threes.
const STORED: [(u32, u64, [Standing; 3]); 6] = [
    (0, 0, [[1, 9, 2], [0, 9, 2], [0, 0, 0]]),
    (1, 0, [[1, 9, 2], [1, 9, 2], [1, 0, 2]]),
    (2, 0, [[1, 9, 2], [1, 3, 2], [2, 3, 1]]),
    (0, 1, [[2, 7, 1], [0, 7, 1], [0, 0, 0]]),
    (1, 1, [[2, 7, 1], [1, 7, 1], [1, 0, 2]]),
    (2, 1, [[2, 7, 1], [2, 3, 1], [2, 3, 1]]),
];

/// What stands of a block; without a map there is no pair.
fn standing(call: Call, buffers: &[Vec<u8>], block: u64) -> Vec<u8> {
    let block = block as usize;
    let mut stands =
        vec![buffers[0][PATCH_HEADER + SLOT * block], buffers[1][FULL_HEADER + PAGE * block]];
    if call == Call::CarryOutMapped {
        stands.push(buffers[2][0] >> (2 * block) & 3);
    }
    stands
}

/// One decision told a number of stores: what stands afterwards, and the answer, which is always the same.
fn check_stores(harness: &mut Harness, input: &Input, wanted: Standing) -> Result<(), Mismatch> {
    let outcome = harness.check(input)?;
    let found = standing(input.call, &outcome.buffers, input.numbers.block);
    let kind = input.numbers.kind;
    let answered = Answer::of(&[0, kind.into(), if kind == 1 { 2 } else { 0 }]);
    if outcome.answer == answered && found == wanted[..found.len()] {
        return Ok(());
    }
    let found = format!("answer {:?}, {found:?} stands, not {wanted:?}", outcome.answer.0);
    Err(Mismatch { side: "by hand", input: input.to_string(), found })
}

/// Any number of stores: all but 0 and 1 mean all of them.
pub fn stores(harness: &mut Harness) -> Result<(), Mismatch> {
    for call in [Call::CarryOut, Call::CarryOutMapped] {
        for (kind, block, stands) in STORED {
            for stores in STRANGE_STORES.iter().chain(&STRANGE_NUMBERS).copied().chain(0..2) {
                let mut input = accepted(call).at_block(block).of_kind(kind).storing(stores);
                input.buffers[1] = stray_page_0(std::mem::take(&mut input.buffers[1]));
                check_stores(harness, &input, stands[Told::of(stores) as usize])?;
            }
        }
    }
    Ok(())
}

/// Blocks and n near 2^64 and wherever a product could wrap, alone and together.
pub fn numbers(harness: &mut Harness) -> Result<(), Mismatch> {
    let interesting: Vec<u64> = STRANGE_NUMBERS.iter().copied().chain(0..6).collect();
    for call in [Call::Show, Call::Read, Call::ReadMapped, Call::Cut, Call::CutMapped] {
        for block in &interesting {
            harness.check(&accepted(call).at_block(*block))?;
        }
    }
    for call in [Call::CarryOut, Call::CarryOutMapped] {
        decisions(harness, call, &interesting)?;
    }
    stores(harness)?;
    for n in &interesting {
        for length in [0, 1, 2, 32_767, 32_768] {
            let map = vec![0b1001; length];
            harness.check(&Input::new(Call::Tally, vec![map.clone()]).told(*n))?;
            for block in &interesting {
                let input = Input::new(Call::LookUp, vec![map.clone()]).told(*n).at_block(*block);
                harness.check(&input)?;
            }
        }
    }
    Ok(())
}
