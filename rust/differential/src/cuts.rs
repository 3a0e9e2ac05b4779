//! Cuts and the highest block, held to what is written here by hand:
//!
//! * a cut at K makes zeros of the slots and places of blocks K and up, and of their pairs in a lent map,
//!   and leaves every other bit, whatever stands in slots, places and pairs;
//! * K = n changes nothing, a K above n is refused, and a map is too short just where the blocks want
//!   another byte, whatever K is;
//! * the highest block is the last whose slot is not EMPTY, if every slot is sound.
//!
//! Every call of it is also compared with the independent implementation.

use crate::call::{Answer, Call, Input, Outcome, FULL_HEADER, PAGE, PATCH_HEADER, SLOT};
use crate::generate::{Areas, STRANGE_NUMBERS};
use crate::harness::{Harness, Mismatch};
use crate::maps::{pairs, Slot, SLOTS};

fn demand(holds: bool, input: &Input, what: impl FnOnce() -> String) -> Result<(), Mismatch> {
    if holds {
        return Ok(());
    }
    Err(Mismatch { side: "demand on cuts", input: input.to_string(), found: what() })
}

/// Areas with slots of every sort by turns, and a page in every place, whatever its slot says.
fn of_every_sort(n: usize, m: Option<usize>) -> Areas {
    let mut areas = Areas::fresh(n, m);
    let slots = areas.patch[PATCH_HEADER..].chunks_exact_mut(SLOT);
    for (slot, sort) in slots.zip(SLOTS.into_iter().cycle()) {
        slot.copy_from_slice(&sort.bytes());
    }
    fill_places(&mut areas, 0x90);
    areas
}

/// Areas of no meaning but for their headers.
fn of_noise(n: usize, m: Option<usize>) -> Areas {
    let mut areas = Areas::fresh(n, m);
    areas.patch[PATCH_HEADER..].fill(0xA7);
    fill_places(&mut areas, 0x01);
    areas
}

fn fill_places(areas: &mut Areas, byte: u8) {
    areas.full.iter_mut().skip(FULL_HEADER).for_each(|place| *place = byte);
}

/// Bytes up to a place, and zeros from there on.
fn zeros_from(bytes: &[u8], at: usize) -> Vec<u8> {
    bytes.iter().enumerate().map(|(index, byte)| if index < at { *byte } else { 0 }).collect()
}

/// The map with the pairs of blocks `k` to `n - 1` set to 0.
fn map_cut(map: &[u8], k: usize, n: usize) -> Vec<u8> {
    let cut = |(index, byte): (usize, &u8)| {
        let mut four = pairs(*byte);
        for (pair, value) in four.iter_mut().enumerate() {
            if (k..n).contains(&(4 * index + pair)) {
                *value = 0;
            }
        }
        four[0] + 4 * four[1] + 16 * four[2] + 64 * four[3]
    };
    map.iter().enumerate().map(cut).collect()
}

/// One cut, with a map or without, held to what it must leave.
fn check_cut(
    harness: &mut Harness,
    areas: &Areas,
    map: Option<&[u8]>,
    k: u64,
) -> Result<(), Mismatch> {
    let n = areas.blocks();
    let mut lent = vec![areas.patch.clone(), areas.full.clone()];
    lent.extend(map.map(<[u8]>::to_vec));
    let call = if map.is_some() { Call::CutMapped } else { Call::Cut };
    let input = Input::new(call, lent).at_block(k);
    let Outcome { answer, buffers } = harness.check(&input)?;
    let number = match map {
        Some(map) if 4 * map.len() < n => 9,
        _ if k > n as u64 => 5,
        _ => 0,
    };
    demand(answer == Answer::of(&[number]), &input, || format!("{:?} at {k} of {n}", answer.0))?;
    let wanted = if number == 0 {
        let k = k as usize;
        let mut wanted = vec![
            zeros_from(&input.buffers[0], PATCH_HEADER + SLOT * k),
            zeros_from(&input.buffers[1], FULL_HEADER + PAGE * k),
        ];
        wanted.extend(map.map(|map| map_cut(map, k, n)));
        wanted
    } else {
        input.buffers.clone()
    };
    let found = Outcome { answer, buffers }.difference(&Outcome { answer, buffers: wanted }, call);
    demand(found.is_none(), &input, || format!("at {k} of {n}: {found:?}"))
}

/// Every K for 0 to 9 blocks and every number of places, with maps that are just long enough, longer and
/// too short; and every K that is far above.
pub fn every_cut(harness: &mut Harness) -> Result<(), Mismatch> {
    for n in 0..10 {
        for m in std::iter::once(None).chain((0..=n).map(Some)) {
            for areas in [of_every_sort(n, m), of_noise(n, m)] {
                for k in 0..=n as u64 + 2 {
                    check_cut(harness, &areas, None, k)?;
                    check_cut(harness, &areas, Some(&vec![0xE7; (n + 3) / 4]), k)?;
                }
            }
        }
        let areas = of_every_sort(n, Some(n));
        for k in (0..=n as u64 + 2).chain(STRANGE_NUMBERS) {
            check_cut(harness, &areas, None, k)?;
            for length in 0..=(n + 3) / 4 + 2 {
                check_cut(harness, &areas, Some(&vec![0xB6; length]), k)?;
            }
        }
    }
    Ok(())
}

/// Every byte that a map can have, of three blocks, whose byte has an unused pair, and of four; and a later
/// byte.
pub fn every_map(harness: &mut Harness) -> Result<(), Mismatch> {
    for n in [3, 4] {
        let areas = of_every_sort(n, Some(1));
        for byte in 0..=255 {
            for k in 0..=n as u64 {
                check_cut(harness, &areas, Some(&[byte, byte]), k)?;
            }
        }
    }
    Ok(())
}

/// The answer for these slots.
fn highest_of(slots: &[Slot]) -> Answer {
    if slots.contains(&Slot::Unsound) {
        return Answer::of(&[6]);
    }
    let in_use = slots.iter().rposition(|slot| *slot != Slot::Empty);
    Answer::of(&[0, in_use.map_or(0, |block| block as i128 + 1)])
}

/// Every row of up to four slots over the five sorts.
pub fn every_highest(harness: &mut Harness) -> Result<(), Mismatch> {
    for n in 0..=4 {
        for row in 0..SLOTS.len().pow(n) {
            let sort = |block: u32| SLOTS[row / SLOTS.len().pow(block) % SLOTS.len()];
            let slots: Vec<Slot> = (0..n).map(sort).collect();
            let mut patch = Areas::fresh(slots.len(), None).patch;
            let bytes: Vec<Vec<u8>> = slots.iter().map(|slot| slot.bytes()).collect();
            patch[PATCH_HEADER..].copy_from_slice(&bytes.concat());
            let input = Input::new(Call::Highest, vec![patch]);
            let Outcome { answer, buffers } = harness.check(&input)?;
            demand(answer == highest_of(&slots), &input, || {
                format!("{:?} of {slots:?}", answer.0)
            })?;
            demand(buffers == input.buffers, &input, || "the patch area was changed".to_string())?;
        }
    }
    Ok(())
}

/// Every row of slots and every cut.
pub fn every_one(harness: &mut Harness) -> Result<(), Mismatch> {
    every_highest(harness)?;
    every_map(harness)?;
    every_cut(harness)
}
