//! Sweeps, held to what is written here by hand:
//!
//! * every place whose slot is not FULL_REF becomes zeros, and no other byte changes;
//! * the lowest block whose slot is not sound, or refers to a place that is not there, decides between 6 and
//!   8, whatever stands in places and payloads, and nothing changes;
//! * each block reads afterwards as before; Build finds no stray page any more; sweeping again changes
//!   nothing, and nor does sweeping areas that Build accepts.
//!
//! Every call of it is also compared with the independent implementation.

use crate::call::{Answer, Call, Input, Outcome, FULL_HEADER, PAGE, PATCH_HEADER};
use crate::generate::{self, Areas};
use crate::harness::{Harness, Mismatch};
use crate::maps::{Slot, SLOTS};
use crate::rng::Rng;

fn demand(holds: bool, input: &Input, what: impl FnOnce() -> String) -> Result<(), Mismatch> {
    if holds {
        return Ok(());
    }
    Err(Mismatch { side: "demand on sweeps", input: input.to_string(), found: what() })
}

/// What stands in the places, whatever their slots say.
#[derive(Clone, Copy, Debug)]
enum Places {
    /// Pages, no two alike.
    Pages,
    Zeros,
    /// Zeros but for one byte, at the beginning and at the end by turns.
    OneByte,
}

fn areas_of(slots: &[Slot], m: Option<usize>, places: Places) -> Areas {
    let mut areas = Areas::fresh(slots.len(), m);
    let bytes: Vec<Vec<u8>> = slots.iter().map(|slot| slot.bytes()).collect();
    areas.patch[PATCH_HEADER..].copy_from_slice(&bytes.concat());
    let used = areas.full.get_mut(FULL_HEADER..).unwrap_or(&mut []);
    for (block, place) in used.chunks_exact_mut(PAGE).enumerate() {
        match places {
            Places::Pages => place.fill(0x90 + block as u8),
            Places::Zeros => {}
            Places::OneByte if block % 2 == 0 => place[PAGE - 1] = 1,
            Places::OneByte => place[0] = 1,
        }
    }
    areas
}

/// The number for these slots beside so many places.
fn number_for(slots: &[Slot], m: usize) -> i128 {
    let fault = |(block, slot): (usize, &Slot)| match slot {
        Slot::Unsound => Some(6),
        Slot::FullRef if block >= m => Some(8),
        _ => None,
    };
    slots.iter().enumerate().find_map(fault).unwrap_or(0)
}

/// The full area without the places of slots that are not FULL_REF.
fn swept(slots: &[Slot], full: &[u8]) -> Vec<u8> {
    let mut full = full.to_vec();
    for (block, slot) in slots.iter().enumerate() {
        if let (false, Some(rest)) =
            (*slot == Slot::FullRef, full.get_mut(FULL_HEADER + PAGE * block..))
        {
            rest.iter_mut().take(PAGE).for_each(|byte| *byte = 0);
        }
    }
    full
}

fn sweep_of(areas: &Areas) -> Input {
    Input::new(Call::Sweep, vec![areas.patch.clone(), areas.full.clone()])
}

/// One sweep, held to what it must leave. The areas afterwards.
fn check_sweep(harness: &mut Harness, slots: &[Slot], areas: &Areas) -> Result<Areas, Mismatch> {
    let input = sweep_of(areas);
    let Outcome { answer, buffers } = harness.check(&input)?;
    let number = number_for(slots, areas.pages());
    demand(answer == Answer::of(&[number]), &input, || format!("{:?} of {slots:?}", answer.0))?;
    let full = if number == 0 { swept(slots, &areas.full) } else { areas.full.clone() };
    let wanted = Outcome { answer, buffers: vec![areas.patch.clone(), full] };
    let found = Outcome { answer, buffers }.difference(&wanted, Call::Sweep);
    demand(found.is_none(), &input, || format!("{slots:?}: {found:?}"))?;
    let mut wanted = wanted.buffers.into_iter();
    let mut next = || wanted.next().expect("both areas");
    Ok(Areas { patch: next(), full: next() })
}

fn build_number(harness: &mut Harness, areas: &Areas) -> Result<i128, Mismatch> {
    let map = vec![0xEE; (areas.blocks() + 3) / 4];
    let lent = vec![areas.patch.clone(), areas.full.clone(), map];
    Ok(harness.check(&Input::new(Call::Build, lent))?.answer.number())
}

/// How a block reads, answer and page, over a base of its own.
fn reading(harness: &mut Harness, areas: &Areas, block: u64) -> Result<Outcome, Mismatch> {
    let [base, page] = [vec![0x42 + block as u8; PAGE], vec![0xEE; PAGE]];
    let lent = vec![areas.patch.clone(), areas.full.clone(), base, page];
    let Outcome { answer, buffers } =
        harness.check(&Input::new(Call::Read, lent).at_block(block))?;
    Ok(Outcome { answer, buffers: buffers.into_iter().skip(3).collect() })
}

/// What holds of an accepted sweep whatever the slots are.
fn check_accepted(harness: &mut Harness, before: &Areas, after: &Areas) -> Result<(), Mismatch> {
    let input = sweep_of(before);
    let [was, is] = [build_number(harness, before)?, build_number(harness, after)?];
    let changed = before.full != after.full || before.patch != after.patch;
    demand(is != 10 && (was == 10 || was == is), &input, || format!("Build {was}, then {is}"))?;
    demand(was != 0 || !changed, &input, || "areas that Build accepts were changed".to_string())?;
    for block in 0..before.blocks() as u64 {
        let [was, is] = [reading(harness, before, block)?, reading(harness, after, block)?];
        demand(was == is, &input, || format!("block {block} reads {:?}", [was.answer, is.answer]))?;
    }
    let again = harness.check(&sweep_of(after))?;
    demand(again.answer == Answer::of(&[0]) && again.buffers[1] == after.full, &input, || {
        format!("a second sweep gives {:?}, or changes something", again.answer.0)
    })
}

/// Every row of up to four slots over the five sorts, beside every number of places; of up to three slots
/// with all that holds of accepted sweeps.
pub fn every_row(harness: &mut Harness) -> Result<(), Mismatch> {
    for n in 0..=4 {
        for row in 0..SLOTS.len().pow(n) {
            let sort = |block: u32| SLOTS[row / SLOTS.len().pow(block) % SLOTS.len()];
            let slots: Vec<Slot> = (0..n).map(sort).collect();
            for m in std::iter::once(None).chain((0..=slots.len()).map(Some)) {
                let areas = areas_of(&slots, m, Places::Pages);
                let after = check_sweep(harness, &slots, &areas)?;
                if n == 4 {
                    continue;
                }
                if number_for(&slots, areas.pages()) == 0 {
                    check_accepted(harness, &areas, &after)?;
                }
                for places in [Places::Zeros, Places::OneByte] {
                    check_sweep(harness, &slots, &areas_of(&slots, m, places))?;
                }
            }
        }
    }
    Ok(())
}

/// Stores from elsewhere with stray pages, of which a sweep may refuse some.
pub fn from_elsewhere(harness: &mut Harness, rng: &mut Rng, rounds: usize) -> Result<(), Mismatch> {
    for _ in 0..rounds {
        let mut before = generate::areas(rng);
        if rng.chance(70) {
            generate::stray_pages(rng, &mut before);
        }
        let mut after = harness.check(&sweep_of(&before))?;
        if after.answer.number() == 0 {
            let full = after.buffers.swap_remove(1);
            let after = Areas { patch: after.buffers.swap_remove(0), full };
            check_accepted(harness, &before, &after)?;
        }
    }
    Ok(())
}

#[cfg(test)]
mod tests {
    use super::*;

    /// What is written by hand, once more by hand.
    #[test]
    fn the_lowest_block_decides() {
        use Slot::{Empty, FullRef, Patch, Unsound};
        assert_eq!(number_for(&[], 0), 0);
        assert_eq!(number_for(&[FullRef, Unsound], 0), 8);
        assert_eq!(number_for(&[Unsound, FullRef], 0), 6);
        assert_eq!(number_for(&[FullRef, Unsound], 1), 6);
        assert_eq!(number_for(&[FullRef, Patch, FullRef], 2), 8);
        assert_eq!(number_for(&[FullRef, Empty, FullRef], 3), 0);
    }
}
