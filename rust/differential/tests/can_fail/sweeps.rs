//! Sweeps that clear too much or too little, or refuse wrongly.

use differential::sweeps;

use super::stops::{on_both_sides, side_in_stopped_runs};
use super::*;

/// Alters what comes of a sweep whose lengths and headers are right. It is told the kind of each slot, none
/// where it is not sound.
fn altered_sweep(input: &Input, alter: impl FnOnce(&mut Outcome, &[Option<u32>])) -> Outcome {
    altered(input, Call::Sweep, |outcome| {
        if matches!(outcome.answer.number(), 0 | 6 | 8) {
            alter(outcome, &slots_of(input).collect::<Vec<_>>());
        }
    })
}

/// The same of an accepted one.
fn altered_done(input: &Input, alter: impl FnOnce(&mut Outcome, &[Option<u32>])) -> Outcome {
    altered_sweep(input, |outcome, kinds| {
        if outcome.answer.number() == 0 {
            alter(outcome, kinds);
        }
    })
}

/// Gives a place back what it held.
fn restore(input: &Input, outcome: &mut Outcome, block: usize) {
    let place = place_range(block);
    outcome.buffers[1][place.clone()].copy_from_slice(&input.buffers[1][place]);
}

fn is_zero(bytes: &[u8]) -> bool {
    bytes.iter().all(|byte| *byte == 0)
}

/// The first block with a place that holds bytes to which its slot does not refer.
fn stray_block(input: &Input, kinds: &[Option<u32>]) -> Option<usize> {
    (0..pages_of(input))
        .find(|block| kinds[*block] != Some(2) && !is_zero(&input.buffers[1][place_range(*block)]))
}

/// The lowest block that is at fault.
fn fault_of(input: &Input, kinds: &[Option<u32>]) -> Option<usize> {
    let m = pages_of(input);
    let at_fault = |(block, kind): (usize, &Option<u32>)| match kind {
        None => true,
        kind => *kind == Some(2) && block >= m,
    };
    kinds.iter().enumerate().position(at_fault)
}

/// A number in the place of what came of it, with nothing changed.
fn says(input: &Input, outcome: &mut Outcome, number: i128) {
    refuse(input, outcome, number);
}

fn sweeps_nothing(input: &Input) -> Outcome {
    altered_done(input, |outcome, _| outcome.buffers = input.buffers.clone())
}

fn sweeps_every_place(input: &Input) -> Outcome {
    altered_done(input, |outcome, _| {
        outcome.buffers[1].iter_mut().skip(FULL_HEADER).for_each(|byte| *byte = 0);
    })
}

/// Stops at the first place that it clears.
fn sweeps_the_first_alone(input: &Input) -> Outcome {
    altered_done(input, |outcome, kinds| {
        if let Some(first) = stray_block(input, kinds) {
            (first + 1..pages_of(input)).for_each(|block| restore(input, outcome, block));
        }
    })
}

fn leaves_the_last_place(input: &Input) -> Outcome {
    altered_done(input, |outcome, _| {
        if let Some(last) = pages_of(input).checked_sub(1) {
            restore(input, outcome, last);
        }
    })
}

/// Ends at the first page that is in use.
fn ends_at_a_page_in_use(input: &Input) -> Outcome {
    altered_done(input, |outcome, kinds| {
        let first = kinds.iter().position(|kind| *kind == Some(2)).unwrap_or(kinds.len());
        (first..pages_of(input)).for_each(|block| restore(input, outcome, block));
    })
}

/// Leaves the places of slots of this kind.
fn leaves_places_of(input: &Input, kind: u32) -> Outcome {
    altered_done(input, |outcome, kinds| {
        let of_kind = (0..pages_of(input)).filter(|block| kinds[*block] == Some(kind));
        of_kind.for_each(|block| restore(input, outcome, block));
    })
}

fn leaves_places_of_empty(input: &Input) -> Outcome {
    leaves_places_of(input, 0)
}

fn leaves_places_of_patch(input: &Input) -> Outcome {
    leaves_places_of(input, 1)
}

/// A place whose first byte is zero is taken for zeros.
fn looks_at_the_first_byte(input: &Input) -> Outcome {
    altered_done(input, |outcome, _| {
        for block in 0..pages_of(input) {
            if input.buffers[1][place_range(block)][0] == 0 {
                restore(input, outcome, block);
            }
        }
    })
}

fn leaves_the_last_byte(input: &Input) -> Outcome {
    altered_done(input, |outcome, _| {
        for block in 0..pages_of(input) {
            let last = place_range(block).end - 1;
            outcome.buffers[1][last] = input.buffers[1][last];
        }
    })
}

/// What it has cleared before it comes to the fault is lost.
fn clears_while_checking(input: &Input) -> Outcome {
    altered_sweep(input, |outcome, kinds| {
        let fault = fault_of(input, kinds).unwrap_or(0).min(pages_of(input));
        for block in (0..fault).filter(|block| kinds[*block] != Some(2)) {
            outcome.buffers[1][place_range(block)].fill(0);
        }
    })
}

fn clears_the_header(input: &Input) -> Outcome {
    altered_done(input, |outcome, _| {
        outcome.buffers[1].iter_mut().take(FULL_HEADER).for_each(|byte| *byte = 0);
    })
}

/// A stray page is taken for one that has lost its slot, which is written.
fn makes_a_reference(input: &Input) -> Outcome {
    altered_done(input, |outcome, kinds| {
        if let Some(block) = stray_block(input, kinds) {
            restore(input, outcome, block);
            let slot = &mut outcome.buffers[0][slot_range(block as u64)];
            slot.fill(0);
            slot[0] = 2;
        }
    })
}

/// The slot of a block whose place was cleared goes as well.
fn clears_the_slot_too(input: &Input) -> Outcome {
    altered_done(input, |outcome, kinds| {
        if let Some(block) = stray_block(input, kinds) {
            outcome.buffers[0][slot_range(block as u64)].fill(0);
        }
    })
}

fn refuses_payloads_that_break(input: &Input) -> Outcome {
    altered_done(input, |outcome, kinds| {
        let breaks = |(slot, kind): (&[u8], &Option<u32>)| {
            let length = usize::from(u16::from_le_bytes([slot[2], slot[3]]));
            *kind == Some(1) && !is_sound(&slot[8..8 + length])
        };
        let mut slots = input.buffers[0][PATCH_HEADER..].chunks_exact(SLOT).zip(kinds);
        if slots.any(breaks) {
            says(input, outcome, 7);
        }
    })
}

/// What Build says of it.
fn refuses_stray_pages(input: &Input) -> Outcome {
    altered_done(input, |outcome, kinds| {
        if stray_block(input, kinds).is_some() {
            says(input, outcome, 10);
        }
    })
}

/// Places before slots.
fn gives_8_before_a_lower_6(input: &Input) -> Outcome {
    altered_sweep(input, |outcome, kinds| {
        if kinds.iter().skip(pages_of(input)).any(|kind| *kind == Some(2)) {
            says(input, outcome, 8);
        }
    })
}

/// Slots before places, which is the order of 6 and 8 in one block.
fn gives_6_before_a_lower_8(input: &Input) -> Outcome {
    altered_sweep(input, |outcome, kinds| {
        if kinds.contains(&None) {
            says(input, outcome, 6);
        }
    })
}

/// From the last block down.
fn the_highest_fault_decides(input: &Input) -> Outcome {
    altered_sweep(input, |outcome, kinds| {
        let m = pages_of(input);
        let mut faults = kinds.iter().enumerate().rev().filter_map(|(block, kind)| match kind {
            None => Some(6),
            Some(2) if block >= m => Some(8),
            _ => None,
        });
        if let Some(last) = faults.next() {
            says(input, outcome, last);
        }
    })
}

fn looks_at_no_slot_without_a_full_area(input: &Input) -> Outcome {
    altered_sweep(input, |outcome, _| {
        if input.buffers[1].is_empty() {
            says(input, outcome, 0);
        }
    })
}

/// Only blocks that have a place.
fn looks_at_slots_below_m(input: &Input) -> Outcome {
    altered_sweep(input, |outcome, kinds| {
        if fault_of(input, kinds).map_or(false, |block| block >= pages_of(input)) {
            let mut shorter = input.clone();
            let kept = PATCH_HEADER + SLOT * pages_of(input);
            shorter.buffers[0].truncate(kept);
            outcome.answer = Answer::of(&[0]);
            outcome.buffers[1] = independent_outcome(&shorter).buffers.swap_remove(1);
        }
    })
}

/// A slot that is not sound is left alone, and so is its place.
fn passes_over_unsound_slots(input: &Input) -> Outcome {
    altered_sweep(input, |outcome, kinds| {
        let mut sound = input.clone();
        for block in (0..kinds.len()).filter(|block| kinds[*block].is_none()) {
            sound.buffers[0][slot_range(block as u64)].fill(0);
        }
        let mut came = independent_outcome(&sound);
        came.buffers[0] = input.buffers[0].clone();
        for block in (0..pages_of(input)).filter(|block| kinds[*block].is_none()) {
            restore(input, &mut came, block);
        }
        *outcome = came;
    })
}

/// The kind byte is all that it looks at.
fn goes_by_the_kind_byte(input: &Input) -> Outcome {
    altered_sweep(input, |outcome, _| {
        let mut sound = input.clone();
        for slot in sound.buffers[0][PATCH_HEADER..].chunks_exact_mut(SLOT) {
            slot[0] = if slot[0] == 2 { 2 } else { 0 };
            slot[1..].fill(0);
        }
        *outcome = independent_outcome(&sound);
        outcome.buffers[0] = input.buffers[0].clone();
    })
}

/// A reference at block m itself is let through.
fn takes_m_for_the_last_place(input: &Input) -> Outcome {
    altered_sweep(input, |outcome, kinds| {
        let m = pages_of(input);
        if outcome.answer.number() == 8 && fault_of(input, kinds) == Some(m) {
            let mut without = input.clone();
            without.buffers[0][slot_range(m as u64)].fill(0);
            *outcome = independent_outcome(&without);
            outcome.buffers[0] = input.buffers[0].clone();
        }
    })
}

/// A block beside 6 and 8, as Build gives it.
fn names_the_block(input: &Input) -> Outcome {
    altered_sweep(input, |outcome, kinds| {
        outcome.answer.0[1] = fault_of(input, kinds).unwrap_or(0) as i128;
    })
}

/// Slots before headers.
fn looks_at_slots_first(input: &Input) -> Outcome {
    altered(input, Call::Sweep, |outcome| {
        if matches!(outcome.answer.number(), 3 | 4) && slots_of(input).any(|kind| kind.is_none()) {
            says(input, outcome, 6);
        }
    })
}

/// The full header before the patch header.
fn looks_at_the_full_header_first(input: &Input) -> Outcome {
    altered(input, Call::Sweep, |outcome| {
        if matches!(outcome.answer.number(), 3 | 4) {
            let mut other = input.clone();
            let fresh = generate::Areas::fresh(0, None).patch;
            other.buffers[0][..PATCH_HEADER].copy_from_slice(&fresh);
            let by_full = independent_outcome(&other).answer;
            if matches!(by_full.number(), 3 | 4) {
                outcome.answer = by_full;
            }
        }
    })
}

const WRONG_SWEEPS: [(&str, Side); 24] = [
    ("a sweep that sweeps nothing", sweeps_nothing),
    ("pages in use swept", sweeps_every_place),
    ("the first stray page alone", sweeps_the_first_alone),
    ("the last place left", leaves_the_last_place),
    ("an end at a page in use", ends_at_a_page_in_use),
    ("places of EMPTY left", leaves_places_of_empty),
    ("places of PATCH left", leaves_places_of_patch),
    ("a look at the first byte", looks_at_the_first_byte),
    ("the last byte left", leaves_the_last_byte),
    ("places cleared while slots are checked", clears_while_checking),
    ("the header cleared", clears_the_header),
    ("a reference made", makes_a_reference),
    ("the slot cleared too", clears_the_slot_too),
    ("7 of a payload", refuses_payloads_that_break),
    ("10 of a stray page", refuses_stray_pages),
    ("8 before a lower 6", gives_8_before_a_lower_6),
    ("6 before a lower 8", gives_6_before_a_lower_8),
    ("the highest fault", the_highest_fault_decides),
    ("no slot without a full area", looks_at_no_slot_without_a_full_area),
    ("slots below m alone", looks_at_slots_below_m),
    ("unsound slots passed over", passes_over_unsound_slots),
    ("the kind byte alone", goes_by_the_kind_byte),
    ("m taken for the last place", takes_m_for_the_last_place),
    ("a block beside the number", names_the_block),
];

/// Those that differ in what they refuse, or while they refuse.
const WRONG_REFUSALS: [&str; 12] = [
    "places cleared while slots are checked",
    "7 of a payload",
    "10 of a stray page",
    "8 before a lower 6",
    "6 before a lower 8",
    "the highest fault",
    "no slot without a full area",
    "slots below m alone",
    "unsound slots passed over",
    "the kind byte alone",
    "m taken for the last place",
    "a block beside the number",
];

const OTHER_ORDERS: [(&str, Side); 2] = [
    ("slots before headers", looks_at_slots_first),
    ("the full header first", looks_at_the_full_header_first),
];

#[test]
fn wrong_sweeps_are_found() {
    let all = WRONG_SWEEPS.iter().chain(&OTHER_ORDERS);
    all.for_each(|(name, wrong)| must_find_in(&[Call::Sweep], name, *wrong));
}

#[test]
fn cases_by_hand_notice_wrong_sweeps() {
    let mut cases = cases::all();
    cases.retain(|case| case.input.call == Call::Sweep);
    for (name, wrong) in WRONG_SWEEPS.iter().chain(&OTHER_ORDERS) {
        let differs = |case: &cases::Case| {
            wrong(&case.input).difference(&case.expected, case.input.call).is_some()
        };
        assert!(cases.iter().any(differs), "{name} was not noticed");
    }
}

/// The same wrong program on both sides, through every row of slots: only what is written by hand there,
/// or a rule for all answers, can notice.
#[test]
fn the_demand_on_sweeps_notices_wrong_programs() {
    let notices = |wrong: Side| {
        sweeps::every_row(&mut on_both_sides(wrong)).err().map(|mismatch| mismatch.side)
    };
    assert_eq!(notices(independent_outcome), None);
    for (name, wrong) in WRONG_SWEEPS {
        let side = match name {
            "places cleared while slots are checked" => "rule of answers",
            "a block beside the number" => "rule of answers",
            _ => "demand on sweeps",
        };
        assert_eq!(notices(wrong), Some(side), "{name}");
    }
}

/// What holds of every accepted sweep, over stores from elsewhere.
#[test]
fn stores_from_elsewhere_notice_wrong_sweeps() {
    let notices = |wrong: Side| {
        let mut rng = Rng::for_case(SEED, "sweeps", 0);
        let found = sweeps::from_elsewhere(&mut on_both_sides(wrong), &mut rng, 200);
        found.err().map(|mismatch| mismatch.side)
    };
    assert_eq!(notices(independent_outcome), None);
    for (name, wrong) in WRONG_SWEEPS {
        // Their slots are sound and their pages have places: what is refused, or not, is not seen there.
        if !WRONG_REFUSALS.contains(&name) {
            assert_eq!(notices(wrong), Some("demand on sweeps"), "{name}");
        }
    }
}

/// The sweeps that a run can show to be wrong. Its slots and payloads are sound, and every page that a slot
/// refers to has a place.
#[test]
fn the_demand_on_stops_notices_wrong_sweeps() {
    for (name, wrong) in &WRONG_SWEEPS[..15] {
        let side = match *name {
            "places cleared while slots are checked" | "7 of a payload" => continue,
            // It is the run's own sweep that is not accepted, or that changes the patch area.
            "10 of a stray page" | "a reference made" | "the slot cleared too" => "demand on runs",
            _ => "demand on stops",
        };
        assert_eq!(side_in_stopped_runs(*wrong), Some(side), "{name}");
    }
}

/// Another order of a sweep's refusals on both sides: the list of faults notices.
#[test]
fn another_order_of_a_sweeps_refusals_is_noticed() {
    assert!(orders::of_sweeps(&mut on_both_sides(independent_outcome)).is_ok());
    for (name, wrong) in [
        ("8 before a lower 6", gives_8_before_a_lower_6 as Side),
        ("6 before a lower 8", gives_6_before_a_lower_8),
        ("the highest fault", the_highest_fault_decides),
        ("slots before headers", looks_at_slots_first),
        ("the full header first", looks_at_the_full_header_first),
        ("7 of a payload", refuses_payloads_that_break),
        ("10 of a stray page", refuses_stray_pages),
        ("no slot without a full area", looks_at_no_slot_without_a_full_area),
        ("slots below m alone", looks_at_slots_below_m),
    ] {
        let mismatch = orders::of_sweeps(&mut on_both_sides(wrong)).expect_err(name);
        assert_eq!(mismatch.side, "order of refusals", "{name}");
    }
}
