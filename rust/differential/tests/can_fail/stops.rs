//! Writes that are stopped wrongly, or that take a number of stores for another.

use differential::call::ALL;
use differential::stops;

use super::*;

/// Alters what comes of an accepted decision that is told this.
fn altered_told(input: &Input, told: Told, alter: impl FnOnce(&mut Outcome)) -> Outcome {
    altered_accepted(input, |outcome| {
        if Told::of(input.numbers.stores) == told {
            alter(outcome);
        }
    })
}

/// What comes of it with another number of stores.
fn with_stores(input: &Input, stores: u64) -> Outcome {
    independent_outcome(&input.clone().storing(stores))
}

/// Takes the number of stores of a decision for another.
fn taken_for(input: &Input, another: impl FnOnce(u64) -> u64) -> Outcome {
    altered_decision(input, |outcome| {
        *outcome = with_stores(input, another(input.numbers.stores));
    })
}

/// Makes all stores, but leaves the map.
fn make_all(input: &Input, outcome: &mut Outcome) {
    outcome.buffers[..2].clone_from_slice(&with_stores(input, ALL).buffers[..2]);
}

/// The second store in the place of the first.
fn swap_stores(input: &Input, outcome: &mut Outcome) {
    let second = if input.numbers.kind == 2 { 0 } else { 1 };
    outcome.buffers[1 - second] = input.buffers[1 - second].clone();
    outcome.buffers[second] = with_stores(input, ALL).buffers[second].clone();
}

fn has_place(input: &Input) -> bool {
    (input.numbers.block as usize) < pages_of(input)
}

/// A slot refers to a page that is not there yet.
fn stores_the_slot_before_the_page(input: &Input) -> Outcome {
    altered_told(input, Told::One, |outcome| {
        if input.numbers.kind == 2 {
            swap_stores(input, outcome);
        }
    })
}

/// A slot refers to a page that is there no more.
fn clears_the_place_before_the_slot(input: &Input) -> Outcome {
    altered_told(input, Told::One, |outcome| {
        if input.numbers.kind != 2 && has_place(input) {
            swap_stores(input, outcome);
        }
    })
}

fn sets_the_pair(input: &Input, outcome: &mut Outcome) {
    if input.call == Call::CarryOutMapped {
        outcome.buffers[2] = with_stores(input, ALL).buffers[2].clone();
    }
}

fn told_1_sets_the_pair(input: &Input) -> Outcome {
    altered_told(input, Told::One, |outcome| sets_the_pair(input, outcome))
}

/// 1 is taken for all where one store is all that there is.
fn told_1_sets_the_pair_without_a_place(input: &Input) -> Outcome {
    altered_told(input, Told::One, |outcome| {
        if !has_place(input) {
            sets_the_pair(input, outcome);
        }
    })
}

fn told_0_sets_the_pair(input: &Input) -> Outcome {
    altered_told(input, Told::None, |outcome| sets_the_pair(input, outcome))
}

/// All stores are made whatever the number, but "all" is 2 alone for the map.
fn the_map_wants_exactly_2(input: &Input) -> Outcome {
    altered_map(input, |outcome, _, _| {
        if input.numbers.stores != 2 {
            outcome.buffers[2] = input.buffers[2].clone();
        }
    })
}

fn told_1_makes_all(input: &Input) -> Outcome {
    altered_told(input, Told::One, |outcome| make_all(input, outcome))
}

fn told_0_makes_all(input: &Input) -> Outcome {
    altered_told(input, Told::None, |outcome| make_all(input, outcome))
}

fn told_0_makes_one(input: &Input) -> Outcome {
    taken_for(input, |stores| stores.max(1))
}

/// The loop ends before its last.
fn told_2_makes_one(input: &Input) -> Outcome {
    taken_for(input, |stores| if stores == 2 { 1 } else { stores })
}

/// 2 is all, and every other number none.
fn told_3_makes_none(input: &Input) -> Outcome {
    taken_for(input, |stores| if stores > 2 { 0 } else { stores })
}

fn stores_cut_to_8_bits(input: &Input) -> Outcome {
    taken_for(input, |stores| stores & 0xFF)
}

fn stores_cut_to_32_bits(input: &Input) -> Outcome {
    taken_for(input, |stores| stores & 0xFFFF_FFFF)
}

fn stores_cut_to_63_bits(input: &Input) -> Outcome {
    taken_for(input, |stores| stores & !(1 << 63))
}

/// A signed number: those from 2^63 on are below 1.
fn stores_below_zero_are_none(input: &Input) -> Outcome {
    taken_for(input, |stores| if stores >= 1 << 63 { 0 } else { stores })
}

fn told_0_answers_nothing(input: &Input) -> Outcome {
    altered_told(input, Told::None, |outcome| outcome.answer = Answer::of(&[0, 0, 0]))
}

/// What was stored, and not what would be: a page alone has no kind.
fn told_1_answers_no_kind_for_a_page(input: &Input) -> Outcome {
    altered_told(input, Told::One, |outcome| {
        if input.numbers.kind == 2 {
            outcome.answer = Answer::of(&[0, 0, 0]);
        }
    })
}

fn told_1_answers_no_length(input: &Input) -> Outcome {
    altered_told(input, Told::One, |outcome| outcome.answer.0[2] = 0)
}

/// Nothing is to be stored, so these refusals are not given.
fn told_0_skips(input: &Input, numbers: &[i128]) -> Outcome {
    altered_decision(input, |outcome| {
        let is_told_0 = Told::of(input.numbers.stores) == Told::None;
        if is_told_0 && numbers.contains(&outcome.answer.number()) {
            let kind = input.numbers.kind.into();
            let length = if kind == 1 { payload_of(input).len() as i128 } else { 0 };
            outcome.answer = Answer::of(&[0, kind, length]);
        }
    })
}

fn told_0_refuses_nothing(input: &Input) -> Outcome {
    told_0_skips(input, &[1, 2, 3, 4, 5, 6, 7, 8, 9])
}

fn told_0_looks_at_no_payload(input: &Input) -> Outcome {
    told_0_skips(input, &[7])
}

fn told_0_wants_no_place(input: &Input) -> Outcome {
    told_0_skips(input, &[8])
}

/// Told 0 or 1 the map is not touched, so it may be too short.
fn stops_want_no_map(input: &Input) -> Outcome {
    altered(input, Call::CarryOutMapped, |outcome| {
        if outcome.answer.number() == 9 && Told::of(input.numbers.stores) != Told::All {
            let mut longer = input.clone();
            longer.buffers[2].resize(MAX_BLOCKS / 4, 0);
            *outcome = independent_outcome(&longer);
            outcome.buffers[2] = input.buffers[2].clone();
        }
    })
}

/// Told 1, a store that changes nothing is not counted, and the next one is made too.
fn counts_stores_that_change_something(input: &Input) -> Outcome {
    altered_told(input, Told::One, |outcome| {
        if outcome.buffers[..2] == input.buffers[..2] {
            make_all(input, outcome);
        }
    })
}

/// A store that is itself cut.
fn stores_half_of_the_page(input: &Input) -> Outcome {
    altered_told(input, Told::One, |outcome| {
        if input.numbers.kind == 2 {
            let half = place_range(input.numbers.block as usize).start + PAGE / 2..;
            let old = &input.buffers[1][half.clone()];
            outcome.buffers[1][half].copy_from_slice(old);
        }
    })
}

/// The old slot is consulted: a page that is in use is kept until the slot is stored.
fn told_1_spares_a_page_in_use(input: &Input) -> Outcome {
    altered_told(input, Told::One, |outcome| {
        if input.numbers.kind == 2 && old_slot(input)[0] == 2 {
            outcome.buffers = input.buffers.clone();
        }
    })
}

/// The first of two is none where there is only one.
fn told_1_stores_nothing_without_a_place(input: &Input) -> Outcome {
    altered_told(input, Told::One, |outcome| {
        if !has_place(input) {
            outcome.buffers = input.buffers.clone();
        }
    })
}

/// A wrong program, and where it is noticed if both sides are that program.
type WrongStop = (&'static str, Side, Noticed);

#[derive(Clone, Copy, PartialEq, Eq)]
enum Noticed {
    /// By runs that are stopped, on this side.
    InRuns(&'static str),
    /// By any number of stores: runs are told 0, 1 and one number for all.
    ByNumbers,
    /// By cases alone: runs cannot show it, since what is left is swept.
    ByCases,
}

use Noticed::{ByCases, ByNumbers, InRuns};

const WRONG_STOPS: [WrongStop; 27] = [
    ("the slot before the page", stores_the_slot_before_the_page, InRuns("demand on stops")),
    ("the place before the slot", clears_the_place_before_the_slot, InRuns("demand on stops")),
    ("the pair set when told 1", told_1_sets_the_pair, InRuns("rule of answers")),
    (
        "the pair set when told 1 without a place",
        told_1_sets_the_pair_without_a_place,
        InRuns("rule of answers"),
    ),
    ("the pair set when told 0", told_0_sets_the_pair, InRuns("rule of answers")),
    ("the pair set when told 2 alone", the_map_wants_exactly_2, ByNumbers),
    ("all stores when told 1", told_1_makes_all, InRuns("demand on stops")),
    ("all stores when told 0", told_0_makes_all, InRuns("rule of answers")),
    ("one store when told 0", told_0_makes_one, InRuns("rule of answers")),
    ("one store when told 2", told_2_makes_one, ByNumbers),
    ("no store when told 3", told_3_makes_none, ByNumbers),
    ("stores cut to 8 bits", stores_cut_to_8_bits, ByNumbers),
    ("stores cut to 32 bits", stores_cut_to_32_bits, ByNumbers),
    ("stores cut to 63 bits", stores_cut_to_63_bits, ByNumbers),
    ("stores below zero", stores_below_zero_are_none, ByNumbers),
    ("no answer when told 0", told_0_answers_nothing, InRuns("demand on runs")),
    ("no kind for a page alone", told_1_answers_no_kind_for_a_page, InRuns("demand on runs")),
    ("no length when told 1", told_1_answers_no_length, InRuns("demand on runs")),
    ("no refusal when told 0", told_0_refuses_nothing, InRuns("demand on runs")),
    ("any payload when told 0", told_0_looks_at_no_payload, InRuns("demand on runs")),
    ("no place wanted when told 0", told_0_wants_no_place, InRuns("demand on runs")),
    ("no map wanted when stopped", stops_want_no_map, ByCases),
    ("stores counted that change something", counts_stores_that_change_something, ByCases),
    ("half of the page stored", stores_half_of_the_page, InRuns("demand on stops")),
    ("a page in use spared", told_1_spares_a_page_in_use, InRuns("demand on stops")),
    ("no store without a place", told_1_stores_nothing_without_a_place, InRuns("demand on stops")),
    ("a map that is left", leaves_the_map, ByNumbers),
];

#[test]
fn wrong_stops_are_found() {
    WRONG_STOPS.iter().for_each(|(name, wrong, _)| must_find_in(&DECISIONS, name, *wrong));
}

#[test]
fn cases_by_hand_notice_wrong_stops() {
    let mut cases = cases::all();
    cases.retain(|case| case.input.call.carries_out());
    for (name, wrong, _) in WRONG_STOPS {
        let differs = |case: &cases::Case| {
            wrong(&case.input).difference(&case.expected, case.input.call).is_some()
        };
        assert!(cases.iter().any(differs), "{name} was not noticed");
    }
}

/// A harness whose both sides are the same program.
pub(super) fn on_both_sides(program: Side) -> Harness {
    let mut harness = Harness::new();
    harness.expected = program;
    harness.in_place_of_library = Some(program);
    harness
}

/// The side that notices a wrong program on both sides in runs that are stopped. It needs not many.
pub(super) fn side_in_stopped_runs(program: Side) -> Option<&'static str> {
    let mut harness = on_both_sides(program);
    let mismatch = (0..20).find_map(|case| {
        let mut rng = Rng::for_case(SEED, "stops", case);
        stops::run(&mut harness, &mut rng, &mut stops::Met::default()).err()
    });
    mismatch.map(|mismatch| mismatch.side)
}

/// The same wrong program on both sides: only what is demanded can notice.
#[test]
fn the_demand_on_stops_notices_wrong_programs() {
    assert_eq!(side_in_stopped_runs(independent_outcome), None);
    assert!(extremes::stores(&mut on_both_sides(independent_outcome)).is_ok());
    for (name, wrong, noticed) in WRONG_STOPS {
        let by_numbers = || extremes::stores(&mut on_both_sides(wrong)).err();
        match noticed {
            InRuns(side) => assert_eq!(side_in_stopped_runs(wrong), Some(side), "{name}"),
            ByNumbers => {
                assert_eq!(by_numbers().map(|mismatch| mismatch.side), Some("by hand"), "{name}");
            }
            ByCases => assert!(by_numbers().is_none(), "{name} is noticed by numbers"),
        }
    }
}

/// Refusals that are not given when told 0 or 1, on both sides: the list of faults notices.
#[test]
fn other_refusals_of_stops_are_noticed() {
    for wrong in [
        told_0_refuses_nothing as Side,
        told_0_looks_at_no_payload,
        told_0_wants_no_place,
        told_0_answers_nothing,
        stops_want_no_map,
    ] {
        let found = orders::of_decisions_with_a_map(&mut on_both_sides(wrong));
        assert_eq!(found.expect_err("noticed").side, "order of refusals");
    }
}

/// Stores from elsewhere on which decisions are stopped.
#[test]
fn stores_from_elsewhere_notice_wrong_stops() {
    for (name, wrong) in [
        ("the slot before the page", stores_the_slot_before_the_page as Side),
        ("the place before the slot", clears_the_place_before_the_slot),
        ("the pair set when told 1", told_1_sets_the_pair),
        ("half of the page stored", stores_half_of_the_page),
        ("no length when told 1", told_1_answers_no_length),
    ] {
        let noticed = elsewhere_notices(wrong);
        // The answer of a stop is not looked at there.
        assert_eq!(noticed, name != "no length when told 1", "{name}");
    }
}
