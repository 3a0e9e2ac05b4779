//! The comparison can fail: wrong programs on one side of it are found by the same random inputs
//! that the library passes, and the demand on runs notices programs that both sides agree about.

use differential::call::{
    Answer, Call, Input, Outcome, Told, FULL_HEADER, MAX_BLOCKS, PAGE, PATCH_HEADER, PAYLOAD, SLOT,
};
use differential::generate;
use differential::harness::{independent_outcome, Counts, Harness, Mismatch, Side};
use differential::maps::{self, Elsewhere};
use differential::rng::Rng;
use differential::runs::{self, Met};
use differential::{cases, cuts, extremes, orders, payloads};

#[path = "can_fail/stops.rs"]
mod stops;
#[path = "can_fail/sweeps.rs"]
mod sweeps;

const SEED: u64 = 1;
const MOST_CASES: u64 = 60_000;

fn random_input(case: u64) -> Input {
    generate::any_input(&mut Rng::for_case(SEED, "random", case))
}

/// The first mismatch that random inputs find between the library and a program. Only inputs of these calls
/// are looked at: in all others the program is the independent implementation itself.
fn first_mismatch(expected: Side, calls: &[Call]) -> Option<Mismatch> {
    let mut harness = Harness::new();
    harness.expected = expected;
    (0..MOST_CASES).find_map(|case| {
        let input = random_input(case);
        if !calls.contains(&input.call) {
            return None;
        }
        harness.start_case(case);
        harness.check(&input).err()
    })
}

fn must_find(name: &str, wrong: Side) {
    must_find_in(&Call::ALL, name, wrong);
}

fn must_find_in(calls: &[Call], name: &str, wrong: Side) {
    assert!(first_mismatch(wrong, calls).is_some(), "{name} was not noticed");
}

/// The calls that carry out a decision.
const DECISIONS: [Call; 2] = [Call::CarryOut, Call::CarryOutMapped];

// Programs that differ from the independent implementation in one thing.

fn altered(input: &Input, call: Call, alter: impl FnOnce(&mut Outcome)) -> Outcome {
    let mut outcome = independent_outcome(input);
    if input.call == call {
        alter(&mut outcome);
    }
    outcome
}

fn another_number(input: &Input) -> Outcome {
    altered(input, Call::Judge, |outcome| {
        if outcome.answer.number() == 6 {
            outcome.answer.0[0] = 7;
        }
    })
}

fn a_changed_byte(input: &Input) -> Outcome {
    altered(input, Call::Read, |outcome| {
        if let Some(last) = outcome.buffers[3].last_mut() {
            *last ^= 1;
        }
    })
}

fn a_changed_byte_in_a_buffer_only_read(input: &Input) -> Outcome {
    altered(input, Call::Build, |outcome| {
        if let Some(last) = outcome.buffers[0].last_mut() {
            *last ^= 1;
        }
    })
}

fn refused_compare_says_no_last(input: &Input) -> Outcome {
    altered(input, Call::Compare, |outcome| {
        if outcome.answer.number() != 0 {
            outcome.answer.0[4] = -1;
        }
    })
}

fn invented_entries(input: &Input) -> Outcome {
    altered(input, Call::Compare, |outcome| {
        if outcome.answer.0[1] == 1 {
            outcome.answer.0[3] = outcome.answer.0[2] / 2;
        }
    })
}

fn no_length_for_a_large_page(input: &Input) -> Outcome {
    altered(input, Call::Compare, |outcome| {
        if outcome.answer.0[1] == 2 {
            outcome.answer.0[2] = 0;
        }
    })
}

fn build_keeps_its_block_to_itself(input: &Input) -> Outcome {
    altered(input, Call::Build, |outcome| outcome.answer.0[1] = 0)
}

fn flags_as_one_bit(input: &Input) -> Outcome {
    altered(input, Call::Judge, |outcome| {
        let mut lenient = input.clone();
        if let [1, flags, ..] = &mut lenient.buffers[0][..] {
            *flags &= 1;
        }
        outcome.answer = independent_outcome(&lenient).answer;
    })
}

fn blocks_that_wrap(input: &Input) -> Outcome {
    let mut wrapped = input.clone();
    wrapped.numbers.block = input.numbers.block.wrapping_mul(512) / 512;
    independent_outcome(&wrapped)
}

fn unused_pairs_ignored(input: &Input) -> Outcome {
    altered(input, Call::Tally, |outcome| {
        let mut cleared = input.clone();
        let n = input.numbers.n;
        if n % 4 != 0 {
            if let Some(byte) = cleared.buffers[0].get_mut((n / 4) as usize) {
                *byte &= (1 << (2 * (n % 4))) - 1;
            }
        }
        outcome.answer = independent_outcome(&cleared).answer;
    })
}

// Tallies by counts of bits, with a fault each.

/// The bits of some bytes: those of pairs 2 and 3, those of pairs 1 and 3, and the pairs that are 3.
fn bits_of(bytes: &[u8]) -> [u64; 3] {
    let all = |bits: fn(u8) -> u8| bytes.iter().map(|b| bits(*b).count_ones() as u64).sum();
    [all(|b| (b / 2) & 0x55), all(|b| b & 0x55), all(|b| (b / 2) & b & 0x55)]
}

/// A Tally that does as it should up to the pairs. `count` takes the map's bytes and those after them.
fn own_tally(input: &Input, count: impl FnOnce(&[u8], &[u8]) -> [u64; 3]) -> Outcome {
    altered(input, Call::Tally, |outcome| {
        if ![0, 11].contains(&outcome.answer.number()) {
            return;
        }
        let n = input.numbers.n;
        let unused = |last: &u8| n % 4 != 0 && last >> (2 * (n % 4)) != 0;
        let (map, later) = input.buffers[0].split_at(((n + 3) / 4) as usize);
        outcome.answer = match count(map, later) {
            _ if map.last().map_or(false, unused) => Answer::of(&[11]),
            [patch, full, 0] => Answer::of(&[0, patch.into(), full.into()]),
            _ => Answer::of(&[11]),
        };
    })
}

fn tallies_rightly(input: &Input) -> Outcome {
    own_tally(input, |map, _| bits_of(map))
}

fn mixes_up_patch_and_full(input: &Input) -> Outcome {
    own_tally(input, |map, _| {
        let [high, low, threes] = bits_of(map);
        [low, high, threes]
    })
}

fn counts_3_as_both(input: &Input) -> Outcome {
    own_tally(input, |map, _| {
        let [high, low, _] = bits_of(map);
        [high, low, 0]
    })
}

fn adds_up_in_8_bits(input: &Input) -> Outcome {
    own_tally(input, |map, _| {
        let [high, low, threes] = bits_of(map);
        [high % 256, low % 256, threes]
    })
}

/// Eight counts in one word: one that passes 255 adds 1 to its neighbour.
fn carries_into_the_next_byte(input: &Input) -> Outcome {
    own_tally(input, |map, _| {
        let [mut high, mut low] = [0u64; 2];
        for eight in map.chunks(8) {
            let [mut highs, mut lows] = [[0; 8]; 2];
            for (at, byte) in eight.iter().enumerate() {
                highs[at] = (byte & 0xAA).count_ones() as u8;
                lows[at] = (byte & 0x55).count_ones() as u8;
            }
            high = high.wrapping_add(u64::from_le_bytes(highs));
            low = low.wrapping_add(u64::from_le_bytes(lows));
        }
        let sum = |word: u64| word.to_le_bytes().map(u64::from).iter().sum();
        [sum(high), sum(low), bits_of(map)[2]]
    })
}

fn leaves_out_the_rest(input: &Input) -> Outcome {
    own_tally(input, |map, _| bits_of(&map[..map.len() / 32 * 32]))
}

fn meets_3_in_the_rest_alone(input: &Input) -> Outcome {
    own_tally(input, |map, _| {
        let [high, low, _] = bits_of(map);
        [high, low, bits_of(&map[map.len() / 32 * 32..])[2]]
    })
}

fn counts_later_bytes(input: &Input) -> Outcome {
    own_tally(input, |map, later| bits_of(&[map, later].concat()))
}

const WRONG_TALLIES: [(&str, Side); 7] = [
    ("PATCH and full mixed up", mixes_up_patch_and_full),
    ("3 counted as both", counts_3_as_both),
    ("sums of 8 bits", adds_up_in_8_bits),
    ("a carry into the next byte", carries_into_the_next_byte),
    ("the rest left out", leaves_out_the_rest),
    ("3 met in the rest alone", meets_3_in_the_rest_alone),
    ("later bytes counted", counts_later_bytes),
];

// The shortcuts that give a wrong page.

/// Alters what comes of a decision, with a map or without.
fn altered_decision(input: &Input, alter: impl FnOnce(&mut Outcome)) -> Outcome {
    let mut outcome = independent_outcome(input);
    if input.call.carries_out() {
        alter(&mut outcome);
    }
    outcome
}

/// The same of one that is accepted.
fn altered_accepted(input: &Input, alter: impl FnOnce(&mut Outcome)) -> Outcome {
    altered_decision(input, |outcome| {
        if outcome.answer.number() == 0 {
            alter(outcome);
        }
    })
}

/// The same of one of this kind.
fn altered_kind(input: &Input, kind: u32, alter: impl FnOnce(&mut Outcome)) -> Outcome {
    altered_accepted(input, |outcome| {
        if input.numbers.kind == kind {
            alter(outcome);
        }
    })
}

/// Where a decision's payload stands among the buffers; its page stands behind it.
fn payload_at(input: &Input) -> usize {
    input.buffers.len() - 2
}

fn payload_of(input: &Input) -> &[u8] {
    &input.buffers[payload_at(input)]
}

fn page_of(input: &Input) -> &[u8] {
    &input.buffers[payload_at(input) + 1]
}

fn slot_range(block: u64) -> std::ops::Range<usize> {
    let start = PATCH_HEADER + SLOT * block as usize;
    start..start + SLOT
}

/// The slot that a decision is carried out on.
fn slot_of<'b>(input: &Input, buffers: &'b mut [Vec<u8>]) -> &'b mut [u8] {
    &mut buffers[0][slot_range(input.numbers.block)]
}

fn old_slot(input: &Input) -> &[u8] {
    &input.buffers[0][slot_range(input.numbers.block)]
}

fn is_sound(payload: &[u8]) -> bool {
    independent::apply(&[], payload, &mut [0; PAGE]).number == 0
}

/// What comes of a decision with another kind or payload in its place, which it is not lent.
fn as_if(input: &Input, kind: u32, payload: &[u8]) -> Outcome {
    let mut changed = input.clone();
    changed.numbers.kind = kind;
    changed.buffers[payload_at(input)] = payload.to_vec();
    let mut outcome = independent_outcome(&changed);
    outcome.buffers[payload_at(input)] = payload_of(input).to_vec();
    outcome
}

/// A patch that drops what the block's patch says already.
fn compares_with_the_current_page(input: &Input) -> Outcome {
    altered_kind(input, 1, |outcome| {
        let old = independent::judge(old_slot(input));
        if (old.number, old.kind) == (0, 1) {
            let (before, _) =
                decoded(&old_slot(input)[8..8 + old.length as usize], -1, from_255_on);
            let (mut entries, _) = decoded(payload_of(input), -1, from_255_on);
            entries.retain(|entry| !before.contains(entry));
            let payload = spelled(entries);
            if !payload.is_empty() {
                *outcome = as_if(input, 1, &payload);
            }
        }
    })
}

fn clears_only_after_full_ref(input: &Input) -> Outcome {
    altered_accepted(input, |outcome| {
        if input.numbers.kind != 2 && old_slot(input)[0] != 2 {
            outcome.buffers[1] = input.buffers[1].clone();
        }
    })
}

fn leaves_the_tail(input: &Input) -> Outcome {
    altered_kind(input, 1, |outcome| {
        let tail = 8 + payload_of(input).len()..SLOT;
        slot_of(input, &mut outcome.buffers)[tail.clone()].copy_from_slice(&old_slot(input)[tail]);
    })
}

fn stores_block_0_only(input: &Input) -> Outcome {
    altered_decision(input, |outcome| {
        if input.numbers.block > 0 {
            outcome.buffers = input.buffers.clone();
        }
    })
}

fn stores_nothing(input: &Input) -> Outcome {
    altered_decision(input, |outcome| outcome.buffers = input.buffers.clone())
}

// Decisions that are carried out wrongly.

/// Stores a slot of this kind, with zeros in the place and the kind's bits for the pair.
fn stores_kind_3(input: &Input) -> Outcome {
    altered_decision(input, |outcome| {
        if outcome.answer.number() == 6 && input.numbers.kind == 3 {
            *outcome = as_if(input, 0, &[]);
            outcome.answer.0[1] = 3;
            slot_of(input, &mut outcome.buffers)[0] = 3;
        }
    })
}

/// Whatever is not 0 or 1.
fn takes_other_kinds_for_full_ref(input: &Input) -> Outcome {
    altered_decision(input, |outcome| {
        if input.numbers.kind > 2 {
            *outcome = as_if(input, 2, payload_of(input));
        }
    })
}

fn takes_other_kinds_for_empty(input: &Input) -> Outcome {
    altered_decision(input, |outcome| {
        if input.numbers.kind > 2 {
            *outcome = as_if(input, 0, payload_of(input));
        }
    })
}

fn by_kind(input: &Input, kind: u32) -> Outcome {
    altered_decision(input, |outcome| *outcome = as_if(input, kind, payload_of(input)))
}

fn kind_cut_to_8_bits(input: &Input) -> Outcome {
    by_kind(input, input.numbers.kind & 0xFF)
}

fn kind_cut_to_16_bits(input: &Input) -> Outcome {
    by_kind(input, input.numbers.kind & 0xFFFF)
}

fn kind_cut_to_31_bits(input: &Input) -> Outcome {
    by_kind(input, input.numbers.kind & !(1 << 31))
}

fn copies_the_payload_for_full_ref(input: &Input) -> Outcome {
    altered_kind(input, 2, |outcome| {
        let payload = payload_of(input);
        let kept = &payload[..payload.len().min(PAYLOAD)];
        slot_of(input, &mut outcome.buffers)[8..8 + kept.len()].copy_from_slice(kept);
    })
}

/// The place of a patch holds the page too.
fn copies_the_page_for_patch(input: &Input) -> Outcome {
    altered_kind(input, 1, |outcome| {
        let block = input.numbers.block as usize;
        if block < pages_of(input) && page_of(input).len() == PAGE {
            outcome.buffers[1][place_range(block)].copy_from_slice(page_of(input));
        }
    })
}

/// Checks the page's length first, for this kind too.
fn checks_the_page_for(input: &Input, kinds: std::ops::RangeInclusive<u32>) -> Outcome {
    altered_decision(input, |outcome| {
        if kinds.contains(&input.numbers.kind) && page_of(input).len() != PAGE {
            refuse(input, outcome, 1);
        }
    })
}

fn checks_the_page_for_empty(input: &Input) -> Outcome {
    checks_the_page_for(input, 0..=0)
}

fn checks_the_page_for_patch(input: &Input) -> Outcome {
    checks_the_page_for(input, 1..=1)
}

fn checks_the_page_for_other_kinds(input: &Input) -> Outcome {
    checks_the_page_for(input, 3..=u32::MAX)
}

/// Refuses with 7 where the payload is not sound, for other kinds too, in the place of these answers.
fn checks_the_payload_for(input: &Input, kind: u32, instead_of: &[i128]) -> Outcome {
    altered_decision(input, |outcome| {
        let told = input.numbers.kind == kind && instead_of.contains(&outcome.answer.number());
        if told && !is_sound(payload_of(input)) {
            refuse(input, outcome, 7);
        }
    })
}

fn checks_the_payload_for_empty(input: &Input) -> Outcome {
    checks_the_payload_for(input, 0, &[0])
}

fn checks_the_payload_for_full_ref(input: &Input) -> Outcome {
    checks_the_payload_for(input, 2, &[0])
}

/// 8 comes after 7.
fn checks_the_payload_before_the_place(input: &Input) -> Outcome {
    checks_the_payload_for(input, 2, &[8])
}

fn answers_the_length_for_full_ref(input: &Input) -> Outcome {
    altered_kind(input, 2, |outcome| outcome.answer.0[2] = payload_of(input).len() as i128)
}

fn answers_the_length_for_empty(input: &Input) -> Outcome {
    altered_kind(input, 0, |outcome| outcome.answer.0[2] = payload_of(input).len() as i128)
}

/// The stream's length of a page that differs throughout, as the single call had it.
fn answers_a_streams_length_for_full_ref(input: &Input) -> Outcome {
    altered_kind(input, 2, |outcome| outcome.answer.0[2] = 2 * PAGE as i128)
}

/// A payload that does not say what stands in the page.
fn refuses_payloads_that_are_not_the_pages(input: &Input) -> Outcome {
    altered_kind(input, 1, |outcome| {
        let (entries, _) = decoded(payload_of(input), -1, from_255_on);
        let page = page_of(input);
        if !entries.iter().all(|(place, value)| page.get(*place) == Some(value)) {
            refuse(input, outcome, 7);
        }
    })
}

/// A writer does not write a zero over a zero, it thinks.
fn refuses_payloads_with_a_zero(input: &Input) -> Outcome {
    altered_kind(input, 1, |outcome| {
        let (entries, _) = decoded(payload_of(input), -1, from_255_on);
        if entries.iter().any(|(_, value)| *value == 0) {
            refuse(input, outcome, 7);
        }
    })
}

/// A payload that is not sound is put into the slot, as far as it fits.
fn takes_payloads(input: &Input, wanted: impl FnOnce(&[u8]) -> bool) -> Outcome {
    altered_decision(input, |outcome| {
        let payload = payload_of(input);
        if outcome.answer.number() == 7 && wanted(payload) {
            let kept = &payload[..payload.len().min(PAYLOAD)];
            *outcome = as_if(input, 1, &[0, 0]);
            outcome.answer = Answer::of(&[0, 1, kept.len() as i128]);
            let slot = generate::patch_slot(kept);
            slot_of(input, &mut outcome.buffers).copy_from_slice(&slot);
        }
    })
}

fn takes_unsound_payloads(input: &Input) -> Outcome {
    takes_payloads(input, |payload| (1..=PAYLOAD).contains(&payload.len()))
}

fn takes_an_empty_payload(input: &Input) -> Outcome {
    takes_payloads(input, <[u8]>::is_empty)
}

fn takes_overlong_payloads(input: &Input) -> Outcome {
    takes_payloads(input, |payload| payload.len() > PAYLOAD)
}

/// The offset in the length's place.
fn an_offset_beside_7(input: &Input) -> Outcome {
    altered_decision(input, |outcome| {
        if outcome.answer.number() == 7 {
            let applied = independent::apply(&[], payload_of(input), &mut [0; PAGE]);
            outcome.answer.0[2] = applied.offset.into();
        }
    })
}

fn the_kind_beside_a_refusal(input: &Input) -> Outcome {
    altered_decision(input, |outcome| {
        if outcome.answer.number() != 0 {
            outcome.answer.0[1] = input.numbers.kind.into();
        }
    })
}

/// Kinds before blocks.
fn gives_6_before_5(input: &Input) -> Outcome {
    altered_decision(input, |outcome| {
        if outcome.answer.number() == 5 && input.numbers.kind > 2 {
            refuse(input, outcome, 6);
        }
    })
}

/// Areas before the page.
fn gives_2_before_1(input: &Input) -> Outcome {
    altered_decision(input, |outcome| {
        let areas = input.buffers[..2].to_vec();
        let lengths = independent_outcome(&Input::new(Call::Cut, areas)).answer.number();
        if outcome.answer.number() == 1 && lengths == 2 {
            refuse(input, outcome, 2);
        }
    })
}

fn wants_a_place_for_patch(input: &Input) -> Outcome {
    altered_kind(input, 1, |outcome| {
        if input.numbers.block as usize >= pages_of(input) {
            refuse(input, outcome, 8);
        }
    })
}

/// The reference is stored without the page.
fn wants_no_place_for_full_ref(input: &Input) -> Outcome {
    altered_decision(input, |outcome| {
        if outcome.answer.number() == 8 {
            *outcome = as_if(input, 0, &[]);
            outcome.answer.0[1] = 2;
            slot_of(input, &mut outcome.buffers)[0] = 2;
        }
    })
}

fn wants_the_old_slot_sound(input: &Input) -> Outcome {
    altered_accepted(input, |outcome| {
        if independent::judge(old_slot(input)).number != 0 {
            refuse(input, outcome, 6);
        }
    })
}

/// A block that has the kind already is left.
fn leaves_a_block_of_the_same_kind(input: &Input) -> Outcome {
    altered_accepted(input, |outcome| {
        let old = independent::judge(old_slot(input));
        if (old.number, old.kind) == (0, input.numbers.kind) {
            outcome.buffers = input.buffers.clone();
        }
    })
}

fn leaves_the_place(input: &Input) -> Outcome {
    altered_decision(input, |outcome| {
        if input.numbers.kind != 2 {
            outcome.buffers[1] = input.buffers[1].clone();
        }
    })
}

const WRONG_DECISIONS: [(&str, Side); 37] = [
    ("kind 3 stored", stores_kind_3),
    ("other kinds taken for FULL_REF", takes_other_kinds_for_full_ref),
    ("other kinds taken for EMPTY", takes_other_kinds_for_empty),
    ("a kind cut to 8 bits", kind_cut_to_8_bits),
    ("a kind cut to 16 bits", kind_cut_to_16_bits),
    ("a kind cut to 31 bits", kind_cut_to_31_bits),
    ("a payload copied for FULL_REF", copies_the_payload_for_full_ref),
    ("a page copied for PATCH", copies_the_page_for_patch),
    ("a page checked for EMPTY", checks_the_page_for_empty),
    ("a page checked for PATCH", checks_the_page_for_patch),
    ("a page checked for other kinds", checks_the_page_for_other_kinds),
    ("a payload checked for EMPTY", checks_the_payload_for_empty),
    ("a payload checked for FULL_REF", checks_the_payload_for_full_ref),
    ("8 after 7", checks_the_payload_before_the_place),
    ("a length for FULL_REF", answers_the_length_for_full_ref),
    ("a length for EMPTY", answers_the_length_for_empty),
    ("a stream's length for FULL_REF", answers_a_streams_length_for_full_ref),
    ("a payload refused that is not the page's", refuses_payloads_that_are_not_the_pages),
    ("a payload refused that has a zero", refuses_payloads_with_a_zero),
    ("an unsound payload taken", takes_unsound_payloads),
    ("an empty payload taken", takes_an_empty_payload),
    ("an overlong payload taken", takes_overlong_payloads),
    ("an offset beside 7", an_offset_beside_7),
    ("the kind beside a refusal", the_kind_beside_a_refusal),
    ("6 before 5", gives_6_before_5),
    ("2 before 1", gives_2_before_1),
    ("a place wanted for PATCH", wants_a_place_for_patch),
    ("no place wanted for FULL_REF", wants_no_place_for_full_ref),
    ("an old slot that must be sound", wants_the_old_slot_sound),
    ("a block of the same kind left", leaves_a_block_of_the_same_kind),
    ("a place that is left", leaves_the_place),
    ("comparing with the current page", compares_with_the_current_page),
    ("clearing only after FULL_REF", clears_only_after_full_ref),
    ("leaving the tail", leaves_the_tail),
    ("storing block 0 only", stores_block_0_only),
    ("storing nothing", stores_nothing),
    ("the pair set by a refused decision", sets_the_pair_of_a_refused_decision),
];

fn always_reads_the_base(input: &Input) -> Outcome {
    altered(input, Call::Read, |outcome| {
        if outcome.answer.number() == 0 {
            outcome.buffers[3] = generate::page_of_base(&input.buffers[2]);
        }
    })
}

/// Which jumps the long code may have, told whether the entry is the payload's first.
type LongRule = fn(first: bool, jump: u16) -> bool;

/// The right one.
fn from_255_on(_: bool, jump: u16) -> bool {
    jump >= 255
}

/// The entries of a payload, with their positions, up to the first that is not sound, and the offset of
/// that one if there is one. `first` is where the position starts.
fn decoded(payload: &[u8], first: i32, rule: LongRule) -> (Vec<(usize, u8)>, Option<usize>) {
    let mut entries = Vec::new();
    let mut position = first;
    let mut rest = payload;
    while !rest.is_empty() {
        let offset = payload.len() - rest.len();
        let (jump, value, after) = match rest {
            [255, low, high, value, after @ ..] => {
                let jump = u16::from_le_bytes([*low, *high]);
                if !rule(offset == 0, jump) {
                    return (entries, Some(offset));
                }
                (jump, value, after)
            }
            [jump @ 0..=254, value, after @ ..] => (u16::from(*jump), value, after),
            _ => return (entries, Some(offset)),
        };
        position += i32::from(jump) + 1;
        match usize::try_from(position) {
            Ok(place) if place < PAGE => entries.push((place, *value)),
            _ => return (entries, Some(offset)),
        }
        rest = after;
    }
    (entries, None)
}

/// Apply once more, with two places for a fault: where the position starts, and whether the page is
/// filled while the payload is being checked.
fn own_apply(input: &Input, first: i32, while_checking: bool) -> Outcome {
    altered(input, Call::Apply, |outcome| {
        let (base, payload) = (&input.buffers[0], &input.buffers[1]);
        let length_sound = (1..=PAYLOAD).contains(&payload.len());
        if outcome.answer.number() == 1 || !length_sound {
            return;
        }
        let (entries, breaks_at) = decoded(payload, first, from_255_on);
        outcome.buffers = input.buffers.clone();
        if breaks_at.is_none() || while_checking {
            let mut page = generate::page_of_base(base);
            entries.iter().for_each(|(place, value)| page[*place] = *value);
            outcome.buffers[2] = page;
        }
        let last = entries.last().map_or(-1, |(place, _)| *place as i128);
        outcome.answer = match breaks_at {
            Some(offset) => Answer::of(&[7, 0, 0, offset as i128]),
            None => Answer::of(&[0, entries.len() as i128, last]),
        };
    })
}

fn applies_rightly(input: &Input) -> Outcome {
    own_apply(input, -1, false)
}

fn position_from_0(input: &Input) -> Outcome {
    own_apply(input, 0, false)
}

fn applies_while_checking(input: &Input) -> Outcome {
    own_apply(input, -1, true)
}

fn looks_for_stray_pages_first(input: &Input) -> Outcome {
    altered(input, Call::Build, |outcome| {
        let full = &input.buffers[1];
        if outcome.answer.number() == 6 && full.len() > FULL_HEADER {
            let places = full[FULL_HEADER..].chunks(PAGE);
            let slots = input.buffers[0][PATCH_HEADER..].chunks(SLOT);
            let stray = places
                .zip(slots)
                .position(|(place, slot)| slot[0] != 2 && place.iter().any(|byte| *byte != 0));
            if let Some(block) = stray {
                outcome.answer = Answer::of(&[10, block as i128]);
            }
        }
    })
}

// Offsets that are not those of the first unsound entry.

/// Alters the offset that is given with 7.
fn altered_offset(input: &Input, alter: impl FnOnce(&mut i128)) -> Outcome {
    let mut outcome = independent_outcome(input);
    if let (7, Some(member)) = (outcome.answer.number(), input.call.offset_member()) {
        alter(&mut outcome.answer.0[member]);
    }
    outcome
}

fn no_offset(input: &Input) -> Outcome {
    altered_offset(input, |offset| *offset = 0)
}

/// Where the entry after the unsound one would start, or the payload ends.
fn offset_of_the_entry_after(input: &Input) -> Outcome {
    altered(input, Call::Apply, |outcome| {
        let payload = &input.buffers[1];
        if outcome.answer.number() == 7 && (1..=PAYLOAD).contains(&payload.len()) {
            let at = outcome.answer.0[3] as usize;
            let length = if payload[at] == 255 { 4 } else { 2 };
            outcome.answer.0[3] = (at + length).min(payload.len()) as i128;
        }
    })
}

fn offset_of_the_entry_before(input: &Input) -> Outcome {
    altered_offset(input, |offset| *offset = (*offset - 2).max(0))
}

/// The payload begins 8 bytes into its slot.
fn offset_from_the_slot(input: &Input) -> Outcome {
    let in_a_slot = matches!(input.call, Call::Read | Call::Build);
    altered_offset(input, |offset| *offset += if in_a_slot { 8 } else { 0 })
}

fn offset_from_the_area(input: &Input) -> Outcome {
    altered(input, Call::Build, |outcome| {
        if outcome.answer.number() == 7 {
            outcome.answer.0[2] += slot_range(outcome.answer.0[1] as u64).start as i128 + 8;
        }
    })
}

/// Overlong payloads are looked into.
fn offset_in_an_overlong_payload(input: &Input) -> Outcome {
    altered(input, Call::Apply, |outcome| {
        if outcome.answer.number() == 7 && input.buffers[1].len() > PAYLOAD {
            let breaks_at = decoded(&input.buffers[1], -1, from_255_on).1;
            outcome.answer.0[3] = breaks_at.unwrap_or(PAYLOAD) as i128;
        }
    })
}

/// An Apply that looks at its payload before it looks at its pages, and keeps the offset.
fn offset_beside_a_wrong_page(input: &Input) -> Outcome {
    altered(input, Call::Apply, |outcome| {
        let payload = &input.buffers[1];
        if outcome.answer.number() == 1 && (1..=PAYLOAD).contains(&payload.len()) {
            outcome.answer.0[3] = decoded(payload, -1, from_255_on).1.unwrap_or(0) as i128;
        }
    })
}

/// A sound payload that says where it ends.
fn offset_of_the_end(input: &Input) -> Outcome {
    altered(input, Call::Apply, |outcome| {
        if outcome.answer.number() == 0 {
            outcome.answer.0[3] = input.buffers[1].len() as i128;
        }
    })
}

// Readers that are wrong.

/// Alters a step of a reader.
fn altered_step(input: &Input, alter: impl FnOnce(&mut [i128; 5])) -> Outcome {
    altered(input, Call::Next, |outcome| alter(&mut outcome.answer.0))
}

fn step_from(payload: &[u8], at: i128, position: i128) -> [i128; 5] {
    independent_outcome(&Input::step(payload, (at as u64, position as i32))).answer.0
}

/// Where there is a second one.
fn reader_skips_its_first_entry(input: &Input) -> Outcome {
    altered_step(input, |step| {
        if input.numbers.at == 0 && step[1] == 1 {
            let second = step_from(&input.buffers[0], step[2], step[3]);
            if second[1] == 1 {
                *step = second;
            }
        }
    })
}

/// Past a stop it tries the next byte.
fn reader_goes_on_after_a_stop(input: &Input) -> Outcome {
    altered_step(input, |step| {
        let payload = &input.buffers[0];
        if step[0] == 7 && (1..=PAYLOAD).contains(&payload.len()) {
            let further = step_from(payload, step[2] + 1, step[3]);
            if further[1] == 1 {
                *step = further;
            }
        }
    })
}

fn reader_moves_at_a_stop(input: &Input) -> Outcome {
    altered_step(input, |step| {
        if step[0] == 7 {
            step[2] = input.buffers[0].len() as i128;
        }
    })
}

/// The first 504 bytes of an overlong payload are read.
fn reader_of_overlong_payloads(input: &Input) -> Outcome {
    altered_step(input, |step| {
        let payload = &input.buffers[0];
        let kept = &payload[..payload.len().min(PAYLOAD)];
        *step = step_from(kept, input.numbers.at.into(), input.numbers.position.into());
    })
}

fn reader_takes_a_stop_for_the_end(input: &Input) -> Outcome {
    altered_step(input, |step| step[0] = 0)
}

fn reader_takes_any_position(input: &Input) -> Outcome {
    altered_step(input, |step| {
        let position = input.numbers.position.max(-1);
        *step = step_from(&input.buffers[0], input.numbers.at.into(), position.into());
    })
}

fn reader_forgets_its_position_at_the_end(input: &Input) -> Outcome {
    altered_step(input, |step| {
        if step[..2] == [0, 0] {
            step[3] = 0;
        }
    })
}

fn place_cut_to_32_bits(input: &Input) -> Outcome {
    altered_step(input, |step| {
        let cut = input.numbers.at as u32;
        *step = step_from(&input.buffers[0], cut.into(), input.numbers.position.into());
        if step[1] == 0 {
            step[2] = input.numbers.at.into();
        }
    })
}

// Programs that take another set of jumps after 255.

/// A payload that comes to the same by the rules as this one does by another rule about long jumps: its
/// entries as the writer spells them, or as many bytes of short entries before one that is cut off.
fn respelled(payload: &[u8], rule: LongRule) -> Vec<u8> {
    match decoded(payload, -1, rule) {
        (_, Some(offset)) => [&[0, 7].repeat(offset / 2)[..], &[0]].concat(),
        (entries, None) => spelled(entries),
    }
}

/// Entries as the writer spells them.
fn spelled(entries: Vec<(usize, u8)>) -> Vec<u8> {
    let mut page = vec![0; PAGE];
    let mut base = page.clone();
    // Over a base that differs wherever there is an entry, and only there.
    for (place, value) in entries {
        (page[place], base[place]) = (value, !value);
    }
    let mut bytes = vec![0; PAYLOAD];
    let compared = independent::compare(&base, &page, &mut bytes);
    bytes.truncate(compared.length as usize);
    bytes
}

/// A decision, if its payload is looked at.
fn decision_by_rule(input: &Input, rule: LongRule) -> Outcome {
    altered_decision(input, |outcome| {
        let payload = payload_of(input);
        let looked_at = input.numbers.kind == 1 && matches!(outcome.answer.number(), 0 | 7);
        if !looked_at || !(1..=PAYLOAD).contains(&payload.len()) {
            return;
        }
        if decoded(payload, -1, rule).1.is_some() {
            refuse(input, outcome, 7);
        } else if outcome.answer.number() == 7 {
            *outcome = takes_unsound_payloads(input);
        }
    })
}

/// The patch area with every sound PATCH slot's payload respelled.
fn respelled_area(patch: &[u8], rule: LongRule) -> Vec<u8> {
    let mut area = patch.to_vec();
    for slot in area.chunks_exact_mut(SLOT).skip(1) {
        let judged = independent::judge(slot);
        if (judged.number, judged.kind) == (0, 1) {
            let payload = respelled(&slot[8..8 + judged.length as usize], rule);
            slot.copy_from_slice(&generate::patch_slot(&payload));
        }
    }
    area
}

/// One step of a reader, if it has come to the long code.
fn step_by_rule(input: &Input, rule: LongRule) -> Outcome {
    altered_step(input, |step| {
        let (payload, at) = (&input.buffers[0], input.numbers.at);
        let position = input.numbers.position;
        let length_sound = (1..=PAYLOAD).contains(&payload.len());
        if !length_sound || at >= payload.len() as u64 || !(-1..=8191).contains(&position) {
            return;
        }
        if let [255, low, high, value, ..] = payload[at as usize..] {
            let jump = u16::from_le_bytes([low, high]);
            let reached = position + i32::from(jump) + 1;
            *step = if rule(at == 0, jump) && reached <= 8191 {
                [0, 1, at as i128 + 4, reached.into(), value.into()]
            } else {
                [7, 0, at.into(), position.into(), 0]
            };
        }
    })
}

/// The independent implementation with another rule about long jumps, in every call that looks at the
/// entries of a payload.
fn by_rule(input: &Input, rule: LongRule) -> Outcome {
    let lent = match input.call {
        Call::Next => return step_by_rule(input, rule),
        Call::CarryOut | Call::CarryOutMapped => return decision_by_rule(input, rule),
        Call::Apply => 1,
        Call::Read | Call::ReadMapped | Call::Build => 0,
        _ => return independent_outcome(input),
    };
    let bytes = &input.buffers[lent];
    let mut changed = input.clone();
    changed.buffers[lent] = match input.call {
        Call::Apply if (1..=PAYLOAD).contains(&bytes.len()) => respelled(bytes, rule),
        Call::Apply => bytes.clone(),
        _ => respelled_area(bytes, rule),
    };
    let mut outcome = independent_outcome(&changed);
    outcome.buffers[lent] = bytes.clone();
    outcome
}

fn takes_long_jumps_rightly(input: &Input) -> Outcome {
    by_rule(input, from_255_on)
}

/// The rule of before.
fn takes_any_long_jump(input: &Input) -> Outcome {
    by_rule(input, |_, _| true)
}

fn refuses_255(input: &Input) -> Outcome {
    by_rule(input, |_, jump| jump > 255)
}

fn lets_254_through(input: &Input) -> Outcome {
    by_rule(input, |_, jump| jump >= 254)
}

fn looks_at_the_first_entry_only(input: &Input) -> Outcome {
    by_rule(input, |first, jump| !first || jump >= 255)
}

fn looks_past_the_first_entry_only(input: &Input) -> Outcome {
    by_rule(input, |first, jump| first || jump >= 255)
}

fn tests_the_low_byte_alone(input: &Input) -> Outcome {
    by_rule(input, |_, jump| jump % 256 >= 255)
}

fn takes_the_high_byte_first(input: &Input) -> Outcome {
    by_rule(input, |_, jump| jump.swap_bytes() >= 255)
}

/// The rule of before in one call alone, the one with this place in `Call::ALL`.
fn takes_any_in<const CALL: usize>(input: &Input) -> Outcome {
    if input.call == Call::ALL[CALL] {
        takes_any_long_jump(input)
    } else {
        independent_outcome(input)
    }
}

// Maps that are kept wrongly, and reads that go by something else.

/// Alters what comes of a whole write with a map that is accepted; gives the byte and the bits of its pair.
fn altered_map(input: &Input, alter: impl FnOnce(&mut Outcome, usize, u32)) -> Outcome {
    altered(input, Call::CarryOutMapped, |outcome| {
        let is_whole = Told::of(input.numbers.stores) == Told::All;
        if outcome.answer.number() == 0 && is_whole {
            let block = input.numbers.block;
            alter(outcome, (block / 4) as usize, 2 * (block % 4) as u32);
        }
    })
}

fn leaves_the_map(input: &Input) -> Outcome {
    altered_map(input, |outcome, _, _| outcome.buffers[2] = input.buffers[2].clone())
}

/// EMPTY, the kind that is easily forgotten.
fn leaves_the_map_for_empty(input: &Input) -> Outcome {
    altered_map(input, |outcome, _, _| {
        if outcome.answer.0[1] == 0 {
            outcome.buffers[2] = input.buffers[2].clone();
        }
    })
}

fn sets_the_kind_for_the_pair(input: &Input) -> Outcome {
    altered_map(input, |outcome, byte, bits| {
        outcome.buffers[2][byte] &= !(3 << bits);
        outcome.buffers[2][byte] |= (outcome.answer.0[1] as u8) << bits;
    })
}

/// The old pair is not cleared first.
fn adds_to_the_old_pair(input: &Input) -> Outcome {
    altered_map(input, |outcome, byte, _| outcome.buffers[2][byte] |= input.buffers[2][byte])
}

fn sets_the_neighbours_pair_too(input: &Input) -> Outcome {
    altered_map(input, |outcome, byte, bits| {
        let own = outcome.buffers[2][byte] >> bits & 3;
        let neighbour = bits ^ 2;
        outcome.buffers[2][byte] &= !(3 << neighbour);
        outcome.buffers[2][byte] |= own << neighbour;
    })
}

fn clears_the_rest_of_the_byte(input: &Input) -> Outcome {
    altered_map(input, |outcome, byte, bits| outcome.buffers[2][byte] &= 3 << bits)
}

fn clears_unused_pairs(input: &Input) -> Outcome {
    altered_map(input, |outcome, _, _| {
        let n = (input.buffers[0].len() - PATCH_HEADER) / SLOT;
        if n % 4 != 0 {
            outcome.buffers[2][n / 4] &= (1 << (2 * (n % 4))) - 1;
        }
    })
}

fn clears_later_bytes(input: &Input) -> Outcome {
    altered_map(input, |outcome, _, _| {
        let n = (input.buffers[0].len() - PATCH_HEADER) / SLOT;
        outcome.buffers[2][(n + 3) / 4..].fill(0);
    })
}

fn first_pair_in_the_high_bits(input: &Input) -> Outcome {
    altered_map(input, |outcome, byte, bits| {
        let own = outcome.buffers[2][byte] >> bits & 3;
        outcome.buffers[2][byte] = input.buffers[2][byte] & !(0xC0 >> bits) | own << (6 - bits);
    })
}

/// The pair of a kind, of which those above 2 have 3.
fn pair_of_kind(kind: u32) -> u8 {
    match kind {
        0 => 0,
        1 => 2,
        2 => 1,
        _ => 3,
    }
}

/// What is refused with one of these numbers, after the map and the block were found right, sets its pair.
fn sets_the_pair_with(input: &Input, numbers: &[i128]) -> Outcome {
    altered(input, Call::CarryOutMapped, |outcome| {
        if numbers.contains(&outcome.answer.number()) {
            let pair = pair_of_kind(input.numbers.kind);
            generate::set_pair(&mut outcome.buffers[2], input.numbers.block as usize, pair);
        }
    })
}

fn sets_the_pair_of_a_refused_page(input: &Input) -> Outcome {
    sets_the_pair_with(input, &[8])
}

fn sets_the_pair_of_a_refused_payload(input: &Input) -> Outcome {
    sets_the_pair_with(input, &[7])
}

fn sets_the_pair_of_a_refused_kind(input: &Input) -> Outcome {
    sets_the_pair_with(input, &[6])
}

fn sets_the_pair_of_a_refused_decision(input: &Input) -> Outcome {
    sets_the_pair_with(input, &[6, 7, 8])
}

fn a_map_one_byte_too_short_is_taken(input: &Input) -> Outcome {
    altered(input, Call::CarryOutMapped, |outcome| {
        let mut longer = input.clone();
        longer.buffers[2].push(0);
        if outcome.answer.number() == 9 {
            *outcome = independent_outcome(&longer);
            outcome.buffers[2].pop();
        }
    })
}

/// n / 4 rounded down.
fn reads_by_a_map_one_byte_too_short(input: &Input) -> Outcome {
    altered(input, Call::ReadMapped, |outcome| {
        let mut longer = input.clone();
        longer.buffers[2].push(0);
        if outcome.answer.number() == 9 {
            *outcome = independent_outcome(&longer);
            outcome.buffers[2].pop();
        }
    })
}

/// The same read without the map.
fn by_the_slot(input: &Input) -> Outcome {
    let mut buffers = input.buffers.clone();
    buffers.remove(2);
    let read = Input::new(Call::Read, buffers).at_block(input.numbers.block);
    let mut outcome = independent_outcome(&read);
    outcome.buffers.insert(2, input.buffers[2].clone());
    outcome
}

/// The block's pair, once the read has come to it.
fn pair_of(input: &Input, outcome: &Outcome) -> Option<u8> {
    let came = matches!(outcome.answer.number(), 0 | 6 | 7 | 8 | 11);
    let block = input.numbers.block as usize;
    came.then(|| input.buffers[2][block / 4] >> (2 * (block % 4)) & 3)
}

/// Alters a read by a map that has come to the block's pair.
fn altered_read(input: &Input, alter: impl FnOnce(&mut Outcome, u8)) -> Outcome {
    altered(input, Call::ReadMapped, |outcome| {
        if let Some(pair) = pair_of(input, outcome) {
            alter(outcome, pair);
        }
    })
}

fn reads_by_the_slot(input: &Input) -> Outcome {
    altered_read(input, |outcome, _| *outcome = by_the_slot(input))
}

fn pair_0_looks_at_the_slot(input: &Input) -> Outcome {
    altered_read(input, |outcome, pair| {
        let slot = by_the_slot(input);
        if pair == 0 && slot.answer.number() == 6 {
            *outcome = slot;
        }
    })
}

fn pair_1_needs_full_ref(input: &Input) -> Outcome {
    altered_read(input, |outcome, pair| {
        let kind = by_the_slot(input).answer;
        let full_ref = kind.number() == 8 || kind.0[..2] == [0, 2];
        if pair == 1 && !full_ref {
            *outcome = Outcome { answer: Answer::of(&[6]), buffers: input.buffers.clone() };
        }
    })
}

fn pair_2_takes_any_sound_slot(input: &Input) -> Outcome {
    altered_read(input, |outcome, pair| {
        if pair == 2 {
            *outcome = by_the_slot(input);
        }
    })
}

fn pair_3_reads_by_the_slot(input: &Input) -> Outcome {
    altered_read(input, |outcome, pair| {
        if pair == 3 {
            *outcome = by_the_slot(input);
        }
    })
}

fn another_pair_of_3_counts(input: &Input) -> Outcome {
    altered_read(input, |outcome, _| {
        let byte = input.buffers[2][(input.numbers.block / 4) as usize];
        if (0..4).any(|pair| byte >> (2 * pair) & 3 == 3) {
            *outcome = Outcome { answer: Answer::of(&[11]), buffers: input.buffers.clone() };
        }
    })
}

fn answers_the_pair_for_the_kind(input: &Input) -> Outcome {
    altered_read(input, |outcome, pair| {
        if outcome.answer.number() == 0 {
            outcome.answer.0[1] = pair.into();
        }
    })
}

/// The slot is looked at before the pair.
fn looks_at_the_slot_before_the_pair(input: &Input) -> Outcome {
    altered_read(input, |outcome, pair| {
        let slot = by_the_slot(input);
        if pair == 3 && slot.answer.number() == 6 {
            *outcome = slot;
        }
    })
}

// Cuts that leave too much or take too much.

fn blocks_of(input: &Input) -> usize {
    (input.buffers[0].len() - PATCH_HEADER) / SLOT
}

fn pages_of(input: &Input) -> usize {
    input.buffers[1].len().saturating_sub(FULL_HEADER) / PAGE
}

fn place_range(block: usize) -> std::ops::Range<usize> {
    let start = FULL_HEADER + PAGE * block;
    start..start + PAGE
}

/// Alters what comes of an accepted cut, with a map or without. It is told K and n.
fn altered_cut(input: &Input, alter: impl FnOnce(&mut Outcome, usize, usize)) -> Outcome {
    let mut outcome = independent_outcome(input);
    let cut = matches!(input.call, Call::Cut | Call::CutMapped);
    if cut && outcome.answer.number() == 0 {
        alter(&mut outcome, input.numbers.block as usize, blocks_of(input));
    }
    outcome
}

/// The same of the map that a cut was lent.
fn altered_cut_map(input: &Input, alter: impl FnOnce(&mut [u8], usize, usize)) -> Outcome {
    altered_cut(input, |outcome, k, n| {
        if input.call == Call::CutMapped {
            alter(&mut outcome.buffers[2], k, n);
        }
    })
}

/// A refusal in the place of what came of a call.
fn refuse(input: &Input, outcome: &mut Outcome, number: i128) {
    *outcome = Outcome { answer: Answer::of(&[number]), buffers: input.buffers.clone() };
}

fn cuts_nothing(input: &Input) -> Outcome {
    altered_cut(input, |outcome, _, _| outcome.buffers = input.buffers.clone())
}

fn cuts_slots_only(input: &Input) -> Outcome {
    altered_cut(input, |outcome, _, _| outcome.buffers[1] = input.buffers[1].clone())
}

fn cuts_places_only(input: &Input) -> Outcome {
    altered_cut(input, |outcome, _, _| outcome.buffers[0] = input.buffers[0].clone())
}

/// Stray bytes survive.
fn cuts_places_after_full_ref_only(input: &Input) -> Outcome {
    altered_cut(input, |outcome, k, _| {
        for block in k..pages_of(input) {
            if input.buffers[0][slot_range(block as u64)][0] != 2 {
                let place = place_range(block);
                outcome.buffers[1][place.clone()].copy_from_slice(&input.buffers[1][place]);
            }
        }
    })
}

fn cut_compares_k_with_m(input: &Input) -> Outcome {
    altered_cut(input, |outcome, k, _| {
        if k > pages_of(input) {
            refuse(input, outcome, 5);
        }
    })
}

fn cut_refuses_n(input: &Input) -> Outcome {
    altered_cut(input, |outcome, k, n| {
        if k == n {
            refuse(input, outcome, 5);
        }
    })
}

fn cut_takes_any_k(input: &Input) -> Outcome {
    altered(input, Call::Cut, |outcome| {
        if outcome.answer.number() == 5 {
            outcome.answer = Answer::of(&[0]);
        }
    })
}

fn cut_of_k_cut_to_32_bits(input: &Input) -> Outcome {
    altered(input, Call::Cut, |outcome| {
        let mut narrow = input.clone();
        narrow.numbers.block = (input.numbers.block as u32).into();
        *outcome = independent_outcome(&narrow);
    })
}

/// Block K itself stays.
fn cuts_above_k(input: &Input) -> Outcome {
    altered_cut(input, |outcome, k, n| {
        let mut later = input.clone();
        later.numbers.block = (k + 1).min(n) as u64;
        *outcome = independent_outcome(&later);
    })
}

/// The block before K goes too.
fn cuts_below_k(input: &Input) -> Outcome {
    altered_cut(input, |outcome, k, _| {
        let mut earlier = input.clone();
        earlier.numbers.block = k.saturating_sub(1) as u64;
        *outcome = independent_outcome(&earlier);
    })
}

/// One block and not all from it on.
fn cuts_block_k_alone(input: &Input) -> Outcome {
    altered_cut(input, |outcome, k, n| {
        let mut later = input.clone();
        later.numbers.block = (k + 1).min(n) as u64;
        let later = independent_outcome(&later).buffers;
        for (bytes, (left, before)) in
            outcome.buffers.iter_mut().zip(later.iter().zip(&input.buffers))
        {
            // What the later cut has cleared stays as it was.
            for (at, byte) in bytes.iter_mut().enumerate() {
                *byte |= before[at] & !left[at];
            }
        }
    })
}

/// A cut that wants the slots that it drops to be sound.
fn cut_looks_at_slots(input: &Input) -> Outcome {
    altered_cut(input, |outcome, k, _| {
        if slots_of(input).skip(k).any(|kind| kind.is_none()) {
            refuse(input, outcome, 6);
        }
    })
}

fn cut_leaves_the_map(input: &Input) -> Outcome {
    altered_cut_map(input, |map, _, _| map.copy_from_slice(&input.buffers[2]))
}

/// The pairs below K that share its byte go too.
fn cut_clears_the_byte_of_k(input: &Input) -> Outcome {
    altered_cut_map(input, |map, k, n| {
        if k < n {
            map[k / 4] &= !((1 << (2 * (k % 4))) - 1);
        }
    })
}

/// The pairs from K on that share a byte with others stay.
fn cut_clears_whole_bytes_only(input: &Input) -> Outcome {
    altered_cut_map(input, |map, k, n| {
        if k < n && k % 4 != 0 {
            map[k / 4] = input.buffers[2][k / 4];
        }
    })
}

fn cut_clears_unused_pairs(input: &Input) -> Outcome {
    altered_cut_map(input, |map, _, n| {
        if n % 4 != 0 {
            map[n / 4] &= (1 << (2 * (n % 4))) - 1;
        }
    })
}

fn cut_clears_later_bytes(input: &Input) -> Outcome {
    altered_cut_map(input, |map, _, n| map[(n + 3) / 4..].fill(0))
}

/// A map that is too short is no fault where there is nothing to clear.
fn short_map_taken_at_n(input: &Input) -> Outcome {
    altered(input, Call::CutMapped, |outcome| {
        if outcome.answer.number() == 9 && input.numbers.block == blocks_of(input) as u64 {
            let mut longer = input.clone();
            longer.buffers[2].resize(MAX_BLOCKS / 4, 0);
            outcome.answer = independent_outcome(&longer).answer;
        }
    })
}

fn short_map_taken_by_a_cut(input: &Input) -> Outcome {
    altered(input, Call::CutMapped, |outcome| {
        let mut longer = input.clone();
        longer.buffers[2].push(0);
        if outcome.answer.number() == 9 {
            *outcome = independent_outcome(&longer);
            outcome.buffers[2].pop();
        }
    })
}

// Highest blocks that are not.

/// The kind of each slot, none where it is not sound.
fn slots_of(
    input: &Input,
) -> impl DoubleEndedIterator<Item = Option<u32>> + ExactSizeIterator + '_ {
    input.buffers[0][PATCH_HEADER..].chunks_exact(SLOT).map(|slot| {
        let judged = independent::judge(slot);
        (judged.number == 0).then_some(judged.kind)
    })
}

/// Alters an answer that comes of slots: 0 or 6.
fn altered_highest(input: &Input, alter: impl FnOnce(&mut [i128; 5])) -> Outcome {
    altered(input, Call::Highest, |outcome| {
        if matches!(outcome.answer.number(), 0 | 6) {
            alter(&mut outcome.answer.0);
        }
    })
}

/// One more than the last slot for which this holds.
fn one_more(input: &Input, holds: impl Fn(Option<u32>) -> bool) -> i128 {
    slots_of(input).rposition(holds).map_or(0, |block| block as i128 + 1)
}

/// What is below it is not looked at.
fn highest_stops_at_the_first_in_use(input: &Input) -> Outcome {
    altered_highest(input, |answer| {
        let first = slots_of(input).rev().find(|kind| *kind != Some(0));
        if matches!(first, Some(Some(_))) {
            answer[..2].copy_from_slice(&[0, one_more(input, |kind| kind != Some(0))]);
        }
    })
}

/// From above it takes an unsound slot for the highest, and stops.
fn highest_stops_at_the_first_unsound(input: &Input) -> Outcome {
    altered_highest(input, |answer| {
        answer[..2].copy_from_slice(&[0, one_more(input, |kind| kind != Some(0))]);
    })
}

/// From below it takes what it has seen before the first unsound slot.
fn highest_ends_at_the_first_unsound(input: &Input) -> Outcome {
    altered_highest(input, |answer| {
        let sound = slots_of(input).take_while(Option::is_some).enumerate();
        let last = sound.filter(|(_, kind)| *kind != Some(0)).last();
        answer[..2].copy_from_slice(&[0, last.map_or(0, |(block, _)| block as i128 + 1)]);
    })
}

fn highest_ignores_unsound_slots(input: &Input) -> Outcome {
    altered_highest(input, |answer| {
        answer[..2].copy_from_slice(&[0, one_more(input, |kind| matches!(kind, Some(1 | 2)))]);
    })
}

fn highest_gives_the_block(input: &Input) -> Outcome {
    altered_highest(input, |answer| answer[1] = (answer[1] - 1).max(0))
}

fn highest_names_the_unsound_block(input: &Input) -> Outcome {
    altered_highest(input, |answer| {
        if answer[0] == 6 {
            answer[1] = slots_of(input).position(|kind| kind.is_none()).unwrap_or(0) as i128;
        }
    })
}

fn highest_counts_the_blocks_in_use(input: &Input) -> Outcome {
    altered_highest(input, |answer| {
        if answer[0] == 0 {
            answer[1] = slots_of(input).filter(|kind| *kind != Some(0)).count() as i128;
        }
    })
}

fn highest_knows_patches_only(input: &Input) -> Outcome {
    altered_highest(input, |answer| {
        if answer[0] == 0 {
            answer[1] = one_more(input, |kind| kind == Some(1));
        }
    })
}

fn highest_looks_at_payloads(input: &Input) -> Outcome {
    altered_highest(input, |answer| {
        let mut unsound = input.buffers[0][PATCH_HEADER..].chunks_exact(SLOT).filter(|slot| {
            let judged = independent::judge(slot);
            let payload = &slot[8..8 + judged.length as usize];
            let applies = |payload| independent::apply(&[], payload, &mut [0; PAGE]).number == 0;
            (judged.number, judged.kind) == (0, 1) && !applies(payload)
        });
        if answer[0] == 0 && unsound.next().is_some() {
            answer[..2].copy_from_slice(&[7, 0]);
        }
    })
}

/// Random inputs alone meet every number of every call; without those of one answer it is missed.
#[test]
fn a_number_that_is_never_given_is_noticed() {
    let (mut all, mut some) = (Counts::default(), Counts::default());
    for input in (0..MOST_CASES / 2).map(random_input) {
        let answer = independent_outcome(&input).answer;
        all.add(input.call, &input.numbers, &answer);
        let told_1 = input.call == Call::CarryOut && Told::of(input.numbers.stores) == Told::One;
        let of_look_up = (input.call, answer.number()) == (Call::LookUp, 11);
        let left_out = of_look_up || (told_1 && answer.number() == 8);
        if !left_out {
            some.add(input.call, &input.numbers, &answer);
        }
    }
    assert_eq!(all.unseen(), []);
    // A decision must meet it also where it is told 1.
    let missed = [(Call::CarryOut, Told::One, 8), (Call::LookUp, Told::All, 11)];
    assert_eq!(some.unseen(), missed);
}

/// The right program passes, and so does an Apply like the wrong ones but without their fault.
#[test]
fn the_right_programs_pass() {
    assert!(first_mismatch(independent_outcome, &Call::ALL).is_none());
    assert!(first_mismatch(applies_rightly, &[Call::Apply]).is_none());
}

/// So does a program with a rule of its own about long jumps, if that is the right one, and a Tally by bits
/// without a fault. They are held to the independent implementation, which the library agrees with by the
/// test above.
#[test]
fn the_right_rules_pass() {
    for input in (0..MOST_CASES / 10).map(random_input) {
        let right = independent_outcome(&input);
        for outcome in [takes_long_jumps_rightly(&input), tallies_rightly(&input)] {
            assert_eq!(outcome.difference(&right, input.call), None, "{input}");
        }
    }
}

#[test]
fn small_mistakes_are_found() {
    must_find("another number", another_number);
    must_find("a changed byte", a_changed_byte);
    must_find("a changed byte in a buffer only read", a_changed_byte_in_a_buffer_only_read);
    must_find("-1 in a refused Compare", refused_compare_says_no_last);
    must_find("invented entries", invented_entries);
    must_find("no length for a large page", no_length_for_a_large_page);
    must_find("Build without its block", build_keeps_its_block_to_itself);
    must_find("flags as one bit", flags_as_one_bit);
    must_find("blocks that wrap", blocks_that_wrap);
    must_find("unused pairs ignored", unused_pairs_ignored);
    must_find("stray pages first", looks_for_stray_pages_first);
}

#[test]
fn wrong_tallies_are_found() {
    for (name, wrong) in WRONG_TALLIES {
        must_find_in(&[Call::Tally], name, wrong);
    }
}

#[test]
fn shortcuts_are_found() {
    must_find("a position from 0", position_from_0);
    must_find("applying while checking", applies_while_checking);
    must_find("always reading the base", always_reads_the_base);
}

/// The other shortcuts among them.
#[test]
fn wrong_decisions_are_found() {
    WRONG_DECISIONS.iter().for_each(|(name, wrong)| must_find_in(&DECISIONS, name, *wrong));
}

const WRONG_OFFSETS: [(&str, Side); 8] = [
    ("no offset", no_offset),
    ("the offset of the entry after", offset_of_the_entry_after),
    ("the offset of the entry before", offset_of_the_entry_before),
    ("an offset counted from the slot", offset_from_the_slot),
    ("an offset counted from the area", offset_from_the_area),
    ("an offset in an overlong payload", offset_in_an_overlong_payload),
    ("an offset beside a wrong page", offset_beside_a_wrong_page),
    ("an offset of a sound payload", offset_of_the_end),
];

const WRONG_MAPS: [(&str, Side); 13] = [
    ("a map that is left", leaves_the_map),
    ("a map that is left for EMPTY", leaves_the_map_for_empty),
    ("the kind for the pair", sets_the_kind_for_the_pair),
    ("an old pair that is added to", adds_to_the_old_pair),
    ("the neighbour's pair set too", sets_the_neighbours_pair_too),
    ("the rest of the byte cleared", clears_the_rest_of_the_byte),
    ("unused pairs cleared", clears_unused_pairs),
    ("later bytes cleared", clears_later_bytes),
    ("the first pair in the high bits", first_pair_in_the_high_bits),
    ("the pair set by a refused page", sets_the_pair_of_a_refused_page),
    ("the pair set by a refused payload", sets_the_pair_of_a_refused_payload),
    ("the pair set by a refused kind", sets_the_pair_of_a_refused_kind),
    ("a short map taken by a decision", a_map_one_byte_too_short_is_taken),
];

const WRONG_READS_BY_MAP: [(&str, Side); 9] = [
    ("a read by the slot", reads_by_the_slot),
    ("pair 0 that looks at the slot", pair_0_looks_at_the_slot),
    ("pair 1 that needs FULL_REF", pair_1_needs_full_ref),
    ("pair 2 that takes any sound slot", pair_2_takes_any_sound_slot),
    ("pair 3 that reads by the slot", pair_3_reads_by_the_slot),
    ("another block's pair of 3", another_pair_of_3_counts),
    ("the pair for the kind", answers_the_pair_for_the_kind),
    ("the slot before the pair", looks_at_the_slot_before_the_pair),
    ("a short map taken by a read", reads_by_a_map_one_byte_too_short),
];

const WRONG_CUTS: [(&str, Side); 19] = [
    ("a cut that does not cut", cuts_nothing),
    ("a cut of slots only", cuts_slots_only),
    ("a cut of places only", cuts_places_only),
    ("places cut only after FULL_REF", cuts_places_after_full_ref_only),
    ("K compared with m", cut_compares_k_with_m),
    ("K = n refused", cut_refuses_n),
    ("any K taken", cut_takes_any_k),
    ("K cut to 32 bits", cut_of_k_cut_to_32_bits),
    ("a cut that leaves block K", cuts_above_k),
    ("a cut that takes the block before K", cuts_below_k),
    ("a cut of block K alone", cuts_block_k_alone),
    ("a cut that looks at slots", cut_looks_at_slots),
    ("a cut that leaves the map", cut_leaves_the_map),
    ("all pairs of K's byte cut", cut_clears_the_byte_of_k),
    ("whole bytes of the map cut only", cut_clears_whole_bytes_only),
    ("unused pairs cut", cut_clears_unused_pairs),
    ("later bytes of the map cut", cut_clears_later_bytes),
    ("a short map taken at K = n", short_map_taken_at_n),
    ("a short map taken by a cut", short_map_taken_by_a_cut),
];

const WRONG_HIGHEST: [(&str, Side); 9] = [
    ("a highest that stops at the first slot in use", highest_stops_at_the_first_in_use),
    ("a highest that stops at the first unsound slot", highest_stops_at_the_first_unsound),
    ("a highest that ends before the first unsound slot", highest_ends_at_the_first_unsound),
    ("a highest that ignores unsound slots", highest_ignores_unsound_slots),
    ("the block and not one more", highest_gives_the_block),
    ("a block beside 6", highest_names_the_unsound_block),
    ("the number of blocks in use", highest_counts_the_blocks_in_use),
    ("a highest that knows PATCH only", highest_knows_patches_only),
    ("a highest that looks at payloads", highest_looks_at_payloads),
];

const WRONG_READERS: [(&str, Side); 8] = [
    ("a reader that skips its first entry", reader_skips_its_first_entry),
    ("a reader that goes on after a stop", reader_goes_on_after_a_stop),
    ("a reader that moves at a stop", reader_moves_at_a_stop),
    ("a reader of overlong payloads", reader_of_overlong_payloads),
    ("a reader that takes a stop for the end", reader_takes_a_stop_for_the_end),
    ("a reader that takes any position", reader_takes_any_position),
    ("a reader that forgets its position", reader_forgets_its_position_at_the_end),
    ("a place cut to 32 bits", place_cut_to_32_bits),
];

const WRONG_LONG_JUMPS: [(&str, Side); 14] = [
    ("any jump after 255", takes_any_long_jump),
    ("255 refused", refuses_255),
    ("254 let through", lets_254_through),
    ("a test of the first entry only", looks_at_the_first_entry_only),
    ("a test past the first entry only", looks_past_the_first_entry_only),
    ("a test of the low byte alone", tests_the_low_byte_alone),
    ("a test of the high byte first", takes_the_high_byte_first),
    ("any jump in Apply", takes_any_in::<{ Call::Apply as usize }>),
    ("any jump in the reader", takes_any_in::<{ Call::Next as usize }>),
    ("any jump in Read", takes_any_in::<{ Call::Read as usize }>),
    ("any jump in Read by the map", takes_any_in::<{ Call::ReadMapped as usize }>),
    ("any jump in Build", takes_any_in::<{ Call::Build as usize }>),
    ("any jump in carrying out", takes_any_in::<{ Call::CarryOut as usize }>),
    ("any jump in carrying out with a map", takes_any_in::<{ Call::CarryOutMapped as usize }>),
];

/// The calls that look at entries, in the order of the programs that are wrong in one of them alone.
const READS_ENTRIES: [Call; 7] = [
    Call::Apply,
    Call::Next,
    Call::Read,
    Call::ReadMapped,
    Call::Build,
    Call::CarryOut,
    Call::CarryOutMapped,
];

#[test]
fn wrong_long_jumps_are_found() {
    let (in_all, in_one) = WRONG_LONG_JUMPS.split_at(7);
    in_all.iter().for_each(|(name, wrong)| must_find_in(&READS_ENTRIES, name, *wrong));
    for ((name, wrong), call) in in_one.iter().zip(READS_ENTRIES) {
        must_find_in(&[call], name, *wrong);
    }
}

/// Each of them contradicts a case that is written by hand; so does each wrong cut, each wrong highest
/// block, each decision that is carried out wrongly and each map that is kept wrongly.
#[test]
fn cases_by_hand_notice_wrong_programs() {
    let cases = cases::all();
    let notice = |program: Side| {
        let differs = |case: &cases::Case| {
            program(&case.input).difference(&case.expected, case.input.call).is_some()
        };
        cases.iter().any(differs)
    };
    assert!(!notice(takes_long_jumps_rightly));
    let all = WRONG_LONG_JUMPS.iter().chain(&WRONG_CUTS).chain(&WRONG_HIGHEST);
    for (name, wrong) in all.chain(&WRONG_DECISIONS).chain(&WRONG_MAPS) {
        assert!(notice(*wrong), "{name} was not noticed");
    }
}

/// The same wrong program on both sides, through every long jump near an edge: only what is demanded
/// there can notice.
#[test]
fn the_demand_on_long_jumps_notices_wrong_programs() {
    let notices = |wrong: Side| {
        let mut harness = Harness::new();
        harness.expected = wrong;
        harness.in_place_of_library = Some(wrong);
        payloads::every_long_jump(&mut harness, true).err().map(|mismatch| mismatch.side)
    };
    assert_eq!(notices(independent_outcome), None);
    assert_eq!(notices(takes_long_jumps_rightly), None);
    for (name, wrong) in WRONG_LONG_JUMPS {
        assert_eq!(notices(wrong), Some("demand on readers"), "{name}");
    }
}

/// The rule of before on both sides, through every short payload: the same entries are spelled twice.
#[test]
fn a_second_spelling_is_noticed() {
    let mut harness = Harness::new();
    harness.expected = takes_any_long_jump;
    harness.in_place_of_library = Some(takes_any_long_jump);
    let mismatch = payloads::every_short_one(&mut harness).expect_err("noticed");
    assert_eq!(mismatch.side, "demand on readers");
    assert!(mismatch.found.contains("its entries are spelled"), "{mismatch}");
}

#[test]
fn wrong_offsets_are_found() {
    WRONG_OFFSETS.iter().for_each(|(name, wrong)| must_find(name, *wrong));
}

#[test]
fn wrong_maps_are_found() {
    let calls = [Call::CarryOutMapped];
    WRONG_MAPS.iter().for_each(|(name, wrong)| must_find_in(&calls, name, *wrong));
}

#[test]
fn wrong_reads_by_a_map_are_found() {
    let calls = [Call::ReadMapped];
    WRONG_READS_BY_MAP.iter().for_each(|(name, wrong)| must_find_in(&calls, name, *wrong));
}

#[test]
fn wrong_cuts_are_found() {
    let calls = [Call::Cut, Call::CutMapped];
    WRONG_CUTS.iter().for_each(|(name, wrong)| must_find_in(&calls, name, *wrong));
}

#[test]
fn wrong_highest_blocks_are_found() {
    let calls = [Call::Highest];
    WRONG_HIGHEST.iter().for_each(|(name, wrong)| must_find_in(&calls, name, *wrong));
}

/// The same wrong program on both sides, through every cut and every row of slots: only what is written
/// by hand there, or a rule for all answers, can notice.
#[test]
fn the_demand_on_cuts_notices_wrong_programs() {
    let notices = |wrong: Side| {
        let mut harness = Harness::new();
        harness.expected = wrong;
        harness.in_place_of_library = Some(wrong);
        cuts::every_one(&mut harness).err().map(|mismatch| mismatch.side)
    };
    assert_eq!(notices(independent_outcome), None);
    for (name, wrong) in WRONG_CUTS.iter().chain(&WRONG_HIGHEST) {
        let side = match *name {
            "a block beside 6" => "rule of answers",
            _ => "demand on cuts",
        };
        assert_eq!(notices(*wrong), Some(side), "{name}");
    }
}

/// The same wrong program on both sides, through every byte of a map and every length: only what is
/// written by hand there, or a rule for all answers, can notice.
#[test]
fn the_demand_on_maps_notices_wrong_programs() {
    type Part = fn(&mut Harness) -> Result<(), Mismatch>;
    let notices = |part: Part, wrong: Side| {
        let mut harness = Harness::new();
        harness.expected = wrong;
        harness.in_place_of_library = Some(wrong);
        let found = part(&mut harness).and_then(|()| maps::every_length(&mut harness));
        found.err().map(|mismatch| mismatch.side)
    };
    for (part, programs) in
        [(maps::every_decision as Part, &WRONG_MAPS[..]), (maps::every_read, &WRONG_READS_BY_MAP)]
    {
        assert_eq!(notices(part, independent_outcome), None);
        for (name, wrong) in programs {
            let side = match *name {
                name if name.starts_with("the pair set by a refused") => "rule of answers",
                _ => "demand on maps",
            };
            assert_eq!(notices(part, *wrong), Some(side), "{name}");
        }
    }
}

/// Stores from elsewhere whose both sides are the same wrong program.
fn elsewhere_notices(wrong: Side) -> bool {
    let mut harness = Harness::new();
    harness.expected = wrong;
    harness.in_place_of_library = Some(wrong);
    (0..150).any(|case| {
        let mut rng = Rng::for_case(SEED, "maps", case);
        maps::from_elsewhere(&mut harness, &mut rng, &mut Elsewhere::default()).is_err()
    })
}

#[test]
fn stores_from_elsewhere_notice_wrong_maps() {
    assert!(!elsewhere_notices(independent_outcome));
    for (name, wrong) in [
        ("a map that is left", leaves_the_map as Side),
        ("a map that is left for EMPTY", leaves_the_map_for_empty),
        ("the kind for the pair", sets_the_kind_for_the_pair),
        ("an old pair that is added to", adds_to_the_old_pair),
        ("the neighbour's pair set too", sets_the_neighbours_pair_too),
        ("later bytes cleared", clears_later_bytes),
        ("the pair for the kind", answers_the_pair_for_the_kind),
        ("a cut of slots only", cuts_slots_only),
        ("a cut that leaves the map", cut_leaves_the_map),
        ("all pairs of K's byte cut", cut_clears_the_byte_of_k),
        ("whole bytes of the map cut only", cut_clears_whole_bytes_only),
        ("later bytes of the map cut", cut_clears_later_bytes),
        ("the block and not one more", highest_gives_the_block),
        ("the number of blocks in use", highest_counts_the_blocks_in_use),
        ("a highest that knows PATCH only", highest_knows_patches_only),
        ("a payload copied for FULL_REF", copies_the_payload_for_full_ref),
        ("a page copied for PATCH", copies_the_page_for_patch),
        ("a page checked for EMPTY", checks_the_page_for_empty),
        ("a payload checked for FULL_REF", checks_the_payload_for_full_ref),
        ("a payload refused that is not the page's", refuses_payloads_that_are_not_the_pages),
        ("a place that is left", leaves_the_place),
        ("comparing with the current page", compares_with_the_current_page),
        ("leaving the tail", leaves_the_tail),
    ] {
        assert!(elsewhere_notices(wrong), "{name} was not noticed");
    }
}

#[test]
fn wrong_readers_are_found() {
    WRONG_READERS.iter().for_each(|(name, wrong)| must_find_in(&[Call::Next], name, *wrong));
}

/// Short and longer payloads with a program in the place of both sides, or of one. The side that
/// notices.
fn payloads_notice(wrong: Side, on_both_sides: bool) -> Option<&'static str> {
    let mut harness = Harness::new();
    harness.expected = wrong;
    if on_both_sides {
        harness.in_place_of_library = Some(wrong);
    }
    let mut longer = (0..100).map(|case| Rng::for_case(SEED, "readers", case));
    let found = payloads::every_short_one(&mut harness).err().or_else(|| {
        longer.find_map(|mut rng| payloads::a_longer_one(&mut harness, &mut rng).err())
    });
    found.map(|mismatch| mismatch.side)
}

#[test]
fn the_right_program_passes_every_payload() {
    assert_eq!(payloads_notice(independent_outcome, false), None);
    assert_eq!(payloads_notice(independent_outcome, true), None);
}

/// What short and longer payloads find, when only one side is wrong.
#[test]
fn payloads_find_wrong_offsets_and_readers() {
    for (name, wrong) in [
        ("the offset of the entry after", offset_of_the_entry_after as Side),
        ("an offset counted from the slot", offset_from_the_slot),
        ("an offset in an overlong payload", offset_in_an_overlong_payload),
        ("a reader that skips its first entry", reader_skips_its_first_entry),
        ("a reader that goes on after a stop", reader_goes_on_after_a_stop),
        ("a reader of overlong payloads", reader_of_overlong_payloads),
    ] {
        assert!(payloads_notice(wrong, false).is_some(), "{name} was not noticed");
    }
}

/// The same wrong program on both sides: only the demand on readers or a rule for all answers can
/// notice.
#[test]
fn the_demand_on_readers_notices_wrong_programs() {
    for (name, wrong, side) in [
        ("no offset", no_offset as Side, "demand on readers"),
        ("the offset of the entry after", offset_of_the_entry_after, "demand on readers"),
        ("an offset counted from the slot", offset_from_the_slot, "demand on readers"),
        ("an offset in an overlong payload", offset_in_an_overlong_payload, "demand on readers"),
        ("an offset of a sound payload", offset_of_the_end, "rule of answers"),
        ("Build without its block", build_keeps_its_block_to_itself, "demand on readers"),
        ("a reader that skips its first entry", reader_skips_its_first_entry, "demand on readers"),
        ("a reader that goes on after a stop", reader_goes_on_after_a_stop, "demand on readers"),
        ("a reader that moves at a stop", reader_moves_at_a_stop, "rule of answers"),
        ("a reader of overlong payloads", reader_of_overlong_payloads, "demand on readers"),
        ("an unsound payload taken", takes_unsound_payloads, "demand on readers"),
        ("an overlong payload taken", takes_overlong_payloads, "demand on readers"),
        ("a payload refused that has a zero", refuses_payloads_with_a_zero, "demand on readers"),
        ("an offset beside 7", an_offset_beside_7, "rule of answers"),
        ("leaving the tail", leaves_the_tail, "demand on readers"),
    ] {
        assert_eq!(payloads_notice(wrong, true), Some(side), "{name}");
    }
}

/// An offset beside another refusal, on both sides: only the rule of answers can notice.
#[test]
fn an_offset_beside_another_refusal_is_noticed() {
    let mut harness = Harness::new();
    harness.expected = offset_beside_a_wrong_page;
    harness.in_place_of_library = Some(offset_beside_a_wrong_page);
    let input = Input::new(Call::Apply, vec![vec![1], vec![0, 7, 0], vec![0xEE; PAGE]]);
    let mismatch = harness.check(&input).expect_err("noticed");
    assert_eq!(mismatch.side, "rule of answers");
}

/// Runs whose both sides are the same wrong program: only the demand itself, or a rule for all answers,
/// can notice. The side that does.
fn side_in_runs(wrong: Side) -> Option<&'static str> {
    let mut harness = Harness::new();
    harness.expected = wrong;
    harness.in_place_of_library = Some(wrong);
    let mismatch = (0..200).find_map(|case| {
        let mut rng = Rng::for_case(SEED, "runs", case);
        runs::run(&mut harness, &mut rng, 40, &mut Met::default()).err()
    });
    mismatch.map(|mismatch| mismatch.side)
}

fn run_notices(wrong: Side) -> bool {
    match side_in_runs(wrong) {
        None => false,
        Some(side) => {
            assert_eq!(side, "demand on runs");
            true
        }
    }
}

/// What a run cannot show of decisions. It has no unsound slot, no stray byte and no empty payload, and
/// whatever is refused has one fault alone.
const NOT_IN_RUNS: [&str; 7] = [
    "a page checked for other kinds",
    "8 after 7",
    "an empty payload taken",
    "6 before 5",
    "2 before 1",
    "an old slot that must be sound",
    "clearing only after FULL_REF",
];

#[test]
fn the_demand_on_runs_notices_wrong_decisions() {
    for (name, wrong) in WRONG_DECISIONS {
        let side = match name {
            _ if NOT_IN_RUNS.contains(&name) => continue,
            "an offset beside 7" | "the kind beside a refusal" => "rule of answers",
            "the pair set by a refused decision" => "rule of answers",
            _ => "demand on runs",
        };
        assert_eq!(side_in_runs(wrong), Some(side), "{name}");
    }
}

/// The others on both sides, through every set of faults or every short payload.
#[test]
fn what_runs_do_not_show_is_noticed_elsewhere() {
    let others = WRONG_DECISIONS.iter().filter(|(name, _)| NOT_IN_RUNS.contains(name));
    for (name, wrong) in others {
        let mut harness = Harness::new();
        harness.expected = *wrong;
        harness.in_place_of_library = Some(*wrong);
        let (found, side) = match *name {
            "an empty payload taken" | "clearing only after FULL_REF" => {
                (payloads::every_short_one(&mut harness), "demand on readers")
            }
            _ => (orders::of_decisions(&mut harness), "order of refusals"),
        };
        assert_eq!(found.err().map(|mismatch| mismatch.side), Some(side), "{name}");
    }
}

/// The same wrong program on both sides, over every kind and block: only what is written by hand can
/// notice.
#[test]
fn wrong_kinds_are_noticed_by_numbers() {
    let notices = |wrong: Side| {
        let mut harness = Harness::new();
        harness.expected = wrong;
        harness.in_place_of_library = Some(wrong);
        extremes::numbers(&mut harness).err().map(|mismatch| mismatch.side)
    };
    assert_eq!(notices(independent_outcome), None);
    for wrong in [
        stores_kind_3 as Side,
        takes_other_kinds_for_full_ref,
        takes_other_kinds_for_empty,
        kind_cut_to_8_bits,
        kind_cut_to_16_bits,
        kind_cut_to_31_bits,
        gives_6_before_5,
        answers_the_length_for_full_ref,
        answers_the_length_for_empty,
    ] {
        assert_eq!(notices(wrong), Some("by hand"));
    }
}

/// The wrapper has no decision but Compare's. Random inputs have enough of those: it gives every number
/// that it can give, whatever is told of stores.
#[test]
fn the_wrapper_carries_out_decisions() {
    let mut harness = Harness::new();
    for case in 0..MOST_CASES / 4 {
        let input = random_input(case);
        if input.call.carries_out() {
            harness.start_case(case);
            harness.check(&input).expect("all sides agree");
        }
    }
    assert_eq!(harness.counts.unseen_by_wrapper(), []);
    // Without them that would be noticed.
    assert_eq!(Counts::default().unseen_by_wrapper().len(), 3 * 13);
}

/// A program on both sides that changes a byte and refuses: only the rule of answers can notice.
#[test]
fn a_refusal_that_changes_a_byte_is_noticed() {
    let mut harness = Harness::new();
    harness.expected = applies_while_checking;
    harness.in_place_of_library = Some(applies_while_checking);
    let payload = vec![0, 1, 0];
    let input = Input::new(Call::Apply, vec![Vec::new(), payload, vec![0xEE; PAGE]]);
    let mismatch = harness.check(&input).expect_err("noticed");
    assert_eq!(mismatch.side, "rule of answers");
}

/// Another order of refusals on both sides: only the list of faults can notice.
#[test]
fn another_order_of_refusals_is_noticed() {
    fn version_first(input: &Input) -> Outcome {
        let mut outcome = independent_outcome(input);
        let patch = &input.buffers[0];
        if input.call == Call::Read && outcome.answer.number() == 3 && patch[8] != 2 {
            outcome.answer.0[0] = 4;
        }
        outcome
    }
    /// The end before the payload's length.
    fn end_first(input: &Input) -> Outcome {
        altered_step(input, |step| {
            if input.numbers.at >= input.buffers[0].len() as u64 {
                step[0] = 0;
            }
        })
    }
    /// Headers before the map's length.
    fn headers_before_the_map(input: &Input) -> Outcome {
        let mut outcome = independent_outcome(input);
        let mapped =
            matches!(input.call, Call::CarryOutMapped | Call::ReadMapped | Call::CutMapped);
        if mapped && outcome.answer.number() == 9 {
            let mut longer = input.clone();
            longer.buffers[2].resize(1_000, 0);
            let answer = independent_outcome(&longer).answer;
            if matches!(answer.number(), 3 | 4) {
                outcome.answer = answer;
            }
        }
        outcome
    }
    /// The same of a cut.
    fn cut_has_headers_before_the_map(input: &Input) -> Outcome {
        match input.call {
            Call::CutMapped => headers_before_the_map(input),
            _ => independent_outcome(input),
        }
    }
    /// K before the headers.
    fn cut_has_k_before_headers(input: &Input) -> Outcome {
        let mut outcome = independent_outcome(input);
        let cut = matches!(input.call, Call::Cut | Call::CutMapped);
        let by_header = cut && matches!(outcome.answer.number(), 3 | 4);
        if by_header && input.numbers.block > blocks_of(input) as u64 {
            outcome.answer = Answer::of(&[5]);
        }
        outcome
    }
    /// Slots before the header.
    fn highest_has_slots_before_the_header(input: &Input) -> Outcome {
        altered(input, Call::Highest, |outcome| {
            let refused = matches!(outcome.answer.number(), 3 | 4);
            if refused && slots_of(input).any(|kind| kind.is_none()) {
                outcome.answer = Answer::of(&[6]);
            }
        })
    }
    let mut harness = Harness::new();
    assert!(orders::check(&mut harness).is_ok());
    let mut must_notice = |check: fn(&mut Harness) -> Result<(), Mismatch>, wrong: Side| {
        harness.expected = wrong;
        harness.in_place_of_library = Some(wrong);
        let mismatch = check(&mut harness).expect_err("noticed");
        assert_eq!(mismatch.side, "order of refusals");
    };
    for wrong in [
        version_first as Side,
        end_first,
        headers_before_the_map,
        looks_at_the_slot_before_the_pair,
        cut_has_headers_before_the_map,
        cut_has_k_before_headers,
        cut_refuses_n,
        highest_has_slots_before_the_header,
    ] {
        must_notice(orders::check, wrong);
    }
    for wrong in [
        checks_the_page_for_patch as Side,
        checks_the_payload_for_empty,
        checks_the_payload_for_full_ref,
        answers_the_length_for_full_ref,
    ] {
        must_notice(orders::of_decisions, wrong);
    }
}

#[test]
fn the_demand_on_runs_notices_wrong_programs() {
    assert!(!run_notices(independent_outcome));
    assert!(run_notices(always_reads_the_base));
    for wrong in [
        leaves_the_map as Side,
        leaves_the_map_for_empty,
        sets_the_kind_for_the_pair,
        adds_to_the_old_pair,
        sets_the_neighbours_pair_too,
        clears_the_rest_of_the_byte,
        first_pair_in_the_high_bits,
    ] {
        assert!(run_notices(wrong));
    }
}

/// The wrong cuts and highest blocks that a run can show. It has no stray bytes, no unsound slot or
/// payload, no unused pair other than 0 and no later byte of a map.
#[test]
fn the_demand_on_runs_notices_wrong_cuts() {
    for (name, wrong) in [
        ("a cut that does not cut", cuts_nothing as Side),
        ("a cut of slots only", cuts_slots_only),
        ("a cut of places only", cuts_places_only),
        ("K compared with m", cut_compares_k_with_m),
        ("K = n refused", cut_refuses_n),
        ("any K taken", cut_takes_any_k),
        ("K cut to 32 bits", cut_of_k_cut_to_32_bits),
        ("a cut that leaves block K", cuts_above_k),
        ("a cut that takes the block before K", cuts_below_k),
        ("a cut of block K alone", cuts_block_k_alone),
        ("a cut that leaves the map", cut_leaves_the_map),
        ("all pairs of K's byte cut", cut_clears_the_byte_of_k),
        ("whole bytes of the map cut only", cut_clears_whole_bytes_only),
        ("a short map taken at K = n", short_map_taken_at_n),
        ("a short map taken by a cut", short_map_taken_by_a_cut),
        ("the block and not one more", highest_gives_the_block),
        ("the number of blocks in use", highest_counts_the_blocks_in_use),
        ("a highest that knows PATCH only", highest_knows_patches_only),
    ] {
        assert!(run_notices(wrong), "{name} was not noticed");
    }
}
