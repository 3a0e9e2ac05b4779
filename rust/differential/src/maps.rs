//! Decisions carried out with a lent map and reads that go by it, held to what is written here by hand:
//!
//! * a read does what the block's own pair says, for every byte that a map can have, over slots of
//!   every sort, and whether or not there is a place for the block;
//! * a decision that is carried out sets the block's own pair to its kind's, and no other bit of the map;
//!   a refused one sets none;
//! * a map is too short just where the blocks want another byte;
//! * beside a store from elsewhere that Build accepts, reads by Build's map are those of Read, decisions
//!   and cuts with it do to the areas what they do without, and afterwards it is again the map that Build
//!   makes; the highest block is the last whose pair is not 0. Right after a decision, Compare's or from
//!   elsewhere, the block reads as its base, as Apply makes it of the payload, or as the page. In some of
//!   these stores decisions are stopped, with the map and without; once swept, Build accepts them again,
//!   and the map is built anew.
//!
//! Every call of it is also compared with the independent implementation.

use crate::call::{Answer, Call, Input, Outcome, ALL, FULL_HEADER, PAGE, PATCH_HEADER, SLOT};
use crate::generate::{self, Areas, Decision};
use crate::harness::{Harness, Mismatch};
use crate::pair;
use crate::rng::Rng;

fn demand(holds: bool, what: impl FnOnce() -> String) -> Result<(), Mismatch> {
    if holds {
        return Ok(());
    }
    let input = "see the seed and case".to_string();
    Err(Mismatch { side: "demand on maps", input, found: what() })
}

/// The four pairs of a byte, block 0's first.
pub(crate) fn pairs(byte: u8) -> [u8; 4] {
    [byte % 4, byte / 4 % 4, byte / 16 % 4, byte / 64]
}

/// What stands in a block's slot.
#[derive(Clone, Copy, Debug, PartialEq, Eq)]
pub(crate) enum Slot {
    Empty,
    /// Byte 0 becomes 7.
    Patch,
    /// The same, then a jump without a value: it breaks at offset 2.
    Broken,
    FullRef,
    Unsound,
}

pub(crate) const SLOTS: [Slot; 5] =
    [Slot::Empty, Slot::Patch, Slot::Broken, Slot::FullRef, Slot::Unsound];

impl Slot {
    pub(crate) fn bytes(self) -> Vec<u8> {
        let mut slot = match self {
            Slot::Patch => return generate::patch_slot(&[0, 7]),
            Slot::Broken => return generate::patch_slot(&[0, 7, 0]),
            _ => vec![0; SLOT],
        };
        match self {
            Slot::FullRef => slot[0] = 2,
            Slot::Unsound => slot[0] = 3,
            _ => {}
        }
        slot
    }
}

const BASE: u8 = 0x42;
const LENT: u8 = 0xEE;

/// The byte that a block's place is full of, whatever its slot says.
fn stored(block: usize) -> u8 {
    0x90 + block as u8
}

/// Four blocks with this slot each, and their places, if there are any.
fn store_of(slot: Slot, places: bool) -> Areas {
    let mut areas = Areas::fresh(4, places.then_some(4));
    areas.patch[PATCH_HEADER..].copy_from_slice(&slot.bytes().repeat(4));
    if places {
        let places = areas.full[FULL_HEADER..].chunks_exact_mut(PAGE);
        places.enumerate().for_each(|(block, place)| place.fill(stored(block)));
    }
    areas
}

/// What a read gives by the block's own pair: its answer and the page afterwards.
fn read_by(pair: u8, slot: Slot, block: usize, places: bool) -> (Answer, Vec<u8>) {
    let untouched = vec![LENT; PAGE];
    let base = vec![BASE; PAGE];
    match (pair, slot) {
        (0, _) => (Answer::of(&[0, 0]), base),
        (1, _) if places => (Answer::of(&[0, 2]), vec![stored(block); PAGE]),
        (1, _) => (Answer::of(&[8]), untouched),
        (2, Slot::Patch) => {
            let mut page = base;
            page[0] = 7;
            (Answer::of(&[0, 1]), page)
        }
        (2, Slot::Broken) => (Answer::of(&[7, 0, 2]), untouched),
        (2, _) => (Answer::of(&[6]), untouched),
        _ => (Answer::of(&[11]), untouched),
    }
}

/// A read by every byte that a map can have.
pub fn every_read(harness: &mut Harness) -> Result<(), Mismatch> {
    for slot in SLOTS {
        for places in [true, false] {
            let Areas { patch, full } = store_of(slot, places);
            for byte in 0..=255 {
                for block in 0..4 {
                    let lent = vec![LENT; PAGE];
                    let buffers =
                        vec![patch.clone(), full.clone(), vec![byte], vec![BASE; PAGE], lent];
                    let input = Input::new(Call::ReadMapped, buffers).at_block(block as u64);
                    let Outcome { answer, buffers } = harness.check(&input)?;
                    let (expected, page) = read_by(pairs(byte)[block], slot, block, places);
                    demand(answer == expected && buffers[4] == page, || {
                        format!("block {block} of {slot:?} by {byte:02X}: {:?}", answer.0)
                    })?;
                }
            }
        }
    }
    Ok(())
}

/// Decisions, what is answered, and the pair that each sets, if any.
fn decisions() -> [(Decision, Answer, Option<u8>); 8] {
    let decision = |kind, payload: &[u8], page: &[u8]| Decision {
        kind,
        payload: payload.to_vec(),
        page: page.to_vec(),
    };
    let mut small = [0; PAGE];
    small[8191] = 1;
    let last_byte = [0xFF, 0xFF, 0x1F, 1];
    [
        (decision(0, &[], &[0; PAGE]), Answer::of(&[0, 0, 0]), Some(0)),
        (decision(1, &last_byte, &small), Answer::of(&[0, 1, 4]), Some(2)),
        (decision(2, &[], &[5; PAGE]), Answer::of(&[0, 2, 0]), Some(1)),
        // From elsewhere: a zero written over a zero, with no page at all.
        (decision(1, &[3, 0], &[]), Answer::of(&[0, 1, 2]), Some(2)),
        // Refused for themselves.
        (decision(3, &[3, 0], &[5; PAGE]), Answer::of(&[6]), None),
        (decision(257, &[3, 0], &[5; PAGE]), Answer::of(&[6]), None),
        (decision(1, &[3, 0, 0], &small), Answer::of(&[7]), None),
        (decision(2, &[], &[5; PAGE - 1]), Answer::of(&[1]), None),
    ]
}

/// Decisions carried out over every byte that a map can have: of three blocks, whose byte has an unused
/// pair, and of four.
pub fn every_decision(harness: &mut Harness) -> Result<(), Mismatch> {
    for n in [3, 4] {
        for (decision, accepted, pair) in decisions() {
            for places in [true, false] {
                // A full page without a place is refused, and no pair is set.
                let done = places || pair != Some(1);
                let (expected, set) =
                    if done { (accepted, pair) } else { (Answer::of(&[8]), None) };
                for byte in 0..=255 {
                    for block in 0..n {
                        let Areas { patch, full } = Areas::fresh(n, places.then_some(n));
                        // A later byte stays too.
                        let lent = vec![patch, full, vec![byte, byte]];
                        let input = decision.input(Call::CarryOutMapped, lent, block as u64);
                        let Outcome { answer, buffers } = harness.check(&input)?;
                        let mut wanted = pairs(byte);
                        wanted[block] = set.unwrap_or(wanted[block]);
                        let after = [pairs(buffers[2][0]), pairs(buffers[2][1])];
                        demand(answer == expected && after == [wanted, pairs(byte)], || {
                            let kind = decision.kind;
                            format!(
                                "kind {kind} on block {block} of {n} over {byte:02X}: {after:?}"
                            )
                        })?;
                    }
                }
            }
        }
    }
    Ok(())
}

/// Each length of a map up to one byte more than 0 to 9 blocks want.
pub fn every_length(harness: &mut Harness) -> Result<(), Mismatch> {
    for n in 0..10 {
        for length in 0..=(n + 3) / 4 + 1 {
            for block in 0..=n {
                for call in [Call::CarryOutMapped, Call::ReadMapped] {
                    let Areas { patch, full } = Areas::fresh(n, None);
                    // Kind 0 for the one, a base of zeros for the other.
                    let buffers = vec![patch, full, vec![0; length], vec![], vec![0; PAGE]];
                    let input = Input::new(call, buffers).at_block(block as u64);
                    let answer = harness.check(&input)?.answer;
                    let number = match (4 * length < n, block < n) {
                        (true, _) => 9,
                        (false, false) => 5,
                        (false, true) => 0,
                    };
                    demand(answer == Answer::of(&[number]), || {
                        format!("{} with {length} bytes for {n} blocks: {answer:?}", call.name())
                    })?;
                }
            }
        }
    }
    Ok(())
}

/// Every byte of a map, and every length.
pub fn every_one(harness: &mut Harness) -> Result<(), Mismatch> {
    every_read(harness)?;
    every_decision(harness)?;
    every_length(harness)
}

/// How many stores from elsewhere Build accepted and refused; of a refused one nothing is demanded.
#[derive(Clone, Copy, Debug, Default, PartialEq, Eq)]
pub struct Elsewhere {
    pub accepted: u64,
    pub refused: u64,
    /// Decisions that were stopped on accepted ones.
    pub stopped: u64,
}

/// A store and a map beside it, with bytes after it that stay.
struct Kept {
    areas: Areas,
    map: Vec<u8>,
}

impl Kept {
    /// The map's bytes that the blocks have.
    fn used(&self) -> usize {
        (self.areas.blocks() + 3) / 4
    }

    /// The areas, and the map if it goes with them.
    fn kept(&self, with_map: bool) -> Vec<Vec<u8>> {
        let mut kept = vec![self.areas.patch.clone(), self.areas.full.clone()];
        if with_map {
            kept.push(self.map.clone());
        }
        kept
    }

    fn lent(&self, with_map: bool, base: &[u8], page: &[u8]) -> Vec<Vec<u8>> {
        [self.kept(with_map), vec![base.to_vec(), page.to_vec()]].concat()
    }

    /// What Build says, and the map afterwards, which held other bytes before.
    fn build(&self, harness: &mut Harness) -> Result<(Answer, Vec<u8>), Mismatch> {
        let map = self.map.iter().map(|byte| !byte).collect();
        let buffers = vec![self.areas.patch.clone(), self.areas.full.clone(), map];
        let Outcome { answer, mut buffers } = harness.check(&Input::new(Call::Build, buffers))?;
        Ok((answer, buffers.swap_remove(2)))
    }

    /// Every block by the map and by its slot.
    fn check_reads(&self, harness: &mut Harness, rng: &mut Rng) -> Result<(), Mismatch> {
        for block in 0..self.areas.blocks() as u64 {
            let (base, page) = (generate::base(rng), rng.bytes(PAGE));
            let by_slot = Input::new(Call::Read, self.lent(false, &base, &page)).at_block(block);
            let by_map =
                Input::new(Call::ReadMapped, self.lent(true, &base, &page)).at_block(block);
            let (slot, map) = (harness.check(&by_slot)?, harness.check(&by_map)?);
            demand(slot.answer == map.answer && slot.buffers[3] == map.buffers[4], || {
                format!("block {block} by its slot {:?}, by the map {:?}", slot.answer, map.answer)
            })?;
        }
        Ok(())
    }

    /// One decision carried out with the map, and the same without it.
    fn carry_out(&mut self, harness: &mut Harness, rng: &mut Rng) -> Result<(), Mismatch> {
        let block = rng.below(self.areas.blocks()) as u64;
        let base = generate::base(rng);
        let decision = decision_over(harness, rng, &base)?;
        if self.store(harness, block, &decision, ALL)? == 0 {
            self.check_read_back(harness, block, &base, &decision)?;
        }
        Ok(())
    }

    /// Makes so many stores of a decision, with the map and without: both do the same to the areas. Gives
    /// the number.
    fn store(
        &mut self,
        harness: &mut Harness,
        block: u64,
        decision: &Decision,
        stores: u64,
    ) -> Result<i128, Mismatch> {
        let plain = decision.input(Call::CarryOut, self.kept(false), block).storing(stores);
        let mapped = decision.input(Call::CarryOutMapped, self.kept(true), block).storing(stores);
        let (plain, mapped) = (harness.check(&plain)?, harness.check(&mapped)?);
        demand(plain.answer == mapped.answer && plain.buffers[..2] == mapped.buffers[..2], || {
            format!("block {block} without a map {:?}, with it {:?}", plain.answer, mapped.answer)
        })?;
        let number = mapped.answer.number();
        self.take(mapped);
        let has_place = (block as usize) < self.areas.pages();
        let expected = if decision.kind == 2 && !has_place { 8 } else { 0 };
        demand(number == expected, || format!("kind {} gives {number}", decision.kind))?;
        Ok(number)
    }

    /// A decision that is stopped. The map stays; the block reads as before or as the whole write leaves it.
    fn stop(&mut self, harness: &mut Harness, rng: &mut Rng) -> Result<(), Mismatch> {
        let block = rng.below(self.areas.blocks()) as u64;
        let base = generate::base(rng);
        let mut decision = decision_over(harness, rng, &base)?;
        // Full pages often: about them there is most to be told.
        if rng.chance(40) {
            decision = Decision { kind: 2, payload: Vec::new(), page: rng.bytes(PAGE) };
        }
        let mut whole = Kept { areas: self.areas.clone(), map: self.map.clone() };
        whole.store(harness, block, &decision, ALL)?;
        let (map, before) = (self.map.clone(), self.reading(harness, block, &base)?);
        self.store(harness, block, &decision, rng.below(2) as u64)?;
        demand(self.map == map, || format!("a stop changed the map to {:02X?}", self.map))?;
        let stopped = self.reading(harness, block, &base)?;
        let after = whole.reading(harness, block, &base)?;
        demand(stopped == before || stopped == after, || {
            format!("block {block} after a stop reads as {:?}", stopped.answer)
        })
    }

    /// The answer and the page of a block that is read.
    fn reading(&self, harness: &mut Harness, block: u64, base: &[u8]) -> Result<Outcome, Mismatch> {
        let read = Input::new(Call::Read, self.lent(false, base, &[0xD5; PAGE])).at_block(block);
        let Outcome { answer, buffers } = harness.check(&read)?;
        Ok(Outcome { answer, buffers: buffers.into_iter().skip(3).collect() })
    }

    /// A sweep after stops, and the map built anew.
    fn sweep(&mut self, harness: &mut Harness) -> Result<(), Mismatch> {
        let Outcome { answer, mut buffers } =
            harness.check(&Input::new(Call::Sweep, self.kept(false)))?;
        demand(answer == Answer::of(&[0]), || format!("a sweep gives {:?}", answer.0))?;
        self.areas.full = buffers.swap_remove(1);
        let (answer, built) = self.build(harness)?;
        demand(answer.number() == 0, || format!("Build after a sweep gives {:?}", answer.0))?;
        let used = self.used();
        self.map[..used].copy_from_slice(&built[..used]);
        Ok(())
    }

    /// A block right after a decision: its base, what Apply makes of it, or the page.
    fn check_read_back(
        &self,
        harness: &mut Harness,
        block: u64,
        base: &[u8],
        decision: &Decision,
    ) -> Result<(), Mismatch> {
        let page = match decision.kind {
            0 => Some(generate::page_of_base(base)),
            1 => pair::applied(harness, base, &decision.payload)?,
            _ => Some(decision.page.clone()),
        };
        let read = self.reading(harness, block, base)?;
        let as_decided = Answer::of(&[0, decision.kind.into()]);
        demand(read.answer == as_decided && read.buffers.first() == page.as_ref(), || {
            format!("block {block} after kind {} reads with {:?}", decision.kind, read.answer)
        })
    }

    /// One cut with the map, and the same without it.
    fn cut(&mut self, harness: &mut Harness, rng: &mut Rng) -> Result<(), Mismatch> {
        let k = rng.between(0, self.areas.blocks()) as u64;
        let areas = || vec![self.areas.patch.clone(), self.areas.full.clone()];
        let plain = Input::new(Call::Cut, areas()).at_block(k);
        let buffers = [areas(), vec![self.map.clone()]].concat();
        let mapped = Input::new(Call::CutMapped, buffers).at_block(k);
        let (plain, mapped) = (harness.check(&plain)?, harness.check(&mapped)?);
        let answers = [plain.answer, mapped.answer];
        let done = answers == [Answer::of(&[0]); 2];
        demand(done && plain.buffers[..2] == mapped.buffers[..2], || {
            format!("cut at {k} without a map and with it: {answers:?}")
        })?;
        self.take(mapped);
        Ok(())
    }

    /// Goes on with what a call with the map has left.
    fn take(&mut self, outcome: Outcome) {
        let mut buffers = outcome.buffers.into_iter();
        let mut next = || buffers.next().expect("both areas and the map");
        *self = Kept { areas: Areas { patch: next(), full: next() }, map: next() };
    }

    /// The highest block is the last whose pair in Build's map is not 0.
    fn check_highest(&self, harness: &mut Harness) -> Result<(), Mismatch> {
        let input = Input::new(Call::Highest, vec![self.areas.patch.clone()]);
        let answer = harness.check(&input)?.answer;
        let in_use = |block: &usize| pairs(self.map[block / 4])[block % 4] != 0;
        let last = (0..self.areas.blocks()).rev().find(in_use);
        let expected = Answer::of(&[0, last.map_or(0, |block| block as i128 + 1)]);
        demand(answer == expected, || format!("highest {:?}, by the map {last:?}", answer.0))
    }
}

/// A decision over a base: Compare's, or one from elsewhere.
fn decision_over(harness: &mut Harness, rng: &mut Rng, base: &[u8]) -> Result<Decision, Mismatch> {
    if !rng.chance(70) {
        return Ok(generate::decision_from_elsewhere(rng));
    }
    let page = generate::modified(rng, base);
    let decided = pair::decide(harness, base, &page)?;
    demand(decided.is_some(), || "Compare of sound pages is refused".to_string())?;
    Ok(decided.expect("just seen"))
}

/// Decisions and cuts carried out on a store; in some stores decisions are stopped too, and it is swept at
/// the end or before.
fn used_for_a_while(
    harness: &mut Harness,
    rng: &mut Rng,
    kept: &mut Kept,
    met: &mut Elsewhere,
) -> Result<(), Mismatch> {
    let stops = if rng.chance(40) { 30 } else { 0 };
    for _ in 0..rng.between(1, 12) {
        if rng.chance(15) {
            kept.cut(harness, rng)?;
        } else if rng.chance(stops) {
            kept.stop(harness, rng)?;
            met.stopped += 1;
        } else if rng.chance(stops / 3) {
            kept.sweep(harness)?;
        } else {
            kept.carry_out(harness, rng)?;
        }
    }
    if stops > 0 {
        kept.sweep(harness)?;
    }
    Ok(())
}

/// One store from elsewhere, and decisions and cuts carried out on it.
pub fn from_elsewhere(
    harness: &mut Harness,
    rng: &mut Rng,
    met: &mut Elsewhere,
) -> Result<(), Mismatch> {
    let areas = generate::areas(rng);
    let room = (areas.blocks() + 3) / 4 + rng.below(3);
    let mut kept = Kept { areas, map: rng.bytes(room) };
    let (answer, built) = kept.build(harness)?;
    if answer.number() != 0 {
        met.refused += 1;
        return Ok(());
    }
    met.accepted += 1;
    kept.map = built;
    let later = kept.map[kept.used()..].to_vec();
    kept.check_reads(harness, rng)?;
    kept.check_highest(harness)?;
    if kept.areas.blocks() > 0 {
        used_for_a_while(harness, rng, &mut kept, met)?;
    }
    let (answer, built) = kept.build(harness)?;
    let used = kept.used();
    demand(answer.number() == 0 && kept.map[..used] == built[..used], || {
        format!("kept {:02X?}, Build says {answer:?} and makes {built:02X?}", kept.map)
    })?;
    demand(kept.map[used..] == later[..], || "bytes after the map were changed".to_string())?;
    kept.check_highest(harness)?;
    kept.check_reads(harness, rng)
}
