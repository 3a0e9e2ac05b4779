//! Long runs of decisions that are carried out and of cuts, held to the demand on runs. An accepted cut
//! wipes earlier decisions on the blocks that it covers, and only those blocks may have another base page
//! after it.
//!
//! The model of a run is a dictionary: each block's last accepted decision that no later accepted cut
//! covers. It is written from the documents, and so is what it says of bytes:
//!
//! * a decision is accepted just where its block, its kind, its place, its payload and the map are right,
//!   and answered with its kind and, for PATCH, its payload's length;
//! * the areas, and the map, hold the bytes that the layout has for the dictionary, and no others; fresh
//!   areas given only its decisions, in any order, hold the same;
//! * each block reads as its base for EMPTY or without a decision, as its base with the entries for PATCH,
//!   as the page for FULL_REF, and Build accepts;
//! * the highest block is the last whose decision is not EMPTY.
//!
//! Most runs are decided by Compare: each decision is that of a Compare over the block's base that answered
//! 0, with the page that it compared. Of these more is demanded:
//!
//! * each block reads as the page that was compared last, and is EMPTY just where that is its base;
//! * two runs whose bases agree at the end leave equal bytes exactly when each block reads the same.
//!   Block by block: where a block's base pages agree at the end, slot and place are equal exactly when
//!   it reads the same, whatever the other blocks' bases are.
//!
//! The other runs carry out decisions from elsewhere too, which no Compare has made: any sound payload, and
//! whatever may stand beside the kinds that do not look at it.
//!
//! Half of the runs begin with a map of zeros that is lent to every decision and every cut. It is a third
//! buffer of the run: the demands hold for its bytes too, and at the end it is the map that Build makes.
//! Whether it was kept or built, each block reads by it as Read reads it.
//!
//! Every write here is told all its stores; runs with a write that is told fewer are those of `stops`. A
//! sweep over what a run has left changes nothing.
//!
//! Every call of it is also compared with the independent implementation.

use std::collections::BTreeMap;

use crate::call::{
    first_difference, Answer, Call, Input, Numbers, Outcome, Told, ALL, FULL_HEADER, PAGE,
    PATCH_HEADER, PAYLOAD, SLOT,
};
use crate::generate::{self, Areas, Decision, STRANGE_KINDS, STRANGE_NUMBERS};
use crate::harness::{Harness, Mismatch};
use crate::pair;
use crate::rng::Rng;

/// The fixed part of a run: sizes of the areas, and the base page of each block at the beginning.
pub(crate) struct Ground {
    pub(crate) n: usize,
    m: Option<usize>,
    bases: Vec<Vec<u8>>,
    /// Whether every decision and every cut is lent a map.
    pub(crate) mapped: bool,
    /// How many of 100 operations are cuts.
    pub(crate) cuts: usize,
    /// How many of 100 decisions are from elsewhere; 0 in a run decided by Compare.
    pub(crate) elsewhere: usize,
}

/// What a run has led to.
#[derive(Clone)]
pub(crate) struct State {
    pub(crate) patch: Vec<u8>,
    pub(crate) full: Vec<u8>,
    /// The map, if every decision and every cut is lent it.
    pub(crate) map: Option<Vec<u8>>,
    /// Each block's base page by now.
    pub(crate) bases: Vec<Vec<u8>>,
    /// Each block's last accepted decision that no later accepted cut covers. One that was stopped is
    /// among them if it counts, see `counts`.
    last: BTreeMap<usize, Decision>,
}

fn broken(what: String) -> Mismatch {
    Mismatch { side: "demand on runs", input: "see the seed and case".to_string(), found: what }
}

fn demand(holds: bool, what: impl FnOnce() -> String) -> Result<(), Mismatch> {
    if holds {
        Ok(())
    } else {
        Err(broken(what()))
    }
}

pub(crate) fn base_page(rng: &mut Rng) -> Vec<u8> {
    generate::page_of_base(&generate::base(rng))
}

/// The entries of a payload, if it is sound.
fn entries_of(payload: &[u8]) -> Option<Vec<(usize, u8)>> {
    let mut entries = Vec::new();
    let (mut next, mut rest) = (0, payload);
    while !rest.is_empty() {
        let (jump, value, after) = match rest {
            [255, low, high, value, after @ ..] => {
                let jump = usize::from(u16::from_le_bytes([*low, *high]));
                (Some(jump).filter(|jump| *jump >= 255)?, value, after)
            }
            [jump @ 0..=254, value, after @ ..] => (usize::from(*jump), value, after),
            _ => return None,
        };
        entries.push((next + jump, *value));
        next += jump + 1;
        rest = after;
    }
    ((1..=PAYLOAD).contains(&payload.len()) && next <= PAGE).then_some(entries)
}

/// The pair that stands in a map for a block of this kind.
fn pair_of_kind(kind: u32) -> u8 {
    [0, 2, 1][kind as usize]
}

impl Ground {
    fn random(rng: &mut Rng) -> Ground {
        let n = rng.between(1, 12);
        let m = generate::pages(rng, n);
        Ground::of(rng, n, m)
    }

    pub(crate) fn of(rng: &mut Rng, n: usize, m: Option<usize>) -> Ground {
        let bases = (0..n).map(|_| base_page(rng)).collect();
        // A run with many cuts has few decisions left at the end.
        let (mapped, cuts) = (rng.chance(50), rng.pick(&[0, 4, 12]));
        Ground { n, m, bases, mapped, cuts, elsewhere: rng.pick(&[0, 0, 0, 30, 60]) }
    }

    fn decided_by_compare(&self) -> bool {
        self.elsewhere == 0
    }

    /// The bytes of a map.
    fn map_len(&self) -> usize {
        (self.n + 3) / 4
    }

    /// Fresh areas, made by Format over bytes of no meaning.
    pub(crate) fn fresh(&self, harness: &mut Harness, rng: &mut Rng) -> Result<State, Mismatch> {
        let Areas { patch, full } = Areas::fresh(self.n, self.m);
        let input = Input::new(Call::Format, vec![rng.bytes(patch.len()), rng.bytes(full.len())]);
        let mut buffers = harness.check(&input)?.buffers.into_iter();
        let mut next = || buffers.next().unwrap_or_default();
        Ok(State {
            patch: next(),
            full: next(),
            map: self.mapped.then(|| vec![0; self.map_len()]),
            bases: self.bases.clone(),
            last: BTreeMap::new(),
        })
    }
}

impl State {
    /// The block's base, a base of zeros in either form.
    pub(crate) fn base(&self, rng: &mut Rng, block: usize) -> Vec<u8> {
        let page = &self.bases[block];
        if rng.chance(50) && page.iter().all(|byte| *byte == 0) {
            Vec::new()
        } else {
            page.clone()
        }
    }

    /// The kind of the block by the dictionary.
    pub(crate) fn kind(&self, block: usize) -> u32 {
        self.last.get(&block).map_or(0, |decision| decision.kind)
    }

    /// The page that the block reads as, by the dictionary.
    pub(crate) fn standing(&self, block: usize) -> Vec<u8> {
        let mut page = self.bases[block].clone();
        match self.last.get(&block) {
            Some(Decision { kind: 1, payload, .. }) => {
                let entries = entries_of(payload).expect("an accepted payload");
                entries.into_iter().for_each(|(place, value)| page[place] = value);
            }
            Some(Decision { kind: 2, page: stored, .. }) => page.clone_from(stored),
            _ => {}
        }
        page
    }

    /// The areas and the map, written out from the dictionary.
    pub(crate) fn written_out(&self, ground: &Ground) -> State {
        let Areas { mut patch, mut full } = Areas::fresh(ground.n, ground.m);
        let mut map = vec![0; ground.map_len()];
        for (block, Decision { kind, payload, page }) in &self.last {
            let slot = &mut patch[PATCH_HEADER + SLOT * block..][..SLOT];
            match kind {
                1 => slot.copy_from_slice(&generate::patch_slot(payload)),
                _ => slot[0] = *kind as u8,
            }
            if *kind == 2 {
                full[FULL_HEADER + PAGE * block..][..PAGE].copy_from_slice(page);
            }
            generate::set_pair(&mut map, *block, pair_of_kind(*kind));
        }
        let map = self.map.is_some().then_some(map);
        State { patch, full, map, bases: self.bases.clone(), last: self.last.clone() }
    }

    /// Whether a write that is told so many stores counts among the others once the areas are swept: not
    /// if nothing was stored, and not if that is a page to which the slot does not refer.
    pub(crate) fn counts(&self, block: u64, kind: u32, stores: u64) -> bool {
        match Told::of(stores) {
            Told::None => false,
            Told::One => kind != 2 || self.kind(block as usize) == 2,
            Told::All => true,
        }
    }

    /// Whether the block has a place in the full area.
    pub(crate) fn has_place(&self, block: u64) -> bool {
        block < (self.full.len().saturating_sub(FULL_HEADER) / PAGE) as u64
    }

    /// Whether a decision must be accepted.
    fn acceptable(&self, block: u64, decision: &Decision) -> bool {
        let n = self.bases.len();
        let room = self.map.as_ref().map_or(true, |map| 4 * map.len() >= n);
        let Decision { kind, payload, page } = decision;
        room && block < n as u64
            && match kind {
                0 => true,
                1 => entries_of(payload).is_some(),
                2 => page.len() == PAGE && self.has_place(block),
                _ => false,
            }
    }

    /// Lends both areas whole, and the map if there is one, with the call's other buffers behind them.
    fn lend(
        &mut self,
        harness: &mut Harness,
        [plain, mapped]: [Call; 2],
        numbers: Numbers,
        others: Vec<Vec<u8>>,
    ) -> Result<Answer, Mismatch> {
        let mut buffers = vec![std::mem::take(&mut self.patch), std::mem::take(&mut self.full)];
        let map = self.map.take();
        let call = if map.is_some() { mapped } else { plain };
        buffers.extend(map);
        buffers.extend(others);
        let mut input = Input::new(call, buffers);
        input.numbers = numbers;
        let Outcome { answer, buffers } = harness.check(&input)?;
        let mut buffers = buffers.into_iter();
        let mut next = || buffers.next().unwrap_or_default();
        (self.patch, self.full) = (next(), next());
        self.map = (call == mapped).then(next);
        Ok(answer)
    }

    /// Whatever is told of stores, the decision is accepted or refused and answered alike.
    pub(crate) fn carry_out(
        &mut self,
        harness: &mut Harness,
        block: u64,
        decision: Decision,
        stores: u64,
    ) -> Result<bool, Mismatch> {
        let acceptable = self.acceptable(block, &decision);
        let numbers = Numbers { block, kind: decision.kind, stores, ..Numbers::default() };
        let others = vec![decision.payload.clone(), decision.page.clone()];
        let calls = [Call::CarryOut, Call::CarryOutMapped];
        let answer = self.lend(harness, calls, numbers, others)?;
        let length = if decision.kind == 1 { decision.payload.len() } else { 0 };
        let done = answer == Answer::of(&[0, decision.kind.into(), length as i128]);
        demand(done == acceptable && done == (answer.number() == 0), || {
            format!("kind {} on block {block}: {:?}", decision.kind, answer.0)
        })?;
        if done && self.counts(block, decision.kind, stores) {
            self.last.insert(block as usize, decision);
        }
        Ok(done)
    }

    /// A sweep, which must be accepted. The patch area stays.
    pub(crate) fn sweep(&mut self, harness: &mut Harness) -> Result<(), Mismatch> {
        let input = Input::new(Call::Sweep, vec![self.patch.clone(), self.full.clone()]);
        let Outcome { answer, mut buffers } = harness.check(&input)?;
        demand(answer == Answer::of(&[0]), || format!("sweep gives {:?}", answer.0))?;
        demand(buffers[0] == self.patch, || "a sweep changed the patch area".to_string())?;
        self.full = buffers.swap_remove(1);
        Ok(())
    }

    /// A write by the pair. Where Compare is refused there is nothing to carry out.
    fn write(
        &mut self,
        harness: &mut Harness,
        block: u64,
        base: &[u8],
        page: &[u8],
    ) -> Result<bool, Mismatch> {
        match pair::decide(harness, base, page)? {
            Some(decision) => self.carry_out(harness, block, decision, ALL),
            None => Ok(false),
        }
    }

    pub(crate) fn cut(&mut self, harness: &mut Harness, k: u64) -> Result<bool, Mismatch> {
        let numbers = Numbers { block: k, ..Numbers::default() };
        let answer = self.lend(harness, [Call::Cut, Call::CutMapped], numbers, Vec::new())?;
        let accepted = answer.number() == 0;
        if accepted {
            self.last.split_off(&(k as usize));
        }
        Ok(accepted)
    }

    /// A cut of blocks that there are, which must be accepted. K = n covers none of them.
    fn accepted_cut(&mut self, harness: &mut Harness, k: usize) -> Result<(), Mismatch> {
        let accepted = self.cut(harness, k as u64)?;
        demand(accepted, || format!("a cut at {k} of {} blocks is refused", self.bases.len()))
    }

    /// An operation that is lent a map one byte too short, and so refused.
    fn with_short_map(
        &mut self,
        operate: impl FnOnce(&mut State) -> Result<bool, Mismatch>,
    ) -> Result<(), Mismatch> {
        let kept = self.map.clone();
        self.map.iter_mut().for_each(|map| map.truncate(map.len() - 1));
        let accepted = operate(self)?;
        demand(!accepted, || "a decision or a cut with a short map is accepted".to_string())?;
        self.map = kept;
        Ok(())
    }

    fn read(
        &self,
        harness: &mut Harness,
        block: usize,
        base: Vec<u8>,
    ) -> Result<Vec<u8>, Mismatch> {
        let buffers = vec![self.patch.clone(), self.full.clone(), base, vec![0xD1; PAGE]];
        let outcome = harness.check(&Input::new(Call::Read, buffers).at_block(block as u64))?;
        demand(outcome.answer.number() == 0, || {
            format!("block {block} reads with {}", outcome.answer.number())
        })?;
        Ok(outcome.buffers.into_iter().nth(3).unwrap_or_default())
    }

    /// Reads a block by a map and by its slot; both must give the same.
    pub(crate) fn read_by_map(
        &self,
        harness: &mut Harness,
        map: &[u8],
        block: usize,
        base: Vec<u8>,
    ) -> Result<(), Mismatch> {
        let slot = self.read(harness, block, base.clone())?;
        let areas = vec![self.patch.clone(), self.full.clone()];
        let buffers = [areas, vec![map.to_vec(), base, vec![0xD2; PAGE]]].concat();
        let by_map =
            harness.check(&Input::new(Call::ReadMapped, buffers).at_block(block as u64))?;
        demand(by_map.answer.number() == 0 && by_map.buffers[4] == slot, || {
            format!("block {block} reads otherwise by the map, {:?}", by_map.answer)
        })
    }

    pub(crate) fn same_bytes(&self, other: &State) -> bool {
        self.patch == other.patch && self.full == other.full && self.map == other.map
    }

    /// All that is kept of a block: its slot, its place and its pair, as far as there are any.
    fn kept_of(&self, block: usize) -> (&[u8], Option<&[u8]>, Option<u8>) {
        let (slot, place) = (PATCH_HEADER + SLOT * block, FULL_HEADER + PAGE * block);
        let pair = self.map.as_ref().map(|map| map[block / 4] >> (2 * (block % 4)) & 3);
        (&self.patch[slot..slot + SLOT], self.full.get(place..place + PAGE), pair)
    }

    pub(crate) fn difference(&self, other: &State) -> String {
        let patch = first_difference(&self.patch, &other.patch);
        let full = first_difference(&self.full, &other.full);
        format!("patch {patch:?}, full {full:?}, maps {:02X?} {:02X?}", self.map, other.map)
    }
}

/// What the runs met; all of it must happen for the test to mean much.
#[derive(Clone, Copy, Debug, Default, PartialEq, Eq)]
pub struct Met {
    /// Second runs whose bases are at the end those of the first, and that ended alike, or did not.
    pub alike: u64,
    pub different: u64,
    /// Second runs that ended with another base at some block; and those of their blocks whose bases
    /// are the same, that ended alike, or did not.
    pub other_bases: u64,
    pub blocks_alike: u64,
    pub blocks_different: u64,
    /// Runs with a map lent to every decision and cut, and without.
    pub mapped: u64,
    pub unmapped: u64,
    /// Runs decided by Compare, and runs with decisions from elsewhere among them.
    pub by_compare: u64,
    pub with_others: u64,
    /// Decisions of Compare that were accepted and refused, decisions from elsewhere that were accepted,
    /// decisions that were spoiled and so refused, and Compares that were refused.
    pub decisions: u64,
    pub refused_decisions: u64,
    pub from_elsewhere: u64,
    pub spoiled: u64,
    pub refused_compares: u64,
    /// Cuts that were accepted and refused, and base pages that were changed after one.
    pub cuts: u64,
    pub refused_cuts: u64,
    pub new_bases: u64,
}

impl Met {
    /// What did not happen, if anything did not.
    pub fn hole(&self) -> Option<String> {
        let Met { alike, different, other_bases, mapped, unmapped, .. } = *self;
        let Met { blocks_alike, blocks_different, cuts, refused_cuts, new_bases, .. } = *self;
        let Met { by_compare, with_others, decisions, refused_decisions, .. } = *self;
        let Met { from_elsewhere, spoiled, refused_compares, .. } = *self;
        let met = [alike, different, other_bases, blocks_alike, blocks_different, mapped, unmapped];
        let met = met.into_iter().chain([cuts, refused_cuts, new_bases, by_compare, with_others]);
        let met = met.chain([decisions, refused_decisions, from_elsewhere, spoiled]);
        let met = met.chain([refused_compares]);
        met.min().filter(|least| *least == 0).map(|_| format!("{self:?}"))
    }
}

/// The decision with a fault for which it is refused on every block.
pub(crate) fn spoiled(rng: &mut Rng, decision: Decision) -> Decision {
    let Decision { mut payload, .. } = decision.clone();
    match rng.below(3) {
        0 => Decision { kind: rng.pick(&STRANGE_KINDS), ..decision },
        // A jump without a value, or a byte too many.
        1 => {
            payload.push(0);
            Decision { kind: 1, payload, ..decision }
        }
        _ => Decision { kind: 2, page: rng.bytes(PAGE - 1), ..decision },
    }
}

/// One decision by Compare, mostly on a block that there is, now and then one that must be refused.
fn random_write(
    harness: &mut Harness,
    rng: &mut Rng,
    ground: &Ground,
    state: &mut State,
    met: &mut Met,
) -> Result<(), Mismatch> {
    let block = rng.below(ground.n);
    let base = state.base(rng, block);
    // From the base, or from the page of before: the small change upon a small change.
    let from = if rng.chance(50) { state.standing(block) } else { state.bases[block].clone() };
    let page = generate::modified(rng, &from);
    let at = block as u64;
    match rng.below(14) {
        0 => {
            let beyond = rng.pick(&STRANGE_NUMBERS).max(ground.n as u64);
            state.write(harness, beyond, &base, &page)?;
        }
        1 => {
            let short = rng.bytes(PAGE - 1);
            state.write(harness, at, &base, &short)?;
            met.refused_compares += 1;
        }
        2 => {
            let odd = rng.pick(&[1, 8191, 8193]);
            state.write(harness, at, &rng.bytes(odd), &page)?;
            met.refused_compares += 1;
        }
        3 if ground.mapped => {
            state.with_short_map(|state| state.write(harness, at, &base, &page))?;
        }
        4 => {
            if let Some(decision) = pair::decide(harness, &base, &page)? {
                state.carry_out(harness, at, spoiled(rng, decision), ALL)?;
                met.spoiled += 1;
            }
        }
        _ => {
            let accepted = state.write(harness, at, &base, &page)?;
            met.decisions += u64::from(accepted);
            met.refused_decisions += u64::from(!accepted);
        }
    }
    Ok(())
}

/// A decision that no Compare need have made, on a block that there is.
fn random_decision(
    harness: &mut Harness,
    rng: &mut Rng,
    ground: &Ground,
    state: &mut State,
    met: &mut Met,
) -> Result<(), Mismatch> {
    let block = rng.below(ground.n) as u64;
    let accepted = state.carry_out(harness, block, generate::decision_from_elsewhere(rng), ALL)?;
    met.from_elsewhere += u64::from(accepted);
    Ok(())
}

/// One random cut: mostly accepted, after which some of the blocks that it covers get another base page.
fn random_cut(
    harness: &mut Harness,
    rng: &mut Rng,
    ground: &Ground,
    state: &mut State,
    met: &mut Met,
) -> Result<(), Mismatch> {
    let k = if rng.chance(15) { ground.n } else { rng.between(0, ground.n) };
    match rng.below(8) {
        0 => {
            let beyond = rng.pick(&STRANGE_NUMBERS);
            let beyond = if rng.chance(50) { ground.n as u64 + 1 } else { beyond };
            let accepted = state.cut(harness, beyond)?;
            demand(!accepted, || format!("a cut at {beyond} of {} blocks", ground.n))?;
            met.refused_cuts += 1;
        }
        1 if ground.mapped => {
            state.with_short_map(|state| state.cut(harness, k as u64))?;
            met.refused_cuts += 1;
        }
        _ => {
            state.accepted_cut(harness, k)?;
            met.cuts += 1;
            for base in &mut state.bases[k..] {
                if rng.chance(40) {
                    *base = base_page(rng);
                    met.new_bases += 1;
                }
            }
        }
    }
    Ok(())
}

fn random_run(
    harness: &mut Harness,
    rng: &mut Rng,
    ground: &Ground,
    operations: usize,
    met: &mut Met,
) -> Result<State, Mismatch> {
    let mut state = ground.fresh(harness, rng)?;
    for _ in 0..operations {
        if rng.chance(ground.cuts) {
            random_cut(harness, rng, ground, &mut state, met)?;
        } else if rng.chance(ground.elsewhere) {
            random_decision(harness, rng, ground, &mut state, met)?;
        } else {
            random_write(harness, rng, ground, &mut state, met)?;
        }
    }
    Ok(state)
}

/// Fresh areas given only the decisions that stand, in shuffled order.
fn last_decisions_alone(
    harness: &mut Harness,
    rng: &mut Rng,
    ground: &Ground,
    run: &State,
) -> Result<State, Mismatch> {
    let mut state = ground.fresh(harness, rng)?;
    state.bases = run.bases.clone();
    let mut order: Vec<(&usize, &Decision)> = run.last.iter().collect();
    rng.shuffle(&mut order);
    for (block, decision) in order {
        let accepted = state.carry_out(harness, *block as u64, decision.clone(), ALL)?;
        demand(accepted, || format!("the last accepted decision on block {block} is refused"))?;
    }
    Ok(state)
}

fn check_reading_back(
    harness: &mut Harness,
    rng: &mut Rng,
    ground: &Ground,
    state: &State,
) -> Result<(), Mismatch> {
    for block in 0..ground.n {
        let base = state.base(rng, block);
        let page = state.read(harness, block, base)?;
        if let Some(found) = first_difference(&page, &state.standing(block)) {
            return Err(broken(format!("block {block} reads wrongly: {found}")));
        }
        if ground.decided_by_compare() {
            let compared = state.last.get(&block).map(|decision| &decision.page);
            demand(page == *compared.unwrap_or(&state.bases[block]), || {
                format!("block {block} reads as another page than was compared")
            })?;
        }
    }
    Ok(())
}

/// The bytes are those that the layout has for the dictionary.
fn check_bytes(ground: &Ground, state: &State) -> Result<(), Mismatch> {
    let written_out = state.written_out(ground);
    demand(state.same_bytes(&written_out), || {
        format!("other bytes than the decisions have: {}", state.difference(&written_out))
    })
}

/// Build accepts the areas and makes the map that was kept, if one was; each block reads the same by it;
/// its tally agrees with single look-ups.
fn check_map(
    harness: &mut Harness,
    rng: &mut Rng,
    ground: &Ground,
    state: &State,
) -> Result<(), Mismatch> {
    let map = vec![0x77; ground.map_len()];
    let buffers = vec![state.patch.clone(), state.full.clone(), map];
    let built = harness.check(&Input::new(Call::Build, buffers))?;
    demand(built.answer.number() == 0, || format!("Build refuses with {}", built.answer.number()))?;
    let map = built.buffers.into_iter().nth(2).unwrap_or_default();
    if let Some(kept) = &state.map {
        demand(*kept == map, || format!("kept {kept:02X?}, built {map:02X?}"))?;
    }
    for block in 0..ground.n {
        let base = state.base(rng, block);
        state.read_by_map(harness, &map, block, base)?;
    }
    let n = ground.n as u64;
    let mut counted = [0i128; 3];
    for block in 0..n {
        let input = Input::new(Call::LookUp, vec![map.clone()]).told(n).at_block(block);
        let pair = harness.check(&input)?.answer.0[1];
        counted[pair as usize] += 1;
        let kind = state.kind(block as usize);
        demand(pair == pair_of_kind(kind).into(), || {
            format!("block {block} of kind {kind} has pair {pair}")
        })?;
        let equal = state.standing(block as usize) == state.bases[block as usize];
        demand(!ground.decided_by_compare() || (pair == 0) == equal, || {
            format!("block {block} has pair {pair}, and equals its base: {equal}")
        })?;
    }
    let tally = harness.check(&Input::new(Call::Tally, vec![map]).told(n))?.answer.0;
    demand(tally[..3] == [0, counted[2], counted[1]], || format!("tally {tally:?}"))
}

/// Build accepts the areas, so that a sweep finds nothing.
fn check_sweep(harness: &mut Harness, state: &State) -> Result<(), Mismatch> {
    let mut swept = state.clone();
    swept.sweep(harness)?;
    demand(state.same_bytes(&swept), || {
        format!("a sweep after whole writes: {}", state.difference(&swept))
    })
}

/// One more than the highest block whose decision is not EMPTY, or 0. In a run decided by Compare those are
/// the blocks that differ from their bases.
fn check_highest(harness: &mut Harness, ground: &Ground, state: &State) -> Result<(), Mismatch> {
    let answer = harness.check(&Input::new(Call::Highest, vec![state.patch.clone()]))?.answer;
    let in_use = |block: &usize| state.kind(*block) != 0;
    let blocks = (0..ground.n).rev().find(in_use).map_or(0, |block| block + 1);
    demand(answer == Answer::of(&[0, blocks as i128]), || {
        format!("highest gives {:?}, and {blocks} blocks are in use", answer.0)
    })
}

/// A second run over the same ground, brought near the first. By a cut below all that differ its bases
/// become those of the first, and all blocks but perhaps one end alike; or it is left with its own bases,
/// and about half of the blocks are.
fn second_run(
    harness: &mut Harness,
    rng: &mut Rng,
    ground: &Ground,
    first: &State,
    met: &mut Met,
) -> Result<State, Mismatch> {
    let operations = rng.below(20);
    let mut state = random_run(harness, rng, ground, operations, met)?;
    let differs = |block: &usize| state.bases[*block] != first.bases[*block];
    let lowest = (0..ground.n).find(differs);
    let own_bases = lowest.is_some() && rng.chance(50);
    if let (Some(k), false) = (lowest, own_bases) {
        state.accepted_cut(harness, k)?;
        state.bases[k..].clone_from_slice(&first.bases[k..]);
    }
    let spared = if rng.chance(50) { Some(rng.below(ground.n)) } else { None };
    for block in 0..ground.n {
        let is_spared = if own_bases { rng.chance(50) } else { Some(block) == spared };
        if !is_spared {
            let base = state.base(rng, block);
            // Where no decision of the first run stands this is its base, which is EMPTY again.
            state.write(harness, block as u64, &base, &first.standing(block))?;
        }
    }
    Ok(state)
}

/// Two runs, compared where their bases agree at the end.
fn check_two_runs(
    harness: &mut Harness,
    rng: &mut Rng,
    ground: &Ground,
    first: &State,
    met: &mut Met,
) -> Result<(), Mismatch> {
    let second = second_run(harness, rng, ground, first, met)?;
    let (mut alike, mut different) = (0, 0);
    for block in 0..ground.n {
        if first.bases[block] != second.bases[block] {
            continue;
        }
        let base = first.base(rng, block);
        let page = first.read(harness, block, base.clone())?;
        let reads_alike = page == second.read(harness, block, base)?;
        let kept_alike = first.kept_of(block) == second.kept_of(block);
        demand(reads_alike == kept_alike, || {
            format!("block {block} reads alike: {reads_alike}, is kept alike: {kept_alike}")
        })?;
        if reads_alike {
            alike += 1;
        } else {
            different += 1;
        }
    }
    if first.bases != second.bases {
        met.other_bases += 1;
        met.blocks_alike += alike;
        met.blocks_different += different;
        return Ok(());
    }
    let read_alike = different == 0;
    if read_alike {
        met.alike += 1;
    } else {
        met.different += 1;
    }
    demand(read_alike == first.same_bytes(&second), || {
        format!("blocks read alike: {read_alike}, but {}", first.difference(&second))
    })
}

/// One run with all that is demanded of it.
pub fn run(
    harness: &mut Harness,
    rng: &mut Rng,
    operations: usize,
    met: &mut Met,
) -> Result<(), Mismatch> {
    let ground = Ground::random(rng);
    let state = random_run(harness, rng, &ground, operations, met)?;
    check_reading_back(harness, rng, &ground, &state)?;
    check_bytes(&ground, &state)?;
    check_map(harness, rng, &ground, &state)?;
    check_highest(harness, &ground, &state)?;
    check_sweep(harness, &state)?;
    let alone = last_decisions_alone(harness, rng, &ground, &state)?;
    demand(state.same_bytes(&alone), || {
        format!("the decisions that stand alone leave other bytes: {}", state.difference(&alone))
    })?;
    if ground.decided_by_compare() {
        check_two_runs(harness, rng, &ground, &state, met)?;
        met.by_compare += 1;
    } else {
        met.with_others += 1;
    }
    if ground.mapped {
        met.mapped += 1;
    } else {
        met.unmapped += 1;
    }
    Ok(())
}

#[cfg(test)]
mod tests {
    use super::*;

    /// The model's own reading of payloads, by hand.
    #[test]
    fn the_model_knows_sound_payloads() {
        assert_eq!(entries_of(&[0, 7, 0xFE, 1]), Some(vec![(0, 7), (255, 1)]));
        assert_eq!(entries_of(&[0xFF, 0xFF, 0x1F, 1]), Some(vec![(8191, 1)]));
        assert_eq!(entries_of(&[0; 504]).map(|entries| entries.len()), Some(252));
        let unsound: [&[u8]; 9] = [
            &[],
            &[0],
            &[0xFF, 0, 0],
            &[0xFF, 0xFE, 0x00, 5],
            &[0xFF, 0x00, 0x20, 1],
            &[0xFF, 0xFF, 0x1F, 1, 0, 2],
            &[0, 7, 0],
            &[0; 505],
            &[0; 506],
        ];
        for payload in unsound {
            assert_eq!(entries_of(payload), None, "{payload:02X?}");
        }
    }
}
