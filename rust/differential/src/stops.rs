//! Runs of which a write is stopped, held to what is demanded of stops. Each accepted write of a drawn run
//! is told 0 and told 1 in turn:
//!
//! * it is answered as the whole write is, and a lent map stays;
//! * the block reads as before or as after the whole write, and every other block as before, in answer and
//!   page;
//! * told all right after that it is the whole write;
//! * once the run has gone on, with all of the rest, some of it or none, and was swept, both areas are
//!   those of the run with that write whole, or without it. Without it if it was told 0, or told 1 with a
//!   full page on a block whose slot was not FULL_REF; else with it;
//! * the map is built anew then, and each block reads by it as Read reads it; sweeping again changes nothing.
//!
//! A second run has several stops, and sweeps anywhere in it.
//!
//! The model is that of `runs`: a dictionary of each block's last decision that counts. Besides, the areas
//! are compared with those of the run itself, made once more without the write. Every call of it is also
//! compared with the independent implementation.

use crate::call::{first_difference, Answer, Call, Input, Outcome, Told, ALL, PAGE};
use crate::generate::{self, Decision, STRANGE_NUMBERS};
use crate::harness::{Harness, Mismatch};
use crate::pair;
use crate::rng::Rng;
use crate::runs::{base_page, spoiled, Ground, State};

fn demand(holds: bool, what: impl FnOnce() -> String) -> Result<(), Mismatch> {
    if holds {
        return Ok(());
    }
    let input = "see the seed and case".to_string();
    Err(Mismatch { side: "demand on stops", input, found: what() })
}

/// What the stops met; all of it must happen for the test to mean much.
#[derive(Clone, Copy, Debug, Default, PartialEq, Eq)]
pub struct Met {
    /// Stops in runs that have one, by what was told (0, 1) and by kind.
    pub told: [[u64; 3]; 2],
    /// Of those told 1: full pages on a block that was not full, which do not count, and on one that was.
    pub new_pages: u64,
    pub other_pages: u64,
    /// Of those told 1: EMPTY and PATCH on a block that was full, which leave a stray page, and those on a
    /// block without a place, which are whole.
    pub stray_pages: u64,
    pub whole: u64,
    /// Runs that went on after the stop, those of them with an accepted cut of the block, or a write to
    /// it, and runs that ended there.
    pub went_on: u64,
    pub cut_later: u64,
    pub written_later: u64,
    pub ended_there: u64,
    /// Stops with a map and without.
    pub mapped: u64,
    pub unmapped: u64,
    /// Runs with several stops, the stops in them, and the sweeps before their end.
    pub runs_of_several: u64,
    pub several: u64,
    pub sweeps_between: u64,
}

impl Met {
    /// What did not happen, if anything did not.
    pub fn hole(&self) -> Option<String> {
        let Met { told, new_pages, other_pages, stray_pages, whole, .. } = *self;
        let Met { went_on, cut_later, written_later, ended_there, mapped, unmapped, .. } = *self;
        let Met { runs_of_several, several, sweeps_between, .. } = *self;
        let met = told.concat().into_iter().chain([new_pages, other_pages, stray_pages, whole]);
        let met = met.chain([went_on, cut_later, written_later, ended_there, mapped, unmapped]);
        let met = met.chain([runs_of_several, several, sweeps_between]);
        met.min().filter(|least| *least == 0).map(|_| format!("{self:?}"))
    }

    /// A stop of the write before which the run had led to this.
    fn add(&mut self, ground: &Ground, before: &State, stop: &Write, stores: u64) {
        let Write { block, decision } = stop;
        let kind = decision.kind as usize;
        let was_full = before.kind(*block as usize) == 2;
        self.told[stores as usize][kind] += 1;
        if ground.mapped {
            self.mapped += 1;
        } else {
            self.unmapped += 1;
        }
        match (Told::of(stores), kind) {
            (Told::One, 2) if was_full => self.other_pages += 1,
            (Told::One, 2) => self.new_pages += 1,
            (Told::One, _) if was_full => self.stray_pages += 1,
            (Told::One, _) if !before.has_place(*block) => self.whole += 1,
            _ => {}
        }
    }
}

impl Met {
    /// How the run went on after a stop on a block, with so many steps.
    fn add_rest(&mut self, run: &Run, number: usize, length: usize, block: u64) {
        let rest = || run.steps.iter().zip(&run.accepted).skip(number + 1).take(length);
        let cuts = |(step, _): (&Step, &bool)| matches!(step, Step::Cut { k, .. } if *k <= block);
        let writes = |(step, accepted): (&Step, &bool)| {
            *accepted && matches!(step, Step::Write(write) if write.block == block)
        };
        self.went_on += u64::from(length > 0);
        self.ended_there += u64::from(length == 0);
        self.cut_later += u64::from(rest().any(cuts));
        self.written_later += u64::from(rest().any(writes));
    }
}

/// A decision on a block.
struct Write {
    block: u64,
    decision: Decision,
}

/// One operation of a run, which can be done again.
enum Step {
    Write(Write),
    /// A cut, and the base pages after it.
    Cut {
        k: u64,
        bases: Vec<Vec<u8>>,
    },
}

impl Step {
    /// Does it, a write with so many of its stores. True if it is accepted.
    fn take(
        &self,
        harness: &mut Harness,
        state: &mut State,
        stores: u64,
    ) -> Result<bool, Mismatch> {
        match self {
            Step::Write(Write { block, decision }) => {
                state.carry_out(harness, *block, decision.clone(), stores)
            }
            Step::Cut { k, bases } => {
                let accepted = state.cut(harness, *k)?;
                let wanted = *k <= state.bases.len() as u64;
                demand(accepted == wanted, || format!("a cut at {k}: {accepted}"))?;
                if accepted {
                    state.bases.clone_from(bases);
                }
                Ok(accepted)
            }
        }
    }
}

/// A write over the block's base or from elsewhere, now and then one that is refused.
fn random_write(
    harness: &mut Harness,
    rng: &mut Rng,
    ground: &Ground,
    state: &State,
) -> Result<Write, Mismatch> {
    let block = rng.below(ground.n);
    let mut decision = generate::decision_from_elsewhere(rng);
    if !rng.chance(ground.elsewhere) {
        let base = state.base(rng, block);
        let from = if rng.chance(50) { state.standing(block) } else { state.bases[block].clone() };
        // Full pages often: about them there is most to be told.
        let page = if rng.chance(30) { rng.bytes(PAGE) } else { generate::modified(rng, &from) };
        let decided = pair::decide(harness, &base, &page)?;
        demand(decided.is_some(), || "Compare of sound pages is refused".to_string())?;
        decision = decided.unwrap_or(decision);
    }
    let mut block = block as u64;
    match rng.below(16) {
        0 => block = rng.pick(&STRANGE_NUMBERS).max(ground.n as u64),
        1 => decision = spoiled(rng, decision),
        _ => {}
    }
    Ok(Write { block, decision })
}

/// A cut, mostly accepted, after which some of the blocks that it covers have another base page.
fn random_cut(rng: &mut Rng, ground: &Ground, state: &State) -> Step {
    let k = rng.between(0, ground.n + 1);
    let mut bases = state.bases.clone();
    for base in bases.iter_mut().skip(k) {
        if rng.chance(40) {
            *base = base_page(rng);
        }
    }
    Step::Cut { k: k as u64, bases }
}

/// A run of whole writes and cuts, with what it has led to before each step and in the end.
struct Run {
    ground: Ground,
    steps: Vec<Step>,
    states: Vec<State>,
    /// Which steps are accepted writes.
    accepted: Vec<bool>,
}

impl Run {
    fn draw(
        harness: &mut Harness,
        rng: &mut Rng,
        ground: Ground,
        length: usize,
    ) -> Result<Run, Mismatch> {
        let mut state = ground.fresh(harness, rng)?;
        let (mut steps, mut states, mut accepted) = (Vec::new(), Vec::new(), Vec::new());
        for _ in 0..length {
            let step = if rng.chance(ground.cuts) {
                random_cut(rng, &ground, &state)
            } else {
                Step::Write(random_write(harness, rng, &ground, &state)?)
            };
            states.push(state.clone());
            let done = step.take(harness, &mut state, ALL)?;
            accepted.push(done && matches!(step, Step::Write(_)));
            steps.push(step);
        }
        states.push(state);
        Ok(Run { ground, steps, states, accepted })
    }

    /// The accepted writes, and where they stand.
    fn writes(&self) -> impl Iterator<Item = (usize, &Write)> {
        let steps = self.steps.iter().zip(&self.accepted).enumerate();
        steps.filter_map(|(number, (step, accepted))| match step {
            Step::Write(write) if *accepted => Some((number, write)),
            _ => None,
        })
    }
}

fn go_on(harness: &mut Harness, state: &mut State, steps: &[Step]) -> Result<(), Mismatch> {
    steps.iter().try_for_each(|step| step.take(harness, state, ALL).map(|_| ()))
}

/// Each block reads as the dictionary says, be it swept or not.
fn check_reads(harness: &mut Harness, rng: &mut Rng, state: &State) -> Result<(), Mismatch> {
    for block in 0..state.bases.len() {
        let base = state.base(rng, block);
        let lent = vec![state.patch.clone(), state.full.clone(), base, vec![0xD4; PAGE]];
        let read = harness.check(&Input::new(Call::Read, lent).at_block(block as u64))?;
        let kind = state.kind(block);
        demand(read.answer == Answer::of(&[0, kind.into()]), || {
            format!("block {block} of kind {kind} reads with {:?}", read.answer.0)
        })?;
        if let Some(found) = first_difference(&read.buffers[3], &state.standing(block)) {
            return demand(false, || format!("block {block} reads wrongly: {found}"));
        }
    }
    Ok(())
}

/// After a sweep: the bytes are those of the dictionary, and sweeping again changes none. Build accepts,
/// and by the map that it makes, which the run goes on with, each block reads as by its slot.
fn check_swept(
    harness: &mut Harness,
    rng: &mut Rng,
    ground: &Ground,
    state: &mut State,
) -> Result<(), Mismatch> {
    let full = state.full.clone();
    state.sweep(harness)?;
    demand(state.full == full, || "a second sweep changed the full area".to_string())?;
    let lent = vec![state.patch.clone(), state.full.clone(), vec![0x78; (ground.n + 3) / 4]];
    let Outcome { answer, mut buffers } = harness.check(&Input::new(Call::Build, lent))?;
    demand(answer.number() == 0, || format!("Build after a sweep gives {:?}", answer.0))?;
    let map = buffers.swap_remove(2);
    for block in 0..ground.n {
        let base = state.base(rng, block);
        state.read_by_map(harness, &map, block, base)?;
    }
    if state.map.is_some() {
        state.map = Some(map);
    }
    let written_out = state.written_out(ground);
    demand(state.same_bytes(&written_out), || {
        format!("swept, and not what counts: {}", state.difference(&written_out))
    })
}

/// The same write once more, told all: nothing is left of the stop.
fn check_told_all(
    harness: &mut Harness,
    ground: &Ground,
    stopped: &State,
    Write { block, decision }: &Write,
) -> Result<(), Mismatch> {
    let mut whole = stopped.clone();
    whole.carry_out(harness, *block, decision.clone(), ALL)?;
    let written_out = whole.written_out(ground);
    demand(whole.same_bytes(&written_out), || {
        format!("told all after a stop: {}", whole.difference(&written_out))
    })
}

/// One write of the run told fewer stores than all, and all that is demanded of it.
fn stop_one(
    harness: &mut Harness,
    rng: &mut Rng,
    run: &Run,
    (number, write): (usize, &Write),
    stores: u64,
    met: &mut Met,
) -> Result<(), Mismatch> {
    let before = &run.states[number];
    let mut state = before.clone();
    let accepted = run.steps[number].take(harness, &mut state, stores)?;
    demand(accepted && state.map == before.map, || {
        format!("told {stores}, accepted: {accepted}, map {:02X?}", state.map)
    })?;
    check_reads(harness, rng, &state)?;
    check_told_all(harness, &run.ground, &state, write)?;
    met.add(&run.ground, before, write, stores);

    let left = &run.steps[number + 1..];
    let length = if rng.chance(50) { left.len() } else { rng.below(left.len() + 1) };
    go_on(harness, &mut state, &left[..length])?;
    met.add_rest(run, number, length, write.block);
    let ended = if before.counts(write.block, write.decision.kind, stores) {
        run.states[number + 1 + length].clone()
    } else {
        let mut without = before.clone();
        go_on(harness, &mut without, &left[..length])?;
        without
    };
    state.sweep(harness)?;
    demand(state.patch == ended.patch && state.full == ended.full, || {
        let difference = state.difference(&ended);
        format!("write {number} told {stores}, {length} more, swept: {difference}")
    })?;
    check_swept(harness, rng, &run.ground, &mut state)
}

/// A run with several stops in it, and sweeps anywhere. The map is kept on from sweep to sweep.
fn stop_several(
    harness: &mut Harness,
    rng: &mut Rng,
    run: &Run,
    met: &mut Met,
) -> Result<(), Mismatch> {
    let mut state = run.ground.fresh(harness, rng)?;
    for (step, is_write) in run.steps.iter().zip(&run.accepted) {
        let stores = rng.pick(&[0, 1, 1, ALL, ALL, ALL]);
        step.take(harness, &mut state, stores)?;
        met.several += u64::from(*is_write && stores != ALL);
        if rng.chance(20) {
            check_reads(harness, rng, &state)?;
        }
        if rng.chance(12) {
            state.sweep(harness)?;
            check_swept(harness, rng, &run.ground, &mut state)?;
            met.sweeps_between += 1;
        }
    }
    met.runs_of_several += 1;
    check_reads(harness, rng, &state)?;
    state.sweep(harness)?;
    check_swept(harness, rng, &run.ground, &mut state)
}

/// Few blocks, so that a run comes back to them, and mostly with a place each.
fn ground(rng: &mut Rng, most_blocks: usize) -> Ground {
    let n = rng.between(1, most_blocks);
    let m = if rng.chance(60) { Some(n) } else { generate::pages(rng, n) };
    let mut ground = Ground::of(rng, n, m);
    ground.cuts = rng.pick(&[0, 10, 25]);
    ground
}

/// A short run stopped at every store of every write, and a longer one with several stops.
pub fn run(harness: &mut Harness, rng: &mut Rng, met: &mut Met) -> Result<(), Mismatch> {
    let (few, length) = (ground(rng, 4), rng.between(2, 9));
    let short = Run::draw(harness, rng, few, length)?;
    for write in short.writes() {
        for stores in [0, 1] {
            stop_one(harness, rng, &short, write, stores, met)?;
        }
    }
    let (more, length) = (ground(rng, 8), rng.between(10, 40));
    let longer = Run::draw(harness, rng, more, length)?;
    stop_several(harness, rng, &longer, met)
}
