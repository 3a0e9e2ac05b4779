//! The largest areas: 131,072 blocks without a full area, and with one of the same number of pages.
//!
//! The areas lie in mappings that take no room where nothing was written, one of each for every side,
//! and flush with forbidden memory at their end. After every call all of them are compared from end
//! to end.

use std::fs;

use crate::arena::{Flush, Room};
use crate::call::{
    first_difference, Answer, Call, Input, Numbers, ALL, FULL_HEADER, MAX_BLOCKS, PAGE,
    PATCH_HEADER, SLOT,
};
use crate::generate::{Areas, Decision};
use crate::harness::{Harness, Mismatch};
use crate::pair;
use crate::sides::{self, Lent, SafeSide};

const LAST: u64 = MAX_BLOCKS as u64 - 1;
const MAP: usize = MAX_BLOCKS / 4;

const fn patch_len(n: usize) -> usize {
    PATCH_HEADER + SLOT * n
}

const fn full_len(m: usize) -> usize {
    FULL_HEADER + PAGE * m
}

/// One area of one side.
struct Area {
    room: Room,
    length: usize,
}

impl Area {
    fn new(length: usize) -> Area {
        let mut room = Room::new(length);
        room.watch(length, Flush::Back);
        Area { room, length }
    }

    fn bytes(&mut self) -> &mut [u8] {
        self.room.bytes(self.length, Flush::Back)
    }

    fn difference(&mut self, other: &mut Area) -> Option<String> {
        if !self.room.unharmed(self.length, Flush::Back) {
            return Some("bytes before it were changed".to_string());
        }
        first_difference(self.bytes(), other.bytes())
    }
}

/// Both areas of one side.
struct Store {
    patch: Area,
    full: Area,
}

impl Store {
    fn lent(&mut self, call: Call) -> Vec<&mut [u8]> {
        match call {
            Call::Show | Call::Highest => vec![self.patch.bytes()],
            _ => vec![self.patch.bytes(), self.full.bytes()],
        }
    }

    fn difference(&mut self, other: &mut Store) -> Option<String> {
        let patch = self.patch.difference(&mut other.patch);
        let full = self.full.difference(&mut other.full);
        patch
            .map(|found| format!("patch area: {found}"))
            .or_else(|| full.map(|found| format!("full area: {found}")))
    }
}

/// What came of a call besides the areas: its answer and the pages or the map that it was lent.
type Came = (Answer, Vec<Vec<u8>>);

/// The same areas for each side.
struct Stores<'h> {
    harness: &'h mut Harness,
    library: Store,
    wrapper: Store,
    independent: Store,
}

impl<'h> Stores<'h> {
    /// Areas of these sizes with sound headers; all else in a new mapping is zero as it should be.
    fn new(harness: &'h mut Harness, n: usize, m: Option<usize>) -> Stores<'h> {
        let headers = Areas::fresh(0, m.map(|_| 0));
        let store = || {
            let full = Area::new(m.map_or(0, full_len));
            let mut store = Store { patch: Area::new(patch_len(n)), full };
            store.patch.bytes()[..PATCH_HEADER].copy_from_slice(&headers.patch);
            store.full.bytes()[..headers.full.len()].copy_from_slice(&headers.full);
            store
        };
        Stores { harness, library: store(), wrapper: store(), independent: store() }
    }

    fn poke_patch(&mut self, at: usize, byte: u8) {
        for store in [&mut self.library, &mut self.wrapper, &mut self.independent] {
            store.patch.bytes()[at] = byte;
        }
    }

    fn poke_full(&mut self, at: usize, byte: u8) {
        for store in [&mut self.library, &mut self.wrapper, &mut self.independent] {
            store.full.bytes()[at] = byte;
        }
    }

    /// The call over the C interface, its other buffers in the rooms of the harness.
    fn on_library(
        &mut self,
        call: Call,
        told: &Numbers,
        small: &[Vec<u8>],
    ) -> Result<Came, String> {
        let others = self.harness.lend(small);
        let mut lent: Vec<Lent> = self.library.lent(call).into_iter().map(Lent::of).collect();
        lent.extend(&others);
        // SAFETY: every buffer has a room of its own.
        let answer = unsafe { sides::library(call, &lent, told) };
        match self.harness.take_back(&others) {
            Ok(after) => Ok((answer, after)),
            Err(_) => Err("bytes beside a page or map were changed".to_string()),
        }
    }

    /// Makes the call on all sides and compares answers and every byte. Gives the pages and the map
    /// afterwards.
    fn check_giving(
        &mut self,
        call: Call,
        told: Numbers,
        small: &[Vec<u8>],
        expected: &[i128],
    ) -> Result<Vec<Vec<u8>>, Mismatch> {
        let [patch, full] = [self.library.patch.length, self.library.full.length];
        let (name, Numbers { block, kind, stores, .. }) = (call.name(), told);
        let input = format!(
            "{name} of block {block}, kind {kind}, stores {stores}, areas of {patch} and {full} bytes"
        );
        if self.harness.trace {
            println!("{input}");
        }
        let library = self.on_library(call, &told, small);
        let wrapper = on_store(sides::wrapper, &mut self.wrapper, call, &told, small);
        let came = on_store(sides::independent, &mut self.independent, call, &told, small);
        let came = came.expect("it has every call");
        // Without the wrapper only calls are made that are refused, so that its areas stay alike.
        let wrapped = wrapper.is_some();
        let wrapper = wrapper.unwrap_or_else(|| came.clone());
        let model = &mut self.independent;
        let found = hold("C interface", library, &mut self.library, &came, model)
            .or_else(|| hold("Rust wrapper", Ok(wrapper), &mut self.wrapper, &came, model))
            .or_else(|| {
                let expected = Answer::of(expected);
                (came.0 != expected).then(|| ("by hand", other_answer(&came.0, &expected)))
            });
        match found {
            Some((side, found)) => Err(Mismatch { side, input, found }),
            None => {
                if wrapped {
                    self.harness.counts.add_by_wrapper(call, &told, &came.0);
                }
                self.harness.count(call, &told, &came.0);
                Ok(came.1)
            }
        }
    }

    fn check(
        &mut self,
        call: Call,
        block: u64,
        small: &[Vec<u8>],
        expected: &[i128],
    ) -> Result<(), Mismatch> {
        self.check_giving(call, at_block(block), small, expected).map(|_| ())
    }

    /// A page over a base of zeros, written by the pair: Compare decides, and that is carried out.
    fn write(&mut self, block: u64, page: &[u8], expected: &[i128]) -> Result<(), Mismatch> {
        self.write_told(ALL, block, page, expected)
    }

    /// The same, told so many stores.
    fn write_told(
        &mut self,
        stores: u64,
        block: u64,
        page: &[u8],
        expected: &[i128],
    ) -> Result<(), Mismatch> {
        let (told, small) = self.decided(block, page)?;
        let told = Numbers { stores, ..told };
        self.check_giving(Call::CarryOut, told, &small, expected).map(|_| ())
    }

    /// A decision that Compare does not make, and that is refused.
    fn refuse(&mut self, block: u64, decision: Decision, number: i128) -> Result<(), Mismatch> {
        let Decision { kind, payload, page } = decision;
        let told = Numbers { kind, ..at_block(block) };
        self.check_giving(Call::CarryOut, told, &[payload, page], &[number]).map(|_| ())
    }

    /// What carrying out is told and lent after the areas and the map.
    fn decided(&mut self, block: u64, page: &[u8]) -> Result<(Numbers, [Vec<u8>; 2]), Mismatch> {
        let Decision { kind, payload, page } =
            pair::decide(self.harness, &[], page)?.expect("a page of a sound length");
        Ok((Numbers { kind, ..at_block(block) }, [payload, page]))
    }

    fn read(&mut self, block: u64, expected: &[i128]) -> Result<(), Mismatch> {
        self.check(Call::Read, block, &[Vec::new(), vec![0xAB; PAGE]], expected)
    }

    fn cut(&mut self, k: u64, expected: &[i128]) -> Result<(), Mismatch> {
        self.check(Call::Cut, k, &[], expected)
    }

    fn highest(&mut self, expected: &[i128]) -> Result<(), Mismatch> {
        self.check(Call::Highest, 0, &[], expected)
    }

    fn sweep(&mut self, expected: &[i128]) -> Result<(), Mismatch> {
        self.check(Call::Sweep, 0, &[], expected)
    }

    /// A sweep of areas that are mostly holes, which stay holes on every side.
    fn sweep_of_holes(&mut self, expected: &[i128]) -> Result<(), Mismatch> {
        /// For three areas of 1 GiB whose holes would be filled.
        const FEW_KIB: u64 = 64 << 10;
        let before = resident_kib();
        self.sweep(expected)?;
        match (before, resident_kib()) {
            (Some(before), Some(after)) if after > before + FEW_KIB => {
                let found = format!("{before} KiB in use before it, {after} after it");
                Err(Mismatch {
                    side: "demand on sweeps",
                    input: "sweep of holes".to_string(),
                    found,
                })
            }
            _ => Ok(()),
        }
    }

    fn build(&mut self, expected: &[i128]) -> Result<(), Mismatch> {
        self.check(Call::Build, 0, &[vec![0xAB; MAP + 3]], expected)
    }

    /// The same with the map, which stays with the caller.
    fn write_with(
        &mut self,
        map: &mut Vec<u8>,
        block: u64,
        page: &[u8],
        expected: &[i128],
    ) -> Result<(), Mismatch> {
        let (told, [payload, page]) = self.decided(block, page)?;
        let small = [map.clone(), payload, page];
        *map = self.check_giving(Call::CarryOutMapped, told, &small, expected)?.swap_remove(0);
        Ok(())
    }

    fn read_mapped(&mut self, map: &[u8], block: u64, expected: &[i128]) -> Result<(), Mismatch> {
        let small = [map.to_vec(), Vec::new(), vec![0xAB; PAGE]];
        self.check(Call::ReadMapped, block, &small, expected)
    }

    /// A cut that is lent the map, which stays with the caller.
    fn cut_mapped(&mut self, map: &mut Vec<u8>, k: u64, expected: &[i128]) -> Result<(), Mismatch> {
        let small = std::slice::from_ref(map);
        *map = self.check_giving(Call::CutMapped, at_block(k), small, expected)?.swap_remove(0);
        Ok(())
    }

    /// Build makes this map.
    fn build_makes(&mut self, map: &[u8]) -> Result<(), Mismatch> {
        let built = self.check_giving(Call::Build, at_block(0), &[vec![0xAB; MAP]], &[0])?;
        let built = &built[0];
        match first_difference(map, built) {
            None => Ok(()),
            Some(found) => {
                let input = "a map lent to every decision".to_string();
                Err(Mismatch { side: "demand on maps", input, found })
            }
        }
    }
}

fn on_store(
    side: SafeSide,
    store: &mut Store,
    call: Call,
    told: &Numbers,
    small: &[Vec<u8>],
) -> Option<Came> {
    let mut after = small.to_vec();
    let mut lent = store.lent(call);
    lent.extend(after.iter_mut().map(Vec::as_mut_slice));
    Some((side(call, &mut lent, told)?, after))
}

fn at_block(block: u64) -> Numbers {
    Numbers { block, ..Numbers::default() }
}

fn other_answer(got: &Answer, want: &Answer) -> String {
    format!("answer {:?}, expected {:?}", got.0, want.0)
}

/// What came of a call on one side, held to the independent implementation. Says what differs.
fn hold(
    side: &'static str,
    came: Result<Came, String>,
    store: &mut Store,
    want: &Came,
    model: &mut Store,
) -> Option<(&'static str, String)> {
    let found = match came {
        Err(harm) => Some(harm),
        Ok((answer, _)) if answer != want.0 => Some(other_answer(&answer, &want.0)),
        Ok((_, small)) if small != want.1 => Some("a page or map differs".to_string()),
        Ok(_) => store.difference(model),
    };
    found.map(|found| (side, found))
}

fn small_change() -> Vec<u8> {
    let mut page = vec![0; PAGE];
    page[PAGE - 1] = 1;
    page
}

/// n = 131,072 and no full area.
fn without_full_area(harness: &mut Harness) -> Result<(), Mismatch> {
    let mut stores = Stores::new(harness, MAX_BLOCKS, None);
    stores.check(Call::Format, 0, &[], &[0])?;
    stores.write(0, &small_change(), &[0, 1, 4])?;
    stores.write(LAST, &small_change(), &[0, 1, 4])?;
    stores.write(LAST, &[9; PAGE], &[8])?;
    stores.write(LAST + 1, &small_change(), &[5])?;
    stores.write(u64::MAX, &small_change(), &[5])?;
    stores.write(1 << 55, &small_change(), &[5])?;
    for (block, kind, number) in [(LAST, 3, 6), (LAST, 1, 7), (LAST, 2, 1), (LAST + 1, 3, 5)] {
        let decision = Decision { kind, payload: vec![0], page: vec![9; PAGE - 1] };
        stores.refuse(block, decision, number)?;
    }
    stores.read(LAST, &[0, 1])?;
    stores.read(LAST - 1, &[0, 0])?;
    stores.read(LAST + 1, &[5])?;
    stores.check(Call::Show, LAST, &[], &[67_108_864 + 8, 4])?;
    stores.check(Call::Show, LAST + 1, &[], &[0, 0])?;
    stores.build(&[0])?;
    stores.check(Call::Build, 0, &[vec![0xAB; MAP - 1]], &[9])?;

    // The last block's payload gets a fifth byte, the jump of an entry without a value.
    stores.poke_patch(patch_len(MAX_BLOCKS - 1) + 2, 5);
    stores.build(&[7, i128::from(LAST), 4])?;
    stores.read(LAST, &[7, 0, 4])?;
    stores.sweep(&[0])?;
    stores.poke_patch(patch_len(MAX_BLOCKS) - 1, 1);
    stores.build(&[6, i128::from(LAST)])?;
    stores.sweep(&[6])?;
    stores.read(LAST, &[6])?;
    stores.write(LAST, &[0; PAGE], &[0, 0, 0])?;
    stores.build(&[0])
}

/// 131,072 blocks cut short, and how many of them are left in use.
fn cut_short(harness: &mut Harness) -> Result<(), Mismatch> {
    let mut stores = Stores::new(harness, MAX_BLOCKS, None);
    stores.highest(&[0, 0])?;
    for block in [0, 65_535, 65_536, LAST] {
        stores.write(block, &small_change(), &[0, 1, 4])?;
    }
    stores.highest(&[0, 131_072])?;
    for beyond in [LAST + 2, 1 << 55] {
        stores.cut(beyond, &[5])?;
    }
    stores.cut(LAST + 1, &[0])?;
    // An unsound slot far below counts for the highest block and not for a cut.
    stores.poke_patch(patch_len(1), 9);
    stores.highest(&[6])?;
    stores.cut(LAST, &[0])?;
    stores.highest(&[6])?;
    stores.poke_patch(patch_len(1), 0);
    stores.highest(&[0, 65_537])?;
    stores.cut(65_536, &[0])?;
    stores.highest(&[0, 65_536])?;
    stores.cut(0, &[0])?;
    stores.highest(&[0, 0])
}

fn one_block_too_many(harness: &mut Harness) -> Result<(), Mismatch> {
    let mut stores = Stores::new(harness, MAX_BLOCKS + 1, None);
    stores.check(Call::Format, 0, &[], &[2])?;
    stores.write(0, &small_change(), &[2])?;
    stores.read(0, &[2])?;
    stores.check(Call::Show, 0, &[], &[0, 0])?;
    // A map that is long enough, and none.
    stores.read_mapped(&[0; MAP + 1], 0, &[2])?;
    stores.write_with(&mut Vec::new(), 0, &small_change(), &[2])?;
    stores.cut(0, &[2])?;
    stores.cut_mapped(&mut vec![0xAB; MAP + 1], 0, &[2])?;
    stores.highest(&[2])?;
    stores.sweep(&[2])?;
    stores.build(&[2])
}

/// n = m = 131,072.
fn with_full_area(harness: &mut Harness) -> Result<(), Mismatch> {
    let mut stores = Stores::new(harness, MAX_BLOCKS, Some(MAX_BLOCKS));
    stores.write(LAST, &[9; PAGE], &[0, 2, 0])?;
    stores.write(0, &[8; PAGE], &[0, 2, 0])?;
    stores.write(65_536, &small_change(), &[0, 1, 4])?;
    stores.read(LAST, &[0, 2])?;
    stores.build(&[0])?;

    // A stray byte at the end of the place before the last.
    stores.poke_full(full_len(MAX_BLOCKS - 1) - 1, 5);
    stores.build(&[10, i128::from(LAST - 1)])?;
    stores.write(LAST - 1, &[0; PAGE], &[0, 0, 0])?;
    stores.build(&[0])?;

    // Two writes stopped after one store: a page to which no slot refers yet, and one to which none refers
    // any more. An unsound slot at the end keeps both from the sweep.
    stores.write_told(1, 65_537, &[7; PAGE], &[0, 2, 0])?;
    stores.write_told(1, LAST, &small_change(), &[0, 1, 4])?;
    stores.poke_patch(patch_len(MAX_BLOCKS) - 1, 1);
    stores.sweep(&[6])?;
    stores.poke_patch(patch_len(MAX_BLOCKS) - 1, 0);
    stores.sweep_of_holes(&[0])?;
    stores.build(&[0])?;

    // The same byte again, and the last block: both go by a cut.
    stores.poke_full(full_len(MAX_BLOCKS - 1) - 1, 5);
    stores.cut(LAST - 1, &[0])?;
    stores.highest(&[0, 65_537])?;
    stores.build(&[0])
}

/// A map of 131,072 blocks, lent to every decision and gone by.
fn with_map(harness: &mut Harness) -> Result<(), Mismatch> {
    let mut stores = Stores::new(harness, MAX_BLOCKS, Some(1));
    let mut map = vec![0; MAP];
    stores.write_with(&mut map, LAST, &small_change(), &[0, 1, 4])?;
    stores.write_with(&mut map, 0, &[9; PAGE], &[0, 2, 0])?;
    stores.write_with(&mut map, 65_536, &small_change(), &[0, 1, 4])?;
    stores.write_with(&mut map, LAST, &[9; PAGE], &[8])?;
    for beyond in [LAST + 1, 1 << 55, u64::MAX] {
        stores.write_with(&mut map, beyond, &small_change(), &[5])?;
        stores.read_mapped(&map, beyond, &[5])?;
    }
    stores.build_makes(&map)?;
    stores.read_mapped(&map, LAST, &[0, 1])?;
    stores.read_mapped(&map, 0, &[0, 2])?;
    stores.read_mapped(&map, LAST - 1, &[0, 0])?;
    stores.read_mapped(&map[..MAP - 1], LAST, &[9])?;
    let mut short = map[..MAP - 1].to_vec();
    stores.write_with(&mut short, 0, &small_change(), &[9])?;

    // The last block by pair 1, for which it has no place, and by pair 3.
    map[MAP - 1] = 0x5F;
    stores.read_mapped(&map, LAST, &[8])?;
    map[MAP - 1] = 0xDF;
    stores.read_mapped(&map, LAST, &[11])?;
    stores.write_with(&mut map, LAST, &[0; PAGE], &[0, 0, 0])?;
    stores.read_mapped(&map, LAST, &[0, 0])?;

    // A cut takes the pairs from its block on, whatever they are, and no others.
    stores.cut_mapped(&mut short, LAST + 1, &[9])?;
    stores.cut_mapped(&mut map, LAST + 2, &[5])?;
    for (k, last_byte) in [(LAST + 1, 0x1F), (LAST - 1, 0x0F), (LAST - 2, 0x03)] {
        stores.cut_mapped(&mut map, k, &[0])?;
        if map[MAP - 1] != last_byte {
            let found = format!("the last byte of the map is {:02X}", map[MAP - 1]);
            return Err(Mismatch { side: "by hand", input: format!("cut at {k}"), found });
        }
    }
    stores.cut_mapped(&mut map, 65_536, &[0])?;
    stores.build_makes(&map)?;
    stores.cut_mapped(&mut map, 0, &[0])?;
    stores.build_makes(&map)
}

/// The last block refers to a page that the full area does not have.
fn one_page_fewer(harness: &mut Harness) -> Result<(), Mismatch> {
    let mut stores = Stores::new(harness, MAX_BLOCKS, Some(MAX_BLOCKS - 1));
    stores.poke_patch(patch_len(MAX_BLOCKS - 1), 2);
    stores.read(LAST, &[8])?;
    stores.sweep(&[8])?;
    stores.build(&[8, i128::from(LAST)])
}

fn more_pages_than_blocks(harness: &mut Harness) -> Result<(), Mismatch> {
    let mut stores = Stores::new(harness, MAX_BLOCKS, Some(MAX_BLOCKS + 1));
    stores.read(0, &[2])?;
    stores.cut(0, &[2])?;
    stores.build(&[2])
}

/// All of it except Format of a full area of 1 GiB.
pub fn check(harness: &mut Harness) -> Result<(), Mismatch> {
    without_full_area(harness)?;
    cut_short(harness)?;
    one_block_too_many(harness)?;
    with_full_area(harness)?;
    with_map(harness)?;
    one_page_fewer(harness)?;
    more_pages_than_blocks(harness)?;
    largest_maps(harness)
}

/// Look up and tally over 131,072 blocks.
fn largest_maps(harness: &mut Harness) -> Result<(), Mismatch> {
    let mut map = vec![0xAA; MAP];
    map[MAP - 1] = 0x6A;
    let n = MAX_BLOCKS as u64;
    let input = Input::new(Call::Tally, vec![map.clone()]).told(n);
    let answer = harness.check(&input)?.answer;
    let expected = Answer::of(&[0, 131_071, 1]);
    if answer != expected {
        let found = other_answer(&answer, &expected);
        return Err(Mismatch { side: "by hand", input: input.to_string(), found });
    }
    for block in [0, 1, n - 2, n - 1, n] {
        harness.check(&Input::new(Call::LookUp, vec![map.clone()]).told(n).at_block(block))?;
    }
    harness.check(&Input::new(Call::Tally, vec![map]).told(n + 1))?;
    Ok(())
}

/// Format of the largest areas, which fills 1 GiB on each side, and a cut of all of it. Says why if there
/// is no room.
pub fn check_format(harness: &mut Harness) -> Result<Option<String>, Mismatch> {
    const NEEDED_KIB: u64 = 5 << 20;
    match available_kib() {
        Some(kib) if kib >= NEEDED_KIB => {}
        found => {
            return Ok(Some(format!("{found:?} KiB of memory available, {NEEDED_KIB} needed")))
        }
    }
    let mut stores = Stores::new(harness, MAX_BLOCKS, Some(MAX_BLOCKS));
    stores.poke_patch(patch_len(MAX_BLOCKS) - 1, 1);
    stores.poke_full(full_len(MAX_BLOCKS) - 1, 1);
    stores.check(Call::Format, 0, &[], &[0])?;
    stores.build(&[0])?;
    stores.poke_patch(patch_len(0), 1);
    stores.poke_full(full_len(0), 1);
    stores.poke_full(full_len(MAX_BLOCKS) - 1, 1);
    stores.cut(0, &[0])?;
    stores.build(&[0])?;
    Ok(None)
}

/// What the system says it could give, in KiB.
fn available_kib() -> Option<u64> {
    kib_in("/proc/meminfo", "MemAvailable:")
}

/// The memory that this program has in use; holes of a mapping are not among it.
fn resident_kib() -> Option<u64> {
    kib_in("/proc/self/status", "VmRSS:")
}

fn kib_in(file: &str, name: &str) -> Option<u64> {
    let text = fs::read_to_string(file).ok()?;
    let line = text.lines().find(|line| line.starts_with(name))?;
    line.split_whitespace().nth(1)?.parse().ok()
}
