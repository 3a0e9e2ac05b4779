//! Every short payload over a few bytes, every long jump, and longer payloads drawn at random, held to the
//! demand on readers:
//!
//! * the entries that a reader gives, joined, are those that Apply uses;
//! * of a payload that is not sound it gives those before the offset that Apply gives, and stops there;
//! * once it has ended or stopped it stays where it is;
//! * a sound payload is the one spelling of its entries: no other bytes list the same;
//! * both reads and Build give the same offset for a slot with that payload, and Build its block;
//! * carried out as a patch, with a map and without, it is refused with 7 just where Apply gives 7, and
//!   without an offset; where it is taken, Show gives its bytes, and Read Apply's page.
//!
//! Every call of it is also compared with the independent implementation.

use crate::call::{
    first_difference, Answer, Call, Input, Outcome, BEGINNING, FULL_HEADER, PAGE, PATCH_HEADER,
    PAYLOAD, SLOT,
};
use crate::generate::{self, Areas, Decision};
use crate::harness::{Harness, Mismatch};
use crate::rng::Rng;

/// Jumps of 0, 1 and the largest short one, the mark of the long code, and the high byte of 8,192. As low
/// and high bytes they make 0, 1, 254, 255, 256 and 510 among others.
const ALPHABET: [u8; 5] = [0x00, 0x01, 0xFE, 0xFF, 0x20];
/// Long enough for one entry with the long code, two with the short one, and all that is cut off.
const LONGEST: u32 = 4;
/// Blocks of the store that holds the payload, and the block that does.
const BLOCKS: usize = 3;
const BLOCK: usize = 1;

/// All that a reader gave, and how it ended.
struct Readout {
    entries: Vec<(usize, u8)>,
    number: i128,
    at: i128,
}

fn demand(holds: bool, payload: &[u8], what: impl FnOnce() -> String) -> Result<(), Mismatch> {
    if holds {
        return Ok(());
    }
    let input = format!("payload {payload:02X?}");
    Err(Mismatch { side: "demand on readers", input, found: what() })
}

/// Steps from the beginning until there is no entry, and twice more.
fn read_through(harness: &mut Harness, payload: &[u8]) -> Result<Readout, Mismatch> {
    let mut stands = BEGINNING;
    let mut entries = Vec::new();
    loop {
        let [number, found, at, position, value] = step(harness, payload, stands)?.0;
        if found == 0 {
            for _ in 0..2 {
                let again = step(harness, payload, (at as u64, position as i32))?.0;
                let same = again == [number, 0, at, position, 0];
                demand(same, payload, || format!("{again:?} after a reader had ended at {at}"))?;
            }
            return Ok(Readout { entries, number, at });
        }
        let goes_on = at > stands.0.into() && at <= payload.len() as i128;
        let goes_on = goes_on && (0..PAGE as i128).contains(&position);
        demand(goes_on, payload, || {
            format!("an entry that leads from {stands:?} to {at} and {position}")
        })?;
        entries.push((position as usize, value as u8));
        stands = (at as u64, position as i32);
    }
}

fn step(harness: &mut Harness, payload: &[u8], stands: (u64, i32)) -> Result<Answer, Mismatch> {
    Ok(harness.check(&Input::step(payload, stands))?.answer)
}

/// What Apply made of a payload.
struct Applied {
    number: i128,
    offset: i128,
    /// The page, if it was done.
    page: Vec<u8>,
}

/// Apply over a base of zeros, held against what the reader gave.
fn apply(harness: &mut Harness, payload: &[u8], gave: &Readout) -> Result<Applied, Mismatch> {
    let buffers = vec![Vec::new(), payload.to_vec(), vec![0xEE; PAGE]];
    let outcome = harness.check(&Input::new(Call::Apply, buffers))?;
    let [number, entries, last, offset, _] = outcome.answer.0;
    let Readout { at, .. } = *gave;
    demand(number == gave.number, payload, || {
        format!("Apply gives {number}, a reader ends with {}", gave.number)
    })?;
    if number != 0 {
        let stops = at == offset;
        demand(stops, payload, || format!("Apply gives offset {offset}, a reader stops at {at}"))?;
        return Ok(Applied { number, offset, page: Vec::new() });
    }
    demand(at == payload.len() as i128, payload, || format!("a reader ends at {at}"))?;
    let mut page = vec![0; PAGE];
    gave.entries.iter().for_each(|(position, value)| page[*position] = *value);
    let counted = [gave.entries.len() as i128, gave.entries.last().map_or(-1, |e| e.0 as i128)];
    demand(counted == [entries, last], payload, || {
        format!("Apply says {entries} entries up to {last}, a reader gave {counted:?}")
    })?;
    let difference = first_difference(&outcome.buffers[2], &page);
    demand(difference.is_none(), payload, || {
        format!("Apply and a reader make other pages: {difference:?}")
    })?;
    Ok(Applied { number, offset, page })
}

/// Both reads and Build of a store with the payload in a PATCH slot.
fn in_a_slot(
    harness: &mut Harness,
    payload: &[u8],
    &Applied { number, offset, .. }: &Applied,
) -> Result<(), Mismatch> {
    let Areas { mut patch, full } = Areas::fresh(BLOCKS, None);
    let start = PATCH_HEADER + SLOT * BLOCK;
    patch[start..start + SLOT].copy_from_slice(&generate::patch_slot(payload));
    let lent = vec![patch.clone(), full.clone(), Vec::new(), vec![0xEE; PAGE]];
    let mut mapped = lent.clone();
    let mut map = vec![0; 1];
    generate::set_pair(&mut map, BLOCK, 2);
    mapped.insert(2, map);
    let read = harness.check(&Input::new(Call::Read, lent).at_block(BLOCK as u64))?.answer.0;
    let by_map = Input::new(Call::ReadMapped, mapped).at_block(BLOCK as u64);
    let by_map = harness.check(&by_map)?.answer.0;
    let built = harness.check(&Input::new(Call::Build, vec![patch, full, vec![0xEE; 1]]))?.answer.0;
    let found = [[read[0], read[2]], [by_map[0], by_map[2]], [built[0], built[2]]];
    demand(found == [[number, offset]; 3], payload, || {
        format!("Apply gives {number} and offset {offset}, both reads and Build give {found:?}")
    })?;
    let named = if number == 0 { 0 } else { BLOCK as i128 };
    demand(built[1] == named, payload, || format!("Build gives {number} at block {}", built[1]))
}

/// The payload carried out, with a map and without, over a slot and a place that hold something else. It
/// is 7 without an offset where Apply gave 7, else the block shows the payload and reads as Apply's page.
/// The page beside it has no bytes, or those that Apply made: it is not looked at.
fn carried_out(harness: &mut Harness, payload: &[u8], made: &Applied) -> Result<(), Mismatch> {
    let Areas { mut patch, mut full } = Areas::fresh(BLOCKS, Some(BLOCKS));
    patch[PATCH_HEADER + SLOT * BLOCK..][..SLOT].fill(0x3C);
    full[FULL_HEADER + PAGE * BLOCK..][..PAGE].fill(0x3C);
    let decision = Decision { kind: 1, payload: payload.to_vec(), page: made.page.clone() };
    let block = BLOCK as u64;
    let lent = vec![patch, full];
    let plain = harness.check(&decision.input(Call::CarryOut, lent.clone(), block))?;
    let with_map = [&lent[..], &[vec![0xFF]]].concat();
    let mapped = harness.check(&decision.input(Call::CarryOutMapped, with_map, block))?;
    let (expected, map) = match made.number {
        0 => (Answer::of(&[0, 1, payload.len() as i128]), 0xFB),
        _ => (Answer::of(&[7]), 0xFF),
    };
    let answers = [plain.answer, mapped.answer];
    demand(answers == [expected; 2], payload, || {
        format!("Apply gives {}, carried out {answers:?}", made.number)
    })?;
    let alike = plain.buffers[..2] == mapped.buffers[..2] && mapped.buffers[2] == [map];
    demand(alike, payload, || "carried out otherwise with a map".to_string())?;
    if made.number != 0 {
        return demand(plain.buffers[..2] == lent, payload, || "bytes of 7 changed".to_string());
    }
    shown_and_read(harness, payload, plain, &made.page)
}

/// A block after its payload was taken. Of its old place zeros are left.
fn shown_and_read(
    harness: &mut Harness,
    payload: &[u8],
    taken: Outcome,
    page: &[u8],
) -> Result<(), Mismatch> {
    let block = BLOCK as u64;
    let [patch, full] = [&taken.buffers[0], &taken.buffers[1]];
    let zeros = full[FULL_HEADER..].iter().all(|byte| *byte == 0);
    demand(zeros, payload, || "taken, but its place is not zeros".to_string())?;
    let show = Input::new(Call::Show, vec![patch.clone()]).at_block(block);
    let [at, length, ..] = harness.check(&show)?.answer.0.map(|member| member as usize);
    let shown = patch.get(at..at + length);
    demand(shown == Some(payload), payload, || format!("taken, but {shown:02X?} is shown"))?;
    let buffers = vec![patch.clone(), full.clone(), Vec::new(), vec![0xEE; PAGE]];
    let read = harness.check(&Input::new(Call::Read, buffers).at_block(block))?;
    let difference = first_difference(&read.buffers[3], page);
    demand(read.answer == Answer::of(&[0, 1]) && difference.is_none(), payload, || {
        format!("taken, but read with {:?}: {difference:?}", read.answer)
    })
}

/// The writer's spelling of entries in rising order.
fn spelled(entries: &[(usize, u8)]) -> Vec<u8> {
    let mut bytes = Vec::new();
    let mut next = 0;
    for (position, value) in entries {
        let jump = position - next;
        if jump >= 255 {
            bytes.extend([255, (jump % 256) as u8, (jump / 256) as u8]);
        } else {
            bytes.push(jump as u8);
        }
        bytes.push(*value);
        next = position + 1;
    }
    bytes
}

/// One payload with all that is demanded.
fn check_one(harness: &mut Harness, payload: &[u8]) -> Result<Readout, Mismatch> {
    let gave = read_through(harness, payload)?;
    let applied = apply(harness, payload, &gave)?;
    let otherwise =
        || format!("sound, but its entries are spelled {:02X?}", spelled(&gave.entries));
    demand(gave.number != 0 || spelled(&gave.entries) == payload, payload, otherwise)?;
    if (1..=PAYLOAD).contains(&payload.len()) {
        in_a_slot(harness, payload, &applied)?;
    }
    carried_out(harness, payload, &applied)?;
    Ok(gave)
}

/// The payload of this length with this number, its bytes being the digits.
fn numbered(length: u32, number: usize) -> Vec<u8> {
    let digit = |place: u32| number / ALPHABET.len().pow(place) % ALPHABET.len();
    (0..length).map(|place| ALPHABET[digit(place)]).collect()
}

/// Every payload of up to four bytes over the alphabet.
pub fn every_short_one(harness: &mut Harness) -> Result<(), Mismatch> {
    for length in 0..=LONGEST {
        for number in 0..ALPHABET.len().pow(length) {
            check_one(harness, &numbered(length, number))?;
        }
    }
    Ok(())
}

/// Where the answer changes, or would by a wrong test: small jumps, those around each multiple of 256, and
/// those around the page's end and the largest.
fn near_an_edge(jump: &u16) -> bool {
    let around_a_multiple = [0, 1, 254, 255].contains(&(jump % 256));
    *jump <= 600 || around_a_multiple || (8_185..=8_195).contains(jump) || *jump >= 65_530
}

/// The long code with a jump, in an entry that stands alone or after one that changes byte 0.
fn long_jump(harness: &mut Harness, jump: u16, before: &[(usize, u8)]) -> Result<(), Mismatch> {
    const VALUE: u8 = 5;
    let [low, high] = jump.to_le_bytes();
    let start = spelled(before);
    let payload = [&start[..], &[0xFF, low, high, VALUE]].concat();
    let gave = check_one(harness, &payload)?;
    let position = usize::from(jump) + before.len();
    let mut entries = before.to_vec();
    let ends = if jump >= 255 && position < PAGE {
        entries.push((position, VALUE));
        (0, payload.len() as i128)
    } else {
        (7, start.len() as i128)
    };
    let (number, at) = (gave.number, gave.at);
    demand((number, at) == ends && gave.entries == entries, &payload, || {
        format!("{:?}, then {number} at {at}, where {ends:?} is right", gave.entries)
    })
}

/// Every 16-bit jump in the long code, or only those near an edge, in a first entry and in a second. What
/// must come of it is the rule itself: from 255 to the page's end they are sound.
pub fn every_long_jump(harness: &mut Harness, near_edges_only: bool) -> Result<(), Mismatch> {
    for jump in (0..=u16::MAX).filter(|jump| !near_edges_only || near_an_edge(jump)) {
        for before in [&[][..], &[(0, 1)]] {
            long_jump(harness, jump, before)?;
        }
    }
    Ok(())
}

/// A longer payload of any sort.
pub fn a_longer_one(harness: &mut Harness, rng: &mut Rng) -> Result<(), Mismatch> {
    let payload = if rng.chance(50) {
        generate::payload(rng)
    } else {
        let length = rng.between(5, PAYLOAD + 2);
        (0..length).map(|_| rng.pick(&ALPHABET)).collect()
    };
    check_one(harness, &payload).map(|_| ())
}

#[cfg(test)]
mod tests {
    use super::*;

    #[test]
    fn every_payload_is_made_once() {
        let mut all: Vec<Vec<u8>> = Vec::new();
        for length in 0..=LONGEST {
            all.extend((0..ALPHABET.len().pow(length)).map(|number| numbered(length, number)));
        }
        all.sort();
        all.dedup();
        assert_eq!(all.len(), 1 + 5 + 25 + 125 + 625);
    }

    /// A quick run has every jump around the least long one and around the page's end.
    #[test]
    fn a_quick_run_has_the_edges() {
        let quick: Vec<u16> = (0..=u16::MAX).filter(near_an_edge).collect();
        for edge in [0, 253, 254, 255, 256, 510, 511, 8_190, 8_191, 8_192, 65_535] {
            assert!(quick.contains(&edge), "{edge}");
        }
        assert!(quick.len() < 2_000, "{} jumps", quick.len());
    }

    #[test]
    fn entries_are_spelled_by_the_writers_rule() {
        let entries = [(0, 7), (255, 1), (511, 2), (8_191, 3)];
        let bytes = [0, 7, 254, 1, 255, 255, 0, 2, 255, 255, 29, 3];
        assert_eq!(spelled(&entries), bytes);
    }
}
