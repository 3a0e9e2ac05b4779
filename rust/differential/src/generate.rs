//! Random inputs: sound stores and pages, and damage of every sort done to them, often several at
//! once so that the order of refusals decides.

use crate::call::{
    Call, Input, ALL, BEGINNING, FULL_HEADER, MAX_BLOCKS, PAGE, PATCH_HEADER, PAYLOAD, SLOT,
};
use crate::rng::Rng;

// ---------------------------------------------------------------------------------------------
// Pages
// ---------------------------------------------------------------------------------------------

/// A base page. About a third of them stand for zeros, in one of both forms.
pub fn base(rng: &mut Rng) -> Vec<u8> {
    match rng.below(10) {
        0 | 1 => Vec::new(),
        2 => vec![0; PAGE],
        3 => vec![rng.byte(); PAGE],
        4..=6 => rng.bytes(PAGE),
        _ => page_like_postgresql(rng),
    }
}

/// A header, line pointers, free space of zeros, and rows at the end.
fn page_like_postgresql(rng: &mut Rng) -> Vec<u8> {
    let mut page = vec![0; PAGE];
    let lower = rng.between(24, 1000);
    let upper = rng.between(lower, PAGE);
    rng.fill(&mut page[..lower]);
    rng.fill(&mut page[upper..]);
    page
}

/// The page that a base stands for.
pub fn page_of_base(base: &[u8]) -> Vec<u8> {
    if base.is_empty() {
        vec![0; PAGE]
    } else {
        base.to_vec()
    }
}

/// How far apart changed bytes are. Jumps of 254 and 255 are where the code's length changes.
fn gap(rng: &mut Rng, habit: usize) -> usize {
    match habit {
        0 => 0,
        1 => rng.below(4),
        2 => rng.below(40),
        3 => rng.between(252, 257),
        4 => rng.pick(&[0, 0, 0, 0, 0, 0, 254, 255]),
        5 => rng.below(600),
        _ => rng.pick(&[0, 1, 30, 254, 255, 256, 511, 512, 1000]),
    }
}

fn entry_length(jump: usize) -> usize {
    if jump < 255 {
        2
    } else {
        4
    }
}

/// Changed positions whose stream takes about `target` bytes, as far as the page has room.
fn changed_positions(rng: &mut Rng, target: usize) -> Vec<usize> {
    let habit = rng.below(7);
    let mut positions: Vec<usize> = Vec::new();
    let mut next = 0;
    let mut length = 0;
    // The first gap may be anywhere, so that runs do not always start at the page's beginning.
    let mut jump = if rng.chance(30) { rng.below(PAGE) } else { gap(rng, habit) };
    while length < target && next + jump < PAGE {
        positions.push(next + jump);
        length += entry_length(jump);
        next += jump + 1;
        jump = gap(rng, habit);
    }
    positions
}

/// A page to compare with a base.
pub fn modified(rng: &mut Rng, base: &[u8]) -> Vec<u8> {
    let mut page = page_of_base(base);
    let target = match rng.below(10) {
        0 | 1 => return page,
        2 => return rng.bytes(PAGE),
        3 | 4 => rng.pick(&[500, 502, 504, 506, 508]),
        5 => rng.pick(&[2, 4]),
        6 | 7 => rng.between(2, 60),
        _ => rng.between(60, 1000),
    };
    for position in changed_positions(rng, target) {
        page[position] ^= rng.nonzero_byte();
    }
    page
}

// ---------------------------------------------------------------------------------------------
// Payloads and slots
// ---------------------------------------------------------------------------------------------

/// One entry in the code that its jump must have.
fn push_entry(rng: &mut Rng, payload: &mut Vec<u8>, jump: usize) {
    if jump < 255 {
        payload.extend([jump as u8, rng.byte()]);
    } else {
        payload.extend(long_entry(rng, jump));
    }
}

/// One entry in the long code, which for a jump below 255 is a fault.
fn long_entry(rng: &mut Rng, jump: usize) -> [u8; 4] {
    let [low, high] = (jump as u16).to_le_bytes();
    [255, low, high, rng.byte()]
}

/// A sound payload of at most `most` bytes.
fn sound_payload(rng: &mut Rng, most: usize) -> Vec<u8> {
    let habit = rng.below(7);
    let target = if rng.chance(50) { most } else { rng.between(1, most) };
    let mut payload = Vec::new();
    let mut next = 0;
    loop {
        let jump = gap(rng, habit);
        if next + jump >= PAGE || (!payload.is_empty() && payload.len() + 4 > target) {
            break;
        }
        push_entry(rng, &mut payload, jump);
        next += jump + 1;
    }
    // Sometimes straight to the page's last byte.
    if next < PAGE && payload.len() + 4 <= most && rng.chance(20) {
        push_entry(rng, &mut payload, PAGE - 1 - next);
    }
    payload
}

/// Two entries, the second on the page's last byte or one past it.
fn to_the_end(rng: &mut Rng) -> Vec<u8> {
    let mut bytes = Vec::new();
    let first = rng.below(PAGE - 1);
    push_entry(rng, &mut bytes, first);
    let room = PAGE - 1 - (first + 1);
    let jump = room + rng.below(2);
    push_entry(rng, &mut bytes, jump);
    bytes
}

/// One entry with a long jump that just stays in the page or leaves it.
fn far_jump(rng: &mut Rng) -> Vec<u8> {
    let jump = rng.pick(&[8190, 8191, 8192, 8193, 65535, 32767, 32768]);
    long_entry(rng, jump).to_vec()
}

/// A sound payload with one more entry at any place: the long code with a jump below 255 or just above.
/// One entry and not a share of all, since a payload of many would then hardly be sound or break late.
fn near_the_least_long_jump(rng: &mut Rng) -> Vec<u8> {
    let mut bytes = sound_payload(rng, PAYLOAD - 4);
    let at = reached(rng, &bytes).0 as usize;
    let jump = match rng.below(4) {
        0 => 0,
        1 => rng.below(255),
        _ => rng.between(253, 257),
    };
    bytes.splice(at..at, long_entry(rng, jump));
    bytes
}

/// A payload that may be anything: sound, cut off, one entry too far, a long jump that is not long, too
/// long, empty, noise.
pub fn payload(rng: &mut Rng) -> Vec<u8> {
    match rng.below(14) {
        0 => Vec::new(),
        1 => {
            let length = rng.between(1, 600);
            rng.bytes(length)
        }
        2 => {
            let mut bytes = sound_payload(rng, PAYLOAD);
            bytes.pop();
            bytes
        }
        3 => {
            let mut bytes = sound_payload(rng, PAYLOAD);
            bytes.truncate(bytes.len().saturating_sub(rng.between(1, 3)));
            bytes
        }
        4 => to_the_end(rng),
        5 => far_jump(rng),
        6 => {
            // Sound entries, more than 504 bytes.
            let entries = rng.between(250, 300);
            (0..2 * entries).map(|at| if at % 2 == 0 { 0 } else { rng.byte() }).collect()
        }
        7 => {
            let mut bytes = sound_payload(rng, PAYLOAD - 1);
            bytes.push(rng.byte());
            bytes
        }
        8 | 9 => near_the_least_long_jump(rng),
        _ => sound_payload(rng, PAYLOAD),
    }
}

pub fn patch_slot(payload: &[u8]) -> Vec<u8> {
    let mut slot = vec![0; SLOT];
    let kept = &payload[..payload.len().min(PAYLOAD)];
    slot[0] = 1;
    slot[1] = 1;
    slot[2..4].copy_from_slice(&(kept.len() as u16).to_le_bytes());
    slot[8..8 + kept.len()].copy_from_slice(kept);
    slot
}

/// A slot of a store. PATCH payloads are mostly sound: of many blocks each must be, or Build would stop
/// at the first ones and accept no store.
fn slot(rng: &mut Rng, may_be_full: bool) -> Vec<u8> {
    match rng.below(4) {
        0 => vec![0; SLOT],
        1 if may_be_full => {
            let mut slot = vec![0; SLOT];
            slot[0] = 2;
            slot
        }
        _ if rng.chance(97) => patch_slot(&sound_payload(rng, PAYLOAD)),
        _ => patch_slot(&payload(rng)),
    }
}

/// Damage to one slot, aimed at each part of it in turn.
fn damage_slot(rng: &mut Rng, slot: &mut [u8]) {
    match rng.below(9) {
        0 => slot[0] = rng.pick(&[0, 1, 2, 3, 4, 255]),
        1 => slot[1] = rng.pick(&[0, 1, 2, 3, 129, 255]),
        2 => {
            let length: usize = rng.pick(&[0, 1, 2, 503, 504, 505, 506, 511, 512, 513, 65535]);
            slot[2..4].copy_from_slice(&(length as u16).to_le_bytes());
        }
        3 => slot[rng.between(4, 7)] ^= rng.nonzero_byte(),
        4 => slot[SLOT - 1] ^= rng.nonzero_byte(),
        5 => {
            // The first byte after the payload.
            let length = usize::from(u16::from_le_bytes([slot[2], slot[3]]));
            let at = (8 + length).min(SLOT - 1);
            slot[at] ^= rng.nonzero_byte();
        }
        6 => {
            let at = rng.between(8, 15);
            slot[at] = rng.byte();
        }
        7 => {
            let whole = patch_slot(&payload(rng));
            slot.copy_from_slice(&whole);
        }
        _ => {
            let at = rng.below(SLOT);
            slot[at] ^= rng.nonzero_byte();
        }
    }
}

// ---------------------------------------------------------------------------------------------
// Decisions
// ---------------------------------------------------------------------------------------------

/// What a block is to become. The payload counts for kind 1 alone, the page for kind 2 alone.
#[derive(Clone, Debug, PartialEq, Eq)]
pub struct Decision {
    pub kind: u32,
    pub payload: Vec<u8>,
    pub page: Vec<u8>,
}

/// Kinds above 2, and those that would be 0, 1 or 2 if they were cut to 8, 16 or 31 bits.
pub const STRANGE_KINDS: [u32; 18] = [
    3,
    4,
    127,
    128,
    254,
    255,
    256,
    257,
    258,
    65_536,
    65_537,
    65_538,
    1 << 31,
    (1 << 31) + 1,
    (1 << 31) + 2,
    (1 << 31) - 1,
    u32::MAX - 1,
    u32::MAX,
];

/// Numbers of stores that mean all of them, and those of them that would be 0 or 1 if they were cut to 8,
/// 16, 31, 32 or 63 bits.
pub const STRANGE_STORES: [u64; 20] = [
    2,
    3,
    255,
    256,
    257,
    65_536,
    65_537,
    (1 << 31) - 1,
    1 << 31,
    (1 << 31) + 1,
    (1 << 32) - 1,
    1 << 32,
    (1 << 32) + 1,
    1 << 33,
    (1 << 63) - 1,
    1 << 63,
    (1 << 63) + 1,
    u64::MAX - 2,
    u64::MAX - 1,
    u64::MAX,
];

/// How many stores a decision is told to make: mostly all of them.
pub fn stores(rng: &mut Rng) -> u64 {
    match rng.below(20) {
        0..=3 => 0,
        4..=7 => 1,
        8..=11 => rng.pick(&STRANGE_STORES),
        12 => rng.draw(),
        _ => ALL,
    }
}

impl Decision {
    /// What Compare decides of a page over its base.
    pub fn by_compare(base: &[u8], page: Vec<u8>) -> Decision {
        let mut payload = vec![0; PAYLOAD];
        let compared = independent::compare(base, &page, &mut payload);
        assert_eq!(compared.number, 0, "pages of sound lengths");
        payload.truncate(if compared.kind == 1 { compared.length as usize } else { 0 });
        Decision { kind: compared.kind, payload, page }
    }

    /// What would be carried out after the areas, and the map if there is one.
    pub fn input(&self, call: Call, mut areas_and_map: Vec<Vec<u8>>, block: u64) -> Input {
        areas_and_map.extend([self.payload.clone(), self.page.clone()]);
        Input::new(call, areas_and_map).at_block(block).of_kind(self.kind)
    }
}

/// A decision that no Compare need have made, refused only where a full page has no place: mostly a sound
/// payload, with a page of any length beside it; else EMPTY or a full page, beside a payload of any sort.
pub fn decision_from_elsewhere(rng: &mut Rng) -> Decision {
    let kind = rng.pick(&[0, 1, 1, 1, 1, 2]);
    let payload = if kind == 1 { sound_payload(rng, PAYLOAD) } else { payload(rng) };
    let length = if kind == 2 { PAGE } else { rng.pick(&[0, 0, 1, PAGE - 1, PAGE, PAGE]) };
    Decision { kind, payload, page: rng.bytes(length) }
}

/// A decision of any sort: about half of them are Compare's own.
pub fn decision(rng: &mut Rng) -> Decision {
    let base = base(rng);
    let page = modified(rng, &base);
    let mut decision = Decision::by_compare(&base, page);
    match rng.below(20) {
        0 => decision.kind = rng.pick(&STRANGE_KINDS),
        1 => decision.kind = rng.draw() as u32,
        // A refused Compare carried out, or a kind that is not the page's.
        2 => decision.kind = rng.below(4) as u32,
        // Compare's buffer whole.
        3 => {
            let rest = PAYLOAD - decision.payload.len();
            let rest = if rng.chance(50) { vec![0; rest] } else { rng.bytes(rest) };
            decision.payload.extend(rest);
            decision.kind = 1;
        }
        4..=6 => {
            decision.kind = 1;
            decision.payload = payload(rng);
        }
        7 => return decision_from_elsewhere(rng),
        // What is not looked at may be anything.
        8 | 9 if decision.kind != 1 => decision.payload = payload(rng),
        8 | 9 => {
            let length = rng.pick(&[0, 1, 511, 4096, 8191, 8192, 8193, 16384]);
            decision.page = rng.bytes(length);
        }
        _ => {}
    }
    maybe_wrong_page(rng, &mut decision.page);
    decision
}

// ---------------------------------------------------------------------------------------------
// Areas
// ---------------------------------------------------------------------------------------------

#[derive(Clone)]
pub struct Areas {
    pub patch: Vec<u8>,
    pub full: Vec<u8>,
}

impl Areas {
    /// Freshly formatted areas for n blocks, with m pages or without a full area.
    pub fn fresh(n: usize, m: Option<usize>) -> Areas {
        let mut areas = Areas {
            patch: vec![0; PATCH_HEADER + SLOT * n],
            full: m.map_or(Vec::new(), |m| vec![0; FULL_HEADER + PAGE * m]),
        };
        let done = independent::format(&mut areas.patch, &mut areas.full);
        assert_eq!(done.number, 0);
        areas
    }

    pub fn blocks(&self) -> usize {
        self.patch.len().saturating_sub(PATCH_HEADER) / SLOT
    }

    pub fn pages(&self) -> usize {
        self.full.len().saturating_sub(FULL_HEADER) / PAGE
    }

    fn slot(&mut self, block: usize) -> &mut [u8] {
        let start = PATCH_HEADER + SLOT * block;
        &mut self.patch[start..start + SLOT]
    }

    fn place(&mut self, block: usize) -> &mut [u8] {
        let start = FULL_HEADER + PAGE * block;
        &mut self.full[start..start + PAGE]
    }
}

/// n and m of a small store; every relation of both, and both forms of m = 0.
fn sizes(rng: &mut Rng) -> (usize, Option<usize>) {
    let n = if rng.chance(5) { rng.between(7, 20) } else { rng.below(7) };
    (n, pages(rng, n))
}

/// The number of pages beside n blocks: no full area, as many, fewer.
pub fn pages(rng: &mut Rng, n: usize) -> Option<usize> {
    match rng.below(4) {
        0 => None,
        1 => Some(n),
        _ => Some(rng.between(0, n)),
    }
}

/// A store as other programs may have left it, without damage yet.
pub fn areas(rng: &mut Rng) -> Areas {
    let (n, m) = sizes(rng);
    let mut areas = Areas::fresh(n, m);
    for block in 0..n {
        let has_place = block < areas.pages();
        let slot = slot(rng, has_place);
        if slot[0] == 2 {
            rng.fill(areas.place(block));
        }
        areas.slot(block).copy_from_slice(&slot);
    }
    areas
}

/// A byte of a header, each field as likely as the long rest.
fn header_place(rng: &mut Rng, length: usize) -> usize {
    match rng.below(6) {
        0 => rng.below(8),
        1 => rng.between(8, 9),
        2 => rng.between(10, 11),
        3 => rng.between(12, 15),
        4 => rng.between(16, 19),
        _ => rng.pick(&[20, length - 1, length / 2]),
    }
}

fn wrong_length(rng: &mut Rng, bytes: &mut Vec<u8>, step: usize) {
    let length = bytes.len();
    let new = match rng.below(8) {
        0 => length.saturating_sub(1),
        1 => length + 1,
        2 => length.saturating_sub(step),
        3 => length + step,
        4 => rng.below(step),
        5 => length + 3 * step,
        6 => 0,
        _ => length.saturating_sub(step / 2),
    };
    bytes.resize(new, 0);
}

/// One damage of any sort to a store.
fn damage_areas(rng: &mut Rng, areas: &mut Areas) {
    let n = areas.blocks();
    let m = areas.pages();
    match rng.below(10) {
        0 if areas.patch.len() >= PATCH_HEADER => {
            let at = header_place(rng, PATCH_HEADER);
            areas.patch[at] ^= rng.nonzero_byte();
        }
        1 if areas.full.len() >= FULL_HEADER => {
            let at = header_place(rng, FULL_HEADER);
            areas.full[at] ^= rng.nonzero_byte();
        }
        2 if rng.chance(40) => wrong_length(rng, &mut areas.patch, SLOT),
        3 if rng.chance(40) => wrong_length(rng, &mut areas.full, PAGE),
        4 | 5 if m > 0 => {
            // A stray byte at either end of a place or inside it.
            let at = rng.pick(&[0, PAGE - 1, PAGE / 2]);
            let block = rng.below(m);
            areas.place(block)[at] ^= rng.nonzero_byte();
        }
        6 if n > 0 => {
            // A reference, whether there is a place for it or not.
            let block = rng.below(n);
            let slot = areas.slot(block);
            slot.fill(0);
            slot[0] = 2;
        }
        _ if n > 0 => {
            let block = rng.below(n);
            damage_slot(rng, areas.slot(block));
        }
        _ => {}
    }
}

fn damaged_areas(rng: &mut Rng) -> Areas {
    let mut areas = areas(rng);
    let damages = rng.pick(&[0, 0, 0, 0, 1, 1, 1, 2, 2, 3, 4]);
    for _ in 0..damages {
        damage_areas(rng, &mut areas);
    }
    areas
}

// ---------------------------------------------------------------------------------------------
// Numbers
// ---------------------------------------------------------------------------------------------

/// Numbers that wrap, or would as a product with 512 or 8,192, and those around the largest n.
pub const STRANGE_NUMBERS: [u64; 22] = [
    u64::MAX,
    u64::MAX - 1,
    u64::MAX - 511,
    u64::MAX / 512,
    u64::MAX / 512 + 1,
    u64::MAX / 8192,
    u64::MAX / 8192 + 1,
    1 << 63,
    (1 << 63) - 1,
    1 << 55,
    (1 << 55) + 1,
    1 << 54,
    1 << 51,
    (1 << 51) + 1,
    1 << 32,
    (1 << 32) + 1,
    (1 << 32) - 1,
    1 << 31,
    131_071,
    131_072,
    131_073,
    262_144,
];

/// Positions of a reader: both ends of those that it can have, those beside them, and the farthest.
pub const POSITIONS: [i32; 12] =
    [-1, 0, 254, 255, 8_190, 8_191, 8_192, -2, i32::MAX, i32::MAX - 1, i32::MIN, i32::MIN + 1];

/// A block number: mostly one that the store has.
fn block(rng: &mut Rng, n: usize) -> u64 {
    match rng.below(20) {
        0 => n as u64,
        1 => n as u64 + 1,
        2 => rng.pick(&STRANGE_NUMBERS),
        3 => rng.draw(),
        _ if n > 0 => rng.below(n) as u64,
        _ => 0,
    }
}

/// Where to cut: mostly at a block that the store has, or just past the last one.
fn cut_at(rng: &mut Rng, n: usize) -> u64 {
    match rng.below(16) {
        0 => n as u64,
        1 => n as u64 + 1,
        2 => rng.pick(&STRANGE_NUMBERS),
        3 => rng.draw(),
        _ => rng.below(n + 1) as u64,
    }
}

/// A page with a wrong length now and then.
fn maybe_wrong_page(rng: &mut Rng, page: &mut Vec<u8>) {
    if rng.chance(5) {
        let length = rng.pick(&[0, 1, 511, 512, 4096, 8191, 8193, 16384]);
        page.resize(length, 0x5A);
    }
}

// ---------------------------------------------------------------------------------------------
// Inputs
// ---------------------------------------------------------------------------------------------

fn format_input(rng: &mut Rng) -> Input {
    let mut areas = areas(rng);
    rng.fill(&mut areas.patch);
    rng.fill(&mut areas.full);
    if rng.chance(30) {
        wrong_length(rng, &mut areas.patch, SLOT);
    }
    if rng.chance(30) {
        wrong_length(rng, &mut areas.full, PAGE);
    }
    Input::new(Call::Format, vec![areas.patch, areas.full])
}

fn compare_input(rng: &mut Rng) -> Input {
    let mut base = base(rng);
    let mut page = modified(rng, &base);
    maybe_wrong_page(rng, &mut base);
    maybe_wrong_page(rng, &mut page);
    let room = match rng.below(20) {
        0 => rng.pick(&[0, 1, 2, 502, 503]),
        1 => rng.below(PAYLOAD),
        2 | 3 => rng.between(PAYLOAD, 700),
        4 => PAYLOAD + 1,
        _ => PAYLOAD,
    };
    Input::new(Call::Compare, vec![base, page, rng.bytes(room)])
}

fn apply_input(rng: &mut Rng) -> Input {
    let mut base = base(rng);
    let payload = payload(rng);
    let mut page = rng.bytes(PAGE);
    maybe_wrong_page(rng, &mut base);
    maybe_wrong_page(rng, &mut page);
    Input::new(Call::Apply, vec![base, payload, page])
}

fn judge_input(rng: &mut Rng) -> Input {
    let mut slot = slot(rng, true);
    for _ in 0..rng.pick(&[0, 0, 1, 1, 2]) {
        damage_slot(rng, &mut slot);
    }
    if rng.chance(5) {
        slot.resize(rng.pick(&[0, 1, 8, 511, 513, 1024]), 0);
    }
    Input::new(Call::Judge, vec![slot])
}

fn show_input(rng: &mut Rng) -> Input {
    let areas = damaged_areas(rng);
    let block = block(rng, areas.blocks());
    Input::new(Call::Show, vec![areas.patch]).at_block(block)
}

fn read_input(rng: &mut Rng) -> Input {
    let areas = damaged_areas(rng);
    let block = block(rng, areas.blocks());
    let mut base = base(rng);
    let mut page = rng.bytes(PAGE);
    maybe_wrong_page(rng, &mut base);
    maybe_wrong_page(rng, &mut page);
    Input::new(Call::Read, vec![areas.patch, areas.full, base, page]).at_block(block)
}

/// Areas on which a decision is carried out, some of them as other stops have left them.
fn areas_to_write(rng: &mut Rng) -> Areas {
    let mut areas = damaged_areas(rng);
    if rng.chance(30) {
        stray_pages(rng, &mut areas);
    }
    areas
}

fn carry_out_input(rng: &mut Rng) -> Input {
    let areas = areas_to_write(rng);
    let block = block(rng, areas.blocks());
    let input = decision(rng).input(Call::CarryOut, vec![areas.patch, areas.full], block);
    input.storing(stores(rng))
}

/// The pair that a slot's kind byte stands for, sound or not: what a map says that was kept.
fn pair_of_slot(slot: &[u8]) -> u8 {
    match slot[0] {
        1 => 2,
        2 => 1,
        _ => 0,
    }
}

/// Puts a pair over the one that is there.
pub fn set_pair(map: &mut [u8], block: usize, pair: u8) {
    map[block / 4] &= !(3 << (2 * (block % 4)));
    map[block / 4] |= pair << (2 * (block % 4));
}

/// The map that the slots' kinds make.
fn map_of_slots(areas: &mut Areas) -> Vec<u8> {
    let n = areas.blocks();
    let mut map = vec![0; (n + 3) / 4];
    for block in 0..n {
        set_pair(&mut map, block, pair_of_slot(areas.slot(block)));
    }
    map
}

/// A map to be lent with areas: true, true but for a pair or two, zero, or of no meaning; with pairs
/// of 3, with unused pairs; one byte too short, empty, or longer with noise behind.
fn map_beside(rng: &mut Rng, areas: &mut Areas) -> Vec<u8> {
    let n = areas.blocks();
    let mut map = map_of_slots(areas);
    match rng.below(10) {
        0 => map.fill(0),
        1 | 2 => rng.fill(&mut map),
        3 => map.fill(rng.pick(&[0x55, 0xAA, 0xFF])),
        4 | 5 if n > 0 => {
            for _ in 0..rng.between(1, 2) {
                set_pair(&mut map, rng.below(n), rng.below(3) as u8);
            }
        }
        6 if n > 0 => set_pair(&mut map, rng.below(n), 3),
        _ => {}
    }
    if n % 4 != 0 && rng.chance(20) {
        set_pair(&mut map, rng.between(n, n | 3), rng.between(1, 3) as u8);
    }
    match rng.below(16) {
        0 => map.truncate(map.len().saturating_sub(1)),
        1 => map.clear(),
        2..=4 => {
            let more = rng.between(1, 9);
            map.extend(rng.bytes(more));
        }
        5 => map.resize(map.len() + 1000, 0xFF),
        _ => {}
    }
    map
}

fn carry_out_mapped_input(rng: &mut Rng) -> Input {
    let mut areas = areas_to_write(rng);
    let map = map_beside(rng, &mut areas);
    let block = block(rng, areas.blocks());
    let lent = vec![areas.patch, areas.full, map];
    decision(rng).input(Call::CarryOutMapped, lent, block).storing(stores(rng))
}

fn read_mapped_input(rng: &mut Rng) -> Input {
    let mut areas = damaged_areas(rng);
    let map = map_beside(rng, &mut areas);
    let block = block(rng, areas.blocks());
    let mut base = base(rng);
    let mut page = rng.bytes(PAGE);
    maybe_wrong_page(rng, &mut base);
    maybe_wrong_page(rng, &mut page);
    let buffers = vec![areas.patch, areas.full, map, base, page];
    Input::new(Call::ReadMapped, buffers).at_block(block)
}

fn cut_input(rng: &mut Rng) -> Input {
    let areas = damaged_areas(rng);
    let k = cut_at(rng, areas.blocks());
    Input::new(Call::Cut, vec![areas.patch, areas.full]).at_block(k)
}

fn cut_mapped_input(rng: &mut Rng) -> Input {
    let mut areas = damaged_areas(rng);
    let map = map_beside(rng, &mut areas);
    let k = cut_at(rng, areas.blocks());
    Input::new(Call::CutMapped, vec![areas.patch, areas.full, map]).at_block(k)
}

/// Often with EMPTY slots at the end, as after a cut.
fn highest_input(rng: &mut Rng) -> Input {
    let mut areas = damaged_areas(rng);
    if rng.chance(40) {
        for block in rng.between(0, areas.blocks())..areas.blocks() {
            areas.slot(block).fill(0);
        }
    }
    Input::new(Call::Highest, vec![areas.patch])
}

/// Pages where no slot refers to them, as stops leave them, and anywhere else.
pub fn stray_pages(rng: &mut Rng, areas: &mut Areas) {
    for block in 0..areas.pages() {
        match rng.below(6) {
            0 | 1 => rng.fill(areas.place(block)),
            // One byte, at either end or inside.
            2 => areas.place(block)[rng.pick(&[0, PAGE - 1, PAGE / 2])] ^= rng.nonzero_byte(),
            _ => {}
        }
    }
}

fn sweep_input(rng: &mut Rng) -> Input {
    let mut areas = damaged_areas(rng);
    stray_pages(rng, &mut areas);
    Input::new(Call::Sweep, vec![areas.patch, areas.full])
}

fn build_input(rng: &mut Rng) -> Input {
    let areas = damaged_areas(rng);
    let needed = (areas.blocks() + 3) / 4;
    let room = match rng.below(10) {
        0 => needed.saturating_sub(1),
        1 => 0,
        2 | 3 => needed + rng.below(5),
        _ => needed,
    };
    Input::new(Call::Build, vec![areas.patch, areas.full, rng.bytes(room)])
}

/// A map with its n: sound pairs, then perhaps a pair of 3, unused pairs, a wrong n or length.
fn map_and_n(rng: &mut Rng) -> (Vec<u8>, u64) {
    let n = match rng.below(20) {
        0 => 0,
        1 => rng.between(MAX_BLOCKS - 5, MAX_BLOCKS),
        // Whole chunks of 32 bytes and a rest.
        2..=5 => rng.below(700),
        _ => rng.below(70),
    };
    let mut map = vec![0u8; (n + 3) / 4];
    for block in 0..n {
        map[block / 4] |= (rng.below(3) as u8) << (2 * (block % 4));
    }
    if rng.chance(25) && n > 0 {
        let block = if rng.chance(30) { n - 1 } else { rng.below(n) };
        map[block / 4] |= 3 << (2 * (block % 4));
    }
    if rng.chance(25) && n % 4 != 0 {
        let unused = rng.between(n % 4, 3);
        map[n / 4] |= (rng.between(1, 3) as u8) << (2 * unused);
    }
    match rng.below(10) {
        0 => map.truncate(map.len().saturating_sub(1)),
        1 => map.clear(),
        2 | 3 => {
            let more = rng.between(1, 9);
            map.extend(rng.bytes(more));
        }
        _ => {}
    }
    let told = if rng.chance(8) { rng.pick(&STRANGE_NUMBERS) } else { n as u64 };
    (map, told)
}

fn look_up_input(rng: &mut Rng) -> Input {
    let (map, n) = map_and_n(rng);
    let block = block(rng, n.min(MAX_BLOCKS as u64) as usize);
    Input::new(Call::LookUp, vec![map]).told(n).at_block(block)
}

fn tally_input(rng: &mut Rng) -> Input {
    let (map, n) = map_and_n(rng);
    Input::new(Call::Tally, vec![map]).told(n)
}

/// Where a reader stands after some of the payload's entries.
fn reached(rng: &mut Rng, payload: &[u8]) -> (u64, i32) {
    let mut stands = BEGINNING;
    for _ in 0..rng.below(payload.len() / 2 + 2) {
        let step = independent::next(payload, stands.0, stands.1);
        stands = (step.at, step.position);
    }
    stands
}

/// A reader at a place that it has come to, or at any place and position.
fn next_input(rng: &mut Rng) -> Input {
    let payload = payload(rng);
    let (mut at, mut position) = reached(rng, &payload);
    if rng.chance(40) {
        let length = payload.len() as u64;
        at = match rng.below(6) {
            0 => length,
            1 => length + 1,
            2 => rng.pick(&STRANGE_NUMBERS),
            3 => rng.draw(),
            // Often inside an entry.
            _ => rng.below(payload.len() + 1) as u64,
        };
    }
    if rng.chance(40) {
        position = match rng.below(4) {
            0 => rng.draw() as i32,
            1 => rng.pick(&POSITIONS),
            _ => rng.below(PAGE) as i32,
        };
    }
    Input::step(&payload, (at, position))
}

/// A random input for a call.
fn input(rng: &mut Rng, call: Call) -> Input {
    match call {
        Call::Format => format_input(rng),
        Call::Compare => compare_input(rng),
        Call::Apply => apply_input(rng),
        Call::Judge => judge_input(rng),
        Call::Show => show_input(rng),
        Call::Read => read_input(rng),
        Call::CarryOut => carry_out_input(rng),
        Call::Build => build_input(rng),
        Call::LookUp => look_up_input(rng),
        Call::Tally => tally_input(rng),
        Call::Next => next_input(rng),
        Call::CarryOutMapped => carry_out_mapped_input(rng),
        Call::ReadMapped => read_mapped_input(rng),
        Call::Cut => cut_input(rng),
        Call::CutMapped => cut_mapped_input(rng),
        Call::Highest => highest_input(rng),
        Call::Sweep => sweep_input(rng),
    }
}

/// A random call with a random input; calls with more to go wrong come more often.
pub fn any_input(rng: &mut Rng) -> Input {
    let call = rng.pick(&[
        Call::Format,
        Call::Compare,
        Call::Compare,
        Call::Compare,
        Call::Apply,
        Call::Apply,
        Call::Apply,
        Call::Judge,
        Call::Judge,
        Call::Show,
        Call::Show,
        Call::Read,
        Call::Read,
        Call::Read,
        Call::Read,
        Call::CarryOut,
        Call::CarryOut,
        Call::CarryOut,
        Call::CarryOut,
        Call::Build,
        Call::Build,
        Call::Build,
        Call::LookUp,
        Call::Tally,
        Call::Next,
        Call::Next,
        Call::CarryOutMapped,
        Call::CarryOutMapped,
        Call::CarryOutMapped,
        Call::CarryOutMapped,
        Call::ReadMapped,
        Call::ReadMapped,
        Call::ReadMapped,
        Call::ReadMapped,
        Call::Cut,
        Call::Cut,
        Call::CutMapped,
        Call::CutMapped,
        Call::CutMapped,
        Call::Highest,
        Call::Highest,
        Call::Sweep,
        Call::Sweep,
        Call::Sweep,
    ]);
    input(rng, call)
}
