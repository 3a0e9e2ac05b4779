//! The page store's rules once more, in plain Rust, to compare the library with.
//!
//! Written from the rules alone: clear over fast, one byte at a time. The calls have the arguments
//! and the answers of the C interface (`include/thonxiliko.h`), with slices for pointers and lengths.
#![forbid(unsafe_code)]

const PAGE: usize = 8192;
const SLOT: usize = 512;
const PAYLOAD_MAX: usize = 504;
const PATCH_HEADER: usize = 512;
const FULL_HEADER: usize = 4096;
const BLOCKS_MAX: u64 = 131_072;

// Numbers given back.
const DONE: u32 = 0;
const BAD_PAGE_LENGTH: u32 = 1;
const BAD_AREA_LENGTH: u32 = 2;
const BAD_HEADER: u32 = 3;
const BAD_VERSION: u32 = 4;
const BAD_BLOCK: u32 = 5;
const BAD_SLOT: u32 = 6;
const BAD_PAYLOAD: u32 = 7;
const NO_FULL_PAGE: u32 = 8;
const SHORT_BUFFER: u32 = 9;
const STRAY_PAGE: u32 = 10;
const BAD_PAIR: u32 = 11;

// Kinds.
const EMPTY: u32 = 0;
const PATCH: u32 = 1;
const FULL_REF: u32 = 2;

/// A number of stores to be told where all are wanted; any other but 0 and 1 would do.
pub const ALL: u64 = u64::MAX;

#[derive(Clone, Copy, Debug, Default, PartialEq, Eq)]
pub struct Done {
    pub number: u32,
}

#[derive(Clone, Copy, Debug, Default, PartialEq, Eq)]
pub struct Compared {
    pub number: u32,
    pub kind: u32,
    pub length: u32,
    pub entries: u32,
    pub last: i32,
}

#[derive(Clone, Copy, Debug, Default, PartialEq, Eq)]
pub struct Applied {
    pub number: u32,
    pub entries: u32,
    pub last: i32,
    pub offset: u32,
}

#[derive(Clone, Copy, Debug, Default, PartialEq, Eq)]
pub struct Step {
    pub number: u32,
    pub found: u32,
    pub at: u64,
    pub position: i32,
    pub value: u32,
}

#[derive(Clone, Copy, Debug, Default, PartialEq, Eq)]
pub struct Judged {
    pub number: u32,
    pub kind: u32,
    pub length: u32,
}

#[derive(Clone, Copy, Debug, Default, PartialEq, Eq)]
pub struct Part {
    pub at: u64,
    pub len: u64,
}

#[derive(Clone, Copy, Debug, Default, PartialEq, Eq)]
pub struct Reading {
    pub number: u32,
    pub kind: u32,
    pub offset: u32,
}

#[derive(Clone, Copy, Debug, Default, PartialEq, Eq)]
pub struct Written {
    pub number: u32,
    pub kind: u32,
    pub length: u32,
}

#[derive(Clone, Copy, Debug, Default, PartialEq, Eq)]
pub struct Built {
    pub number: u32,
    pub block: u64,
    pub offset: u32,
}

#[derive(Clone, Copy, Debug, Default, PartialEq, Eq)]
pub struct Pair {
    pub number: u32,
    pub pair: u32,
}

#[derive(Clone, Copy, Debug, Default, PartialEq, Eq)]
pub struct Tallied {
    pub number: u32,
    pub patch: u64,
    pub full: u64,
}

#[derive(Clone, Copy, Debug, Default, PartialEq, Eq)]
pub struct Extent {
    pub number: u32,
    pub blocks: u64,
}

// ---------------------------------------------------------------------------------------------
// Lengths
// ---------------------------------------------------------------------------------------------

/// The number n of blocks of a patch area, if its length is one that a patch area can have.
fn blocks_of(patch: &[u8]) -> Option<u64> {
    let slots = patch.len().checked_sub(PATCH_HEADER)?;
    let n = (slots / SLOT) as u64;
    (slots % SLOT == 0 && n <= BLOCKS_MAX).then_some(n)
}

/// The number m of pages of a full area, if its length is one that a full area can have.
fn pages_of(full: &[u8]) -> Option<u64> {
    if full.is_empty() {
        return Some(0);
    }
    let pages = full.len().checked_sub(FULL_HEADER)?;
    (pages % PAGE == 0).then_some((pages / PAGE) as u64)
}

/// n and m, if both lengths are right and m is not over n.
fn sizes_of(patch: &[u8], full: &[u8]) -> Option<(u64, u64)> {
    let n = blocks_of(patch)?;
    let m = pages_of(full)?;
    (m <= n).then_some((n, m))
}

fn is_base_length(length: usize) -> bool {
    length == 0 || length == PAGE
}

/// The page that a base stands for.
fn base_page(base: &[u8]) -> Vec<u8> {
    if base.is_empty() {
        vec![0; PAGE]
    } else {
        base.to_vec()
    }
}

fn map_length(n: u64) -> u64 {
    (n + 3) / 4
}

// ---------------------------------------------------------------------------------------------
// Headers
// ---------------------------------------------------------------------------------------------

fn number16(bytes: &[u8], at: usize) -> u32 {
    u32::from(bytes[at]) + 256 * u32::from(bytes[at + 1])
}

fn number32(bytes: &[u8], at: usize) -> u32 {
    number16(bytes, at) + 65536 * number16(bytes, at + 2)
}

fn all_zero(bytes: &[u8]) -> bool {
    bytes.iter().all(|byte| *byte == 0)
}

fn judge_patch_header(patch: &[u8]) -> Result<(), u32> {
    if &patch[0..8] != b"PBKPATCH" {
        return Err(BAD_HEADER);
    }
    if number16(patch, 8) != 2 {
        return Err(BAD_VERSION);
    }
    let rest_right = number16(patch, 10) == 0
        && number32(patch, 12) == 8192
        && number32(patch, 16) == 512
        && all_zero(&patch[20..PATCH_HEADER]);
    rest_right.then_some(()).ok_or(BAD_HEADER)
}

fn judge_full_header(full: &[u8]) -> Result<(), u32> {
    if full.is_empty() {
        return Ok(());
    }
    if &full[0..8] != b"PBKFULL\0" {
        return Err(BAD_HEADER);
    }
    if number16(full, 8) != 1 {
        return Err(BAD_VERSION);
    }
    let rest_right =
        number16(full, 10) == 0 && number32(full, 12) == 8192 && all_zero(&full[16..FULL_HEADER]);
    rest_right.then_some(()).ok_or(BAD_HEADER)
}

fn judge_headers(patch: &[u8], full: &[u8]) -> Result<(), u32> {
    judge_patch_header(patch)?;
    judge_full_header(full)
}

// ---------------------------------------------------------------------------------------------
// Slots, places, streams
// ---------------------------------------------------------------------------------------------

fn slot_start(block: u64) -> usize {
    PATCH_HEADER + SLOT * block as usize
}

fn place_start(block: u64) -> usize {
    FULL_HEADER + PAGE * block as usize
}

fn slot_of(patch: &[u8], block: u64) -> &[u8] {
    &patch[slot_start(block)..slot_start(block) + SLOT]
}

/// Kind and payload length of a slot, if it is sound.
fn sound_slot(slot: &[u8]) -> Option<(u32, usize)> {
    match slot[0] {
        0 if all_zero(slot) => Some((EMPTY, 0)),
        1 => {
            let length = number16(slot, 2) as usize;
            let sound = slot[1] == 1
                && (1..=PAYLOAD_MAX).contains(&length)
                && all_zero(&slot[4..8])
                && all_zero(&slot[8 + length..]);
            sound.then_some((PATCH, length))
        }
        2 if all_zero(&slot[1..]) => Some((FULL_REF, 0)),
        _ => None,
    }
}

/// One entry of a stream, with its position in the page.
struct Entry {
    position: i32,
    value: u8,
}

/// Whether a payload has a length that a sound one can have.
fn is_payload_length(length: usize) -> bool {
    (1..=PAYLOAD_MAX).contains(&length)
}

/// Why a payload or its block is refused, and with 7 where the payload breaks.
struct Refused {
    number: u32,
    offset: u32,
}

impl From<u32> for Refused {
    fn from(number: u32) -> Refused {
        Refused { number, offset: 0 }
    }
}

/// The entries of a payload. If it is not sound, 7 and the offset at which the first unsound entry
/// starts, 0 for an empty or overlong payload.
fn entries_of(payload: &[u8]) -> Result<Vec<Entry>, Refused> {
    if !is_payload_length(payload.len()) {
        return Err(Refused { number: BAD_PAYLOAD, offset: 0 });
    }
    let mut entries = Vec::new();
    let mut position: i32 = -1;
    let mut bytes = payload.iter().copied();
    while bytes.len() > 0 {
        let offset = (payload.len() - bytes.len()) as u32;
        let entry = entry_from(&mut bytes, position);
        let entry = entry.ok_or(Refused { number: BAD_PAYLOAD, offset })?;
        position = entry.position;
        entries.push(entry);
    }
    Ok(entries)
}

/// Takes one entry, if it is whole, has the long code only for a jump that needs it, and stays in the
/// page.
fn entry_from(bytes: &mut impl Iterator<Item = u8>, position: i32) -> Option<Entry> {
    let jump = match bytes.next()? {
        255 => {
            let low = bytes.next()?;
            let high = bytes.next()?;
            let long = i32::from(low) + 256 * i32::from(high);
            if long < 255 {
                return None;
            }
            long
        }
        short => i32::from(short),
    };
    let value = bytes.next()?;
    let position = position + jump + 1;
    (position <= 8191).then_some(Entry { position, value })
}

fn put_entries(page: &mut [u8], entries: &[Entry]) {
    for entry in entries {
        page[entry.position as usize] = entry.value;
    }
}

/// The writer's stream of a page over its base.
struct Stream {
    bytes: Vec<u8>,
    entries: u32,
    last: i32,
}

impl Stream {
    fn of(base: &[u8], page: &[u8]) -> Stream {
        let mut stream = Stream { bytes: Vec::new(), entries: 0, last: -1 };
        for position in 0..PAGE {
            if page[position] != base[position] {
                stream.push(position as i32, page[position]);
            }
        }
        stream
    }

    fn push(&mut self, position: i32, value: u8) {
        let jump = position - self.last - 1;
        if jump < 255 {
            self.bytes.push(jump as u8);
        } else {
            self.bytes.push(255);
            self.bytes.push((jump % 256) as u8);
            self.bytes.push((jump / 256) as u8);
        }
        self.bytes.push(value);
        self.entries += 1;
        self.last = position;
    }

    fn kind(&self) -> u32 {
        match self.bytes.len() {
            0 => EMPTY,
            1..=PAYLOAD_MAX => PATCH,
            _ => FULL_REF,
        }
    }

    fn length(&self) -> u32 {
        self.bytes.len() as u32
    }
}

// ---------------------------------------------------------------------------------------------
// The calls
// ---------------------------------------------------------------------------------------------

pub fn format(patch: &mut [u8], full: &mut [u8]) -> Done {
    if sizes_of(patch, full).is_none() {
        return Done { number: BAD_AREA_LENGTH };
    }
    for byte in patch.iter_mut() {
        *byte = 0;
    }
    patch[0..8].copy_from_slice(b"PBKPATCH");
    patch[8..10].copy_from_slice(&2u16.to_le_bytes());
    patch[12..16].copy_from_slice(&8192u32.to_le_bytes());
    patch[16..20].copy_from_slice(&512u32.to_le_bytes());
    if !full.is_empty() {
        for byte in full.iter_mut() {
            *byte = 0;
        }
        full[0..8].copy_from_slice(b"PBKFULL\0");
        full[8..10].copy_from_slice(&1u16.to_le_bytes());
        full[12..16].copy_from_slice(&8192u32.to_le_bytes());
    }
    Done { number: DONE }
}

pub fn compare(base: &[u8], page: &[u8], payload: &mut [u8]) -> Compared {
    if !is_base_length(base.len()) || page.len() != PAGE {
        return Compared { number: BAD_PAGE_LENGTH, ..Compared::default() };
    }
    if payload.len() < PAYLOAD_MAX {
        return Compared { number: SHORT_BUFFER, ..Compared::default() };
    }
    let stream = Stream::of(&base_page(base), page);
    if stream.kind() == PATCH {
        payload[..stream.bytes.len()].copy_from_slice(&stream.bytes);
    }
    Compared {
        number: DONE,
        kind: stream.kind(),
        length: stream.length(),
        entries: stream.entries,
        last: stream.last,
    }
}

pub fn apply(base: &[u8], payload: &[u8], page: &mut [u8]) -> Applied {
    if !is_base_length(base.len()) || page.len() != PAGE {
        return Applied { number: BAD_PAGE_LENGTH, ..Applied::default() };
    }
    match entries_of(payload) {
        Err(Refused { number, offset }) => Applied { number, offset, ..Applied::default() },
        Ok(entries) => {
            page.copy_from_slice(&base_page(base));
            put_entries(page, &entries);
            Applied {
                number: DONE,
                entries: entries.len() as u32,
                last: entries.last().map_or(-1, |entry| entry.position),
                offset: 0,
            }
        }
    }
}

/// One step of a reader that stands at a place in a payload and has come to a position. Not by the
/// code above, so that both can be held against each other.
pub fn next(payload: &[u8], at: u64, position: i32) -> Step {
    let stands = |number| Step { number, found: 0, at, position, value: 0 };
    if !is_payload_length(payload.len()) {
        return stands(BAD_PAYLOAD);
    }
    if at >= payload.len() as u64 {
        return stands(DONE);
    }
    if !(-1..=8191).contains(&position) {
        return stands(BAD_PAYLOAD);
    }
    let (jump, value, length) = match payload[at as usize..] {
        // The low byte comes first: these are the jumps below 255.
        [255, 0..=254, 0, ..] => return stands(BAD_PAYLOAD),
        [255, low, high, value, ..] => (number16(&[low, high], 0) as i32, value, 4),
        [short @ 0..=254, value, ..] => (i32::from(short), value, 2),
        _ => return stands(BAD_PAYLOAD),
    };
    let reached = position + jump + 1;
    if reached > 8191 {
        return stands(BAD_PAYLOAD);
    }
    Step { number: DONE, found: 1, at: at + length, position: reached, value: u32::from(value) }
}

pub fn judge(slot: &[u8]) -> Judged {
    if slot.len() != SLOT {
        return Judged { number: BAD_AREA_LENGTH, ..Judged::default() };
    }
    match sound_slot(slot) {
        None => Judged { number: BAD_SLOT, ..Judged::default() },
        Some((kind, length)) => Judged { number: DONE, kind, length: length as u32 },
    }
}

pub fn show(patch: &[u8], block: u64) -> Part {
    let nothing = Part { at: 0, len: 0 };
    let n = match blocks_of(patch) {
        None => return nothing,
        Some(n) => n,
    };
    if judge_patch_header(patch).is_err() || block >= n {
        return nothing;
    }
    match sound_slot(slot_of(patch, block)) {
        Some((PATCH, length)) => Part { at: slot_start(block) as u64 + 8, len: length as u64 },
        _ => nothing,
    }
}

/// What Read checks first, in order: pages, areas, headers, block. Gives m.
fn judge_lent(patch: &[u8], full: &[u8], block: u64, base: &[u8], page: &[u8]) -> Result<u64, u32> {
    if !is_base_length(base.len()) || page.len() != PAGE {
        return Err(BAD_PAGE_LENGTH);
    }
    let (n, m) = sizes_of(patch, full).ok_or(BAD_AREA_LENGTH)?;
    judge_headers(patch, full)?;
    if block < n {
        Ok(m)
    } else {
        Err(BAD_BLOCK)
    }
}

/// Fills the page if nothing is refused, and gives the block's kind.
fn fill_page(
    patch: &[u8],
    full: &[u8],
    block: u64,
    base: &[u8],
    page: &mut [u8],
) -> Result<u32, Refused> {
    let m = judge_lent(patch, full, block, base, page)?;
    let slot = slot_of(patch, block);
    let (kind, length) = sound_slot(slot).ok_or(BAD_SLOT)?;
    match kind {
        FULL_REF if block >= m => return Err(NO_FULL_PAGE.into()),
        FULL_REF => {
            let start = place_start(block);
            page.copy_from_slice(&full[start..start + PAGE]);
        }
        PATCH => {
            let entries = entries_of(&slot[8..8 + length])?;
            page.copy_from_slice(&base_page(base));
            put_entries(page, &entries);
        }
        _ => page.copy_from_slice(&base_page(base)),
    }
    Ok(kind)
}

pub fn read(patch: &[u8], full: &[u8], block: u64, base: &[u8], page: &mut [u8]) -> Reading {
    match fill_page(patch, full, block, base, page) {
        Ok(kind) => Reading { number: DONE, kind, offset: 0 },
        Err(Refused { number, offset }) => Reading { number, kind: 0, offset },
    }
}

// ---------------------------------------------------------------------------------------------
// Carrying out a decision
// ---------------------------------------------------------------------------------------------

/// A sound slot: the kind, and for PATCH the payload.
fn slot_with(kind: u32, payload: &[u8]) -> [u8; SLOT] {
    let mut slot = [0; SLOT];
    slot[0] = kind as u8;
    if kind == PATCH {
        slot[1] = 1;
        slot[2..4].copy_from_slice(&(payload.len() as u16).to_le_bytes());
        slot[8..8 + payload.len()].copy_from_slice(payload);
    }
    slot
}

/// Why a decision cannot be carried out, or m. The page counts for FULL_REF alone, the payload for PATCH
/// alone.
fn judge_decision(
    [patch, full]: [&[u8]; 2],
    block: u64,
    kind: u32,
    [payload, page]: [&[u8]; 2],
) -> Result<u64, u32> {
    if kind == FULL_REF && page.len() != PAGE {
        return Err(BAD_PAGE_LENGTH);
    }
    let (n, m) = sizes_of(patch, full).ok_or(BAD_AREA_LENGTH)?;
    judge_headers(patch, full)?;
    if block >= n {
        return Err(BAD_BLOCK);
    }
    match kind {
        EMPTY => Ok(m),
        // No offset here: only Apply, the reads and Build give one.
        PATCH => entries_of(payload).map(|_| m).map_err(|refused| refused.number),
        FULL_REF if block < m => Ok(m),
        FULL_REF => Err(NO_FULL_PAGE),
        _ => Err(BAD_SLOT),
    }
}

/// What a write is made of. No store is itself cut.
#[derive(Clone, Copy)]
enum Store {
    /// The slot, all of it.
    Slot,
    /// The block's place in the full area: the page for FULL_REF, else zeros.
    Place,
}

/// The stores of a write in their order: the page is there before a slot refers to it, and it goes only
/// when none does any more. A block not below m has a slot alone.
fn stores_in_order(kind: u32, has_place: bool) -> &'static [Store] {
    match kind {
        FULL_REF => &[Store::Place, Store::Slot],
        _ if has_place => &[Store::Slot, Store::Place],
        _ => &[Store::Slot],
    }
}

/// Whether a number of stores is told that means all of them. 1 never does, not even where one is all
/// that there is.
fn is_told_all(stores: u64) -> bool {
    !matches!(stores, 0 | 1)
}

/// Makes one store of a write. Nothing of the old block is looked at.
fn make(
    store: Store,
    [patch, full]: [&mut [u8]; 2],
    block: u64,
    kind: u32,
    [payload, page]: [&[u8]; 2],
) {
    match store {
        Store::Slot => {
            let start = slot_start(block);
            patch[start..start + SLOT].copy_from_slice(&slot_with(kind, payload));
        }
        Store::Place => {
            let start = place_start(block);
            let place = &mut full[start..start + PAGE];
            match kind {
                FULL_REF => place.copy_from_slice(page),
                _ => place.fill(0),
            }
        }
    }
}

pub fn carry_out(
    patch: &mut [u8],
    full: &mut [u8],
    block: u64,
    kind: u32,
    payload: &[u8],
    page: &[u8],
    stores: u64,
) -> Written {
    let m = match judge_decision([patch, full], block, kind, [payload, page]) {
        Err(number) => return Written { number, kind: 0, length: 0 },
        Ok(m) => m,
    };
    let in_order = stores_in_order(kind, block < m);
    let made = if is_told_all(stores) { in_order.len() } else { stores as usize };
    for store in &in_order[..made] {
        make(*store, [&mut *patch, &mut *full], block, kind, [payload, page]);
    }
    // The same whatever was told.
    let length = if kind == PATCH { payload.len() as u32 } else { 0 };
    Written { number: DONE, kind, length }
}

// ---------------------------------------------------------------------------------------------
// Decisions carried out with a lent map, reads that go by it
// ---------------------------------------------------------------------------------------------

/// What a read by a map checks first, in order: pages, areas, map, headers, block. Gives m. Not by the
/// code above, so that both can be held against each other.
fn judge_lent_mapped(
    [patch, full, map]: [&[u8]; 3],
    block: u64,
    [base, page]: [&[u8]; 2],
) -> Result<u64, u32> {
    if page.len() != PAGE || !is_base_length(base.len()) {
        return Err(BAD_PAGE_LENGTH);
    }
    match sizes_of(patch, full) {
        None => Err(BAD_AREA_LENGTH),
        Some((n, _)) if (map.len() as u64) < map_length(n) => Err(SHORT_BUFFER),
        Some((n, m)) => {
            judge_headers(patch, full)?;
            if block >= n {
                return Err(BAD_BLOCK);
            }
            Ok(m)
        }
    }
}

/// The pair that stands in a map for a block of this kind.
fn pair_of_kind(kind: u32) -> u8 {
    match kind {
        EMPTY => 0,
        PATCH => 2,
        _ => 1,
    }
}

/// Sets a block's pair, whatever it was. Not by shifting: the byte is taken apart into its four pairs
/// and put together again.
fn put_pair(map: &mut [u8], block: u64, pair: u8) {
    let byte = &mut map[(block / 4) as usize];
    let mut pairs = [*byte % 4, *byte / 4 % 4, *byte / 16 % 4, *byte / 64];
    pairs[(block % 4) as usize] = pair;
    *byte = pairs[0] + 4 * pairs[1] + 16 * pairs[2] + 64 * pairs[3];
}

#[allow(clippy::too_many_arguments)] // those of the C interface
pub fn carry_out_mapped(
    patch: &mut [u8],
    full: &mut [u8],
    map: &mut [u8],
    block: u64,
    kind: u32,
    payload: &[u8],
    page: &[u8],
    stores: u64,
) -> Written {
    let refused = |number| Written { number, kind: 0, length: 0 };
    // What comes before the map's length; all else comes after it.
    if kind == FULL_REF && page.len() != PAGE {
        return refused(BAD_PAGE_LENGTH);
    }
    match sizes_of(patch, full) {
        None => return refused(BAD_AREA_LENGTH),
        Some((n, _)) if (map.len() as u64) < map_length(n) => return refused(SHORT_BUFFER),
        Some(_) => {}
    }
    let written = carry_out(patch, full, block, kind, payload, page, stores);
    if written.number == DONE && is_told_all(stores) {
        put_pair(map, block, pair_of_kind(kind));
    }
    written
}

/// Fills the page as the block's pair says, if nothing is refused, and gives the kind.
fn fill_by_map(
    [patch, full, map]: [&[u8]; 3],
    block: u64,
    base: &[u8],
    page: &mut [u8],
) -> Result<u32, Refused> {
    let m = judge_lent_mapped([patch, full, map], block, [base, page])?;
    match pair_at(map, block) {
        0 => {
            page.copy_from_slice(&base_page(base));
            Ok(EMPTY)
        }
        1 if block < m => {
            let start = place_start(block);
            page.copy_from_slice(&full[start..start + PAGE]);
            Ok(FULL_REF)
        }
        1 => Err(NO_FULL_PAGE.into()),
        2 => {
            let slot = slot_of(patch, block);
            let length = match sound_slot(slot) {
                Some((PATCH, length)) => length,
                _ => return Err(BAD_SLOT.into()),
            };
            let entries = entries_of(&slot[8..8 + length])?;
            page.copy_from_slice(&base_page(base));
            put_entries(page, &entries);
            Ok(PATCH)
        }
        _ => Err(BAD_PAIR.into()),
    }
}

pub fn read_mapped(
    patch: &[u8],
    full: &[u8],
    map: &[u8],
    block: u64,
    base: &[u8],
    page: &mut [u8],
) -> Reading {
    match fill_by_map([patch, full, map], block, base, page) {
        Ok(kind) => Reading { number: DONE, kind, offset: 0 },
        Err(Refused { number, offset }) => Reading { number, kind: 0, offset },
    }
}

// ---------------------------------------------------------------------------------------------
// Maps
// ---------------------------------------------------------------------------------------------

/// The pair of one block in the map, or its first fault.
fn pair_of_block(patch: &[u8], full: &[u8], m: u64, block: u64) -> Result<u8, Refused> {
    let slot = slot_of(patch, block);
    let (kind, length) = sound_slot(slot).ok_or(BAD_SLOT)?;
    if kind == FULL_REF {
        return if block < m { Ok(1) } else { Err(NO_FULL_PAGE.into()) };
    }
    if kind == PATCH {
        entries_of(&slot[8..8 + length])?;
    }
    if block < m && !all_zero(&full[place_start(block)..place_start(block) + PAGE]) {
        return Err(STRAY_PAGE.into());
    }
    Ok(if kind == PATCH { 2 } else { 0 })
}

pub fn build(patch: &[u8], full: &[u8], map: &mut [u8]) -> Built {
    let refused = |number| Built { number, block: 0, offset: 0 };
    let (n, m) = match sizes_of(patch, full) {
        None => return refused(BAD_AREA_LENGTH),
        Some(sizes) => sizes,
    };
    if (map.len() as u64) < map_length(n) {
        return refused(SHORT_BUFFER);
    }
    if let Err(number) = judge_headers(patch, full) {
        return refused(number);
    }
    let mut made = vec![0u8; map_length(n) as usize];
    for block in 0..n {
        match pair_of_block(patch, full, m, block) {
            Err(Refused { number, offset }) => return Built { number, block, offset },
            Ok(pair) => made[(block / 4) as usize] |= pair << (2 * (block % 4)),
        }
    }
    map[..made.len()].copy_from_slice(&made);
    Built { number: DONE, block: 0, offset: 0 }
}

fn pair_at(map: &[u8], block: u64) -> u32 {
    u32::from(map[(block / 4) as usize] >> (2 * (block % 4)) & 3)
}

/// What Look up and Tally check first: n, then the map's length.
fn judge_map(map: &[u8], n: u64) -> Result<(), u32> {
    if n > BLOCKS_MAX {
        Err(BAD_AREA_LENGTH)
    } else if (map.len() as u64) < map_length(n) {
        Err(SHORT_BUFFER)
    } else {
        Ok(())
    }
}

pub fn look_up(map: &[u8], n: u64, block: u64) -> Pair {
    let refused = |number| Pair { number, pair: 0 };
    if let Err(number) = judge_map(map, n) {
        return refused(number);
    }
    if block >= n {
        return refused(BAD_BLOCK);
    }
    match pair_at(map, block) {
        3 => refused(BAD_PAIR),
        pair => Pair { number: DONE, pair },
    }
}

pub fn tally(map: &[u8], n: u64) -> Tallied {
    let refused = |number| Tallied { number, patch: 0, full: 0 };
    if let Err(number) = judge_map(map, n) {
        return refused(number);
    }
    let mut counted = Tallied { number: DONE, patch: 0, full: 0 };
    for block in 0..4 * map_length(n) {
        match pair_at(map, block) {
            0 => {}
            1 if block < n => counted.full += 1,
            2 if block < n => counted.patch += 1,
            _ => return refused(BAD_PAIR),
        }
    }
    counted
}

// ---------------------------------------------------------------------------------------------
// Cuts, and the highest block
// ---------------------------------------------------------------------------------------------

pub fn cut(patch: &mut [u8], full: &mut [u8], k: u64) -> Done {
    let (n, m) = match sizes_of(patch, full) {
        None => return Done { number: BAD_AREA_LENGTH },
        Some(sizes) => sizes,
    };
    if let Err(number) = judge_headers(patch, full) {
        return Done { number };
    }
    // K = n is no fault: there is nothing to drop.
    if k > n {
        return Done { number: BAD_BLOCK };
    }
    for block in k..n {
        let start = slot_start(block);
        patch[start..start + SLOT].fill(0);
        if block < m {
            let start = place_start(block);
            full[start..start + PAGE].fill(0);
        }
    }
    Done { number: DONE }
}

pub fn cut_mapped(patch: &mut [u8], full: &mut [u8], map: &mut [u8], k: u64) -> Done {
    let n = match sizes_of(patch, full) {
        None => return Done { number: BAD_AREA_LENGTH },
        Some((n, _)) => n,
    };
    if (map.len() as u64) < map_length(n) {
        return Done { number: SHORT_BUFFER };
    }
    let done = cut(patch, full, k);
    if done.number == DONE {
        // The pairs of blocks alone: those past n are no block's.
        (k..n).for_each(|block| put_pair(map, block, 0));
    }
    done
}

pub fn highest(patch: &[u8]) -> Extent {
    let refused = |number| Extent { number, blocks: 0 };
    let n = match blocks_of(patch) {
        None => return refused(BAD_AREA_LENGTH),
        Some(n) => n,
    };
    if let Err(number) = judge_patch_header(patch) {
        return refused(number);
    }
    let mut blocks = 0;
    for block in 0..n {
        match sound_slot(slot_of(patch, block)) {
            None => return refused(BAD_SLOT),
            Some((EMPTY, _)) => {}
            Some(_) => blocks = block + 1,
        }
    }
    Extent { number: DONE, blocks }
}

// ---------------------------------------------------------------------------------------------
// After a stop
// ---------------------------------------------------------------------------------------------

/// Whether a block's place is to be cleared, or the block's fault. Payloads and places are not looked at.
fn is_swept(patch: &[u8], m: u64, block: u64) -> Result<bool, u32> {
    match sound_slot(slot_of(patch, block)) {
        None => Err(BAD_SLOT),
        Some((FULL_REF, _)) if block < m => Ok(false),
        Some((FULL_REF, _)) => Err(NO_FULL_PAGE),
        Some(_) => Ok(block < m),
    }
}

/// The blocks whose places are to be cleared, or the fault of the lowest block that has one.
fn blocks_to_sweep(patch: &[u8], full: &[u8]) -> Result<Vec<u64>, u32> {
    let (n, m) = sizes_of(patch, full).ok_or(BAD_AREA_LENGTH)?;
    judge_headers(patch, full)?;
    let mut swept = Vec::new();
    // All of them, also where there is no place.
    for block in 0..n {
        if is_swept(patch, m, block)? {
            swept.push(block);
        }
    }
    Ok(swept)
}

pub fn sweep(patch: &[u8], full: &mut [u8]) -> Done {
    let swept = match blocks_to_sweep(patch, full) {
        Err(number) => return Done { number },
        Ok(swept) => swept,
    };
    for block in swept {
        let start = place_start(block);
        let place = &mut full[start..start + PAGE];
        // Zeros are not written over: a sparse area keeps its holes.
        if !all_zero(place) {
            place.fill(0);
        }
    }
    Done { number: DONE }
}
