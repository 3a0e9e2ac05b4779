//! Changed 8 KiB pages kept beside an unchanging base: a safe interface to `libthonxiliko.a`.
//!
//! A data file of PostgreSQL is a row of pages (blocks) of 8,192 bytes. A copy that is never written
//! to is the *base*. What has changed since is kept in two buffers that the caller owns:
//!
//! * the *patch area*, `512 + 512·n` bytes: one slot of 512 bytes for each of `n` blocks, holding
//!   nothing or the few bytes that differ;
//! * the *full area*, `4,096 + 8,192·m` bytes with `m` at most `n`, or 0 bytes (absent): whole pages
//!   for blocks below `m` that differ in more than a slot can hold.
//!
//! Wherever a base page is asked for, an empty slice stands for a page of 8,192 zeros.
//!
//! Every call takes any slices and any numbers. Bad input is answered by a [`Refusal`], and a refused
//! call changes no byte that it was lent. Where several refusals apply, the first in this order is
//! given: 1, 2, 9, headers (patch before full; magic, version, then the rest), 5, 6, 8, 7, 10, 11. Only
//! [`read_mapped`] gives 11 elsewhere, right after 5: it looks at the map before it looks at a slot.
//! Where a payload is not sound, [`apply`], [`read`], [`read_mapped`] and [`build`] also say at which of
//! its bytes, and [`entries`] steps through it up to there.
//!
//! A page is written in two steps. [`compare`] makes a [`Decision`] from the page and its base: that
//! nothing need be kept, a patch, or the full page. [`carry_out`] stores it. Between the two a program
//! may show what would be stored, or leave it.
//!
//! [`build`] makes the *map*, which says of each block where its page is. A program that keeps it lends
//! it to every write ([`carry_out_mapped`]) and every cut ([`cut_mapped`]) and may then read by it
//! ([`read_mapped`]).
//!
//! A write is at most two whole stores, and can be told to make fewer of them ([`Stores`]), as a
//! process does that ends in between. The block then reads as before or as its new page. [`sweep`] clears
//! up behind such a stop.
//!
//! Where the data file has become shorter, [`cut`] drops the blocks past its end. [`highest`] tells up
//! to which block anything is kept, which is not always the file's length.
//!
//! No call panics, unless the archive that was linked answers with a number that its interface does
//! not have.
//!
//! ```
//! use thonxiliko::{build, carry_out, compare, format, patch_area_len, read, tally};
//! use thonxiliko::{Kind, Stores, PAGE_SIZE, PAYLOAD_SIZE};
//!
//! // A store for four blocks without a full area.
//! let mut patch = vec![0; patch_area_len(4)];
//! let mut full = [];
//! format(&mut patch, &mut full)?;
//!
//! // Block 2 gets one changed byte. What it would take is known before it is stored.
//! let base = vec![7; PAGE_SIZE];
//! let mut page = base.clone();
//! page[100] = 8;
//! let mut payload = [0; PAYLOAD_SIZE];
//! let decision = compare(&base, &page, &mut payload)?;
//! assert_eq!(decision.kind(), Kind::Patch);
//! let written = carry_out(&mut patch, &mut full, 2, &decision, Stores::All)?;
//! assert_eq!((written.kind, written.length), (Kind::Patch, 2));
//!
//! // It reads back over the same base.
//! let mut again = vec![0; PAGE_SIZE];
//! assert_eq!(read(&patch, &full, 2, &base, &mut again)?, Kind::Patch);
//! assert_eq!(again, page);
//!
//! // The map of all blocks.
//! let mut map = [0; 1];
//! build(&patch, &full, &mut map)?;
//! assert_eq!(map, [0b00_10_00_00]);
//! assert_eq!(tally(&map, 4)?.patch, 1);
//! # Ok::<(), thonxiliko::Refusal>(())
//! ```
#![warn(missing_docs)]

use std::error::Error;
use std::fmt;
use std::iter::FusedIterator;

use thonxiliko_sys as sys;

/// Bytes of a page.
pub const PAGE_SIZE: usize = 8_192;
/// Bytes of a slot.
pub const SLOT_SIZE: usize = 512;
/// The most bytes that a slot's payload has, and the least that [`compare`]'s buffer must have.
pub const PAYLOAD_SIZE: usize = 504;
/// Bytes of the patch area before its first slot.
pub const PATCH_HEADER_SIZE: usize = 512;
/// Bytes of the full area before its first page.
pub const FULL_HEADER_SIZE: usize = 4_096;
/// The most blocks that a patch area has slots for.
pub const MAX_BLOCKS: u64 = 131_072;

/// Bytes of a patch area for `blocks` blocks.
///
/// It saturates: where the length would pass `usize::MAX` it is `usize::MAX`, which no area has, so
/// that every call refuses it.
///
/// ```
/// use thonxiliko::{patch_area_len, MAX_BLOCKS};
///
/// assert_eq!(patch_area_len(MAX_BLOCKS), 67_109_376);
/// assert_eq!(patch_area_len(u64::MAX), usize::MAX);
/// ```
pub const fn patch_area_len(blocks: u64) -> usize {
    area_len(PATCH_HEADER_SIZE, SLOT_SIZE, blocks)
}

/// Bytes of a full area with room for the pages of blocks 0 to `pages - 1`.
///
/// It saturates as [`patch_area_len`] does.
///
/// ```
/// assert_eq!(thonxiliko::full_area_len(1), 12_288);
/// assert_eq!(thonxiliko::full_area_len(u64::MAX), usize::MAX);
/// ```
pub const fn full_area_len(pages: u64) -> usize {
    area_len(FULL_HEADER_SIZE, PAGE_SIZE, pages)
}

/// Bytes of the map of `blocks` blocks.
///
/// ```
/// assert_eq!(thonxiliko::map_len(5), 2);
/// ```
pub const fn map_len(blocks: u64) -> usize {
    saturated(blocks / 4 + (blocks % 4 != 0) as u64)
}

const fn area_len(header: usize, each: usize, count: u64) -> usize {
    saturated((each as u64).saturating_mul(count).saturating_add(header as u64))
}

const fn saturated(length: u64) -> usize {
    let short = length as usize;
    if short as u64 == length {
        short
    } else {
        usize::MAX
    }
}

/// What a slot holds.
#[derive(Clone, Copy, Debug, PartialEq, Eq, Hash)]
pub enum Kind {
    /// The page equals its base.
    Empty = 0,
    /// The slot holds the bytes that differ.
    Patch = 1,
    /// The page stands in the full area.
    Full = 2,
}

impl Kind {
    /// The kind's number in a slot: 0, 1 or 2.
    pub fn number(self) -> u32 {
        self as u32
    }
}

/// How a page differs from its base.
#[derive(Clone, Copy, Debug, PartialEq, Eq, Hash)]
pub enum Difference {
    /// Not at all.
    Same = 0,
    /// By a stream that fits a slot.
    Patch = 1,
    /// By more than that.
    Large = 2,
}

impl Difference {
    /// The difference's number: 0, 1 or 2.
    pub fn number(self) -> u32 {
        self as u32
    }
}

/// What a block map says of a block. Its numbers are not those of [`Kind`].
#[derive(Clone, Copy, Debug, PartialEq, Eq, Hash)]
pub enum Pair {
    /// The block's page equals its base.
    Empty = 0,
    /// The block's page stands in the full area.
    Full = 1,
    /// The block's slot holds a patch.
    Patch = 2,
}

impl Pair {
    /// The pair as it stands in the map: 0, 1 or 2.
    pub fn number(self) -> u32 {
        self as u32
    }
}

/// How many of its stores a write makes. [`Stores::All`] is the whole write, the others are stops.
///
/// A write is at most two whole stores, in this order: for [`Kind::Full`] the page into the block's place
/// in the full area and then the slot; for the other kinds the slot and then zeros into the place. A
/// block that is not below the full area's number of pages has no place, so there the slot is all.
///
/// Whatever is told, refusals and answer are the same. After a stop [`read`] gives the block as before
/// the write or as after the whole of it, and every other block as before. [`build`] may find a page to
/// which no slot refers ([`Refusal::StrayPage`]), and a map that was kept may be wrong. So [`sweep`], then
/// [`build`] the map anew.
///
/// Told [`Stores::One`] and then, the same, [`Stores::All`], a write is whole. That is the way to make a
/// stop safe where the areas are mapped files: what is stored first need not be on disk first. Between
/// the two calls sync the area that was written, the full area for [`Kind::Full`], else the patch area,
/// and afterwards the other one. After a kill sync the patch area before the [`sweep`], and the full
/// area after it: a slot that the dead process stored may be in memory only, and the zeros of the sweep
/// must not be on disk before it.
#[derive(Clone, Copy, Debug, PartialEq, Eq, Hash)]
pub enum Stores {
    /// None: nothing changes.
    None = 0,
    /// The first one. A map that is lent stays as it is, also where one store is all there is.
    One = 1,
    /// All of them, and the block's pair in a map that is lent.
    All = 2,
}

impl Stores {
    /// The number by which the C interface is told: 0, 1 or 2. There any other number means all, too.
    pub fn number(self) -> u64 {
        self as u64
    }
}

/// Why a call was refused. Later versions of the library have more numbers.
#[derive(Clone, Copy, Debug, PartialEq, Eq, Hash)]
#[non_exhaustive]
pub enum Refusal {
    /// A base is not 0 or 8,192 bytes long, or another page is not 8,192 bytes long.
    PageLength = 1,
    /// The length of an area or slot is wrong, or there are too many blocks.
    AreaLength = 2,
    /// Magic, flags, sizes or zero bytes of a header are wrong.
    Header = 3,
    /// The version in a header is wrong.
    Version = 4,
    /// The store has no such block; for a cut, it has fewer blocks than are to be left.
    Block = 5,
    /// The slot is not sound; for [`highest`] and [`sweep`], some slot is not.
    Slot = 6,
    /// The payload is not sound; see [`apply`].
    Payload = 7,
    /// The full area has no place for this block's page; for [`sweep`], for that of some block.
    NoFullPage = 8,
    /// The payload buffer or the map buffer is too short.
    ShortBuffer = 9,
    /// The block's place in the full area holds bytes although its slot does not refer to it. After a
    /// write that is known to have been stopped, [`sweep`] removes them.
    StrayPage = 10,
    /// A pair of the map is 3, or a pair past the last block is not 0.
    Pair = 11,
}

const REFUSALS: [Refusal; 11] = [
    Refusal::PageLength,
    Refusal::AreaLength,
    Refusal::Header,
    Refusal::Version,
    Refusal::Block,
    Refusal::Slot,
    Refusal::Payload,
    Refusal::NoFullPage,
    Refusal::ShortBuffer,
    Refusal::StrayPage,
    Refusal::Pair,
];

impl Refusal {
    /// The refusal's number in the table of refusals.
    ///
    /// ```
    /// assert_eq!(thonxiliko::Refusal::Block.number(), 5);
    /// ```
    pub fn number(self) -> u32 {
        self as u32
    }

    /// The refusal with this number; none for 0 (done) and for numbers that are not in the table.
    ///
    /// ```
    /// use thonxiliko::Refusal;
    /// assert_eq!(Refusal::from_number(11), Some(Refusal::Pair));
    /// assert_eq!(Refusal::from_number(0), None);
    /// ```
    pub fn from_number(number: u32) -> Option<Refusal> {
        REFUSALS.iter().copied().find(|refusal| refusal.number() == number)
    }

    fn text(self) -> &'static str {
        match self {
            Refusal::PageLength => "a page has a wrong length",
            Refusal::AreaLength => "an area or slot has a wrong length, or too many blocks",
            Refusal::Header => "a header is wrong",
            Refusal::Version => "the version in a header is wrong",
            Refusal::Block => "the store has no such block",
            Refusal::Slot => "the slot is not sound",
            Refusal::Payload => "the payload is not sound",
            Refusal::NoFullPage => "the full area has no place for the block",
            Refusal::ShortBuffer => "the payload or map buffer is too short",
            Refusal::StrayPage => "the full area holds a page that no slot refers to",
            Refusal::Pair => "a pair of the map is wrong",
        }
    }
}

impl fmt::Display for Refusal {
    fn fmt(&self, f: &mut fmt::Formatter<'_>) -> fmt::Result {
        write!(f, "refused {}: {}", self.number(), self.text())
    }
}

impl Error for Refusal {}

/// Why [`apply`], [`read`] or [`read_mapped`] was refused, and where the payload breaks. Later versions
/// of the library may say more.
///
/// Where the offset is of no interest, `?` makes a [`Refusal`] of it.
#[derive(Clone, Copy, Debug, PartialEq, Eq, Hash)]
#[non_exhaustive]
pub struct PayloadRefusal {
    /// The refusal.
    pub refusal: Refusal,
    /// With [`Refusal::Payload`], the payload offset at which the first entry starts that is not
    /// sound; 0 for a payload that is empty or longer than 504 bytes. None with any other refusal. What
    /// damaged a payload mostly stands before it: a wrong jump moves every entry after it.
    pub offset: Option<usize>,
}

impl fmt::Display for PayloadRefusal {
    fn fmt(&self, f: &mut fmt::Formatter<'_>) -> fmt::Result {
        match self.offset {
            Some(offset) => write!(f, "{} (offset {offset})", self.refusal),
            None => self.refusal.fmt(f),
        }
    }
}

impl Error for PayloadRefusal {}

impl From<PayloadRefusal> for Refusal {
    fn from(fault: PayloadRefusal) -> Refusal {
        fault.refusal
    }
}

/// Why [`build`] was refused, at which block, and where its payload breaks. Later versions of the
/// library may say more.
///
/// Where block and offset are of no interest, `?` makes a [`Refusal`] of it.
#[derive(Clone, Copy, Debug, PartialEq, Eq, Hash)]
#[non_exhaustive]
pub struct BuildRefusal {
    /// The refusal.
    pub refusal: Refusal,
    /// The first block at fault, where the fault is one of a block (6, 7, 8 and 10).
    pub block: Option<u64>,
    /// As in [`PayloadRefusal`], in the payload of that block.
    pub offset: Option<usize>,
}

impl fmt::Display for BuildRefusal {
    fn fmt(&self, f: &mut fmt::Formatter<'_>) -> fmt::Result {
        match (self.block, self.offset) {
            (Some(block), Some(offset)) => {
                write!(f, "{} (block {block}, offset {offset})", self.refusal)
            }
            (Some(block), None) => write!(f, "{} (block {block})", self.refusal),
            (None, _) => self.refusal.fmt(f),
        }
    }
}

impl Error for BuildRefusal {}

impl From<BuildRefusal> for Refusal {
    fn from(fault: BuildRefusal) -> Refusal {
        fault.refusal
    }
}

/// What [`compare`] found, in numbers.
#[derive(Clone, Copy, Debug, PartialEq, Eq)]
pub struct Compared {
    /// How the pages differ.
    pub difference: Difference,
    /// Bytes of the whole stream, also where it is too long for a slot.
    pub length: usize,
    /// Entries of the whole stream, that is bytes that differ.
    pub entries: usize,
    /// The last position that differs.
    pub last: Option<usize>,
}

/// What a page takes to be stored over its base: made by [`compare`], carried out by [`carry_out`].
///
/// It holds the page that was compared and, of the lent buffer, just the payload's own bytes, and
/// borrows both. Nothing but a [`compare`] that was done makes one. So the two mistakes that a caller of
/// the C interface can make do not compile.
///
/// The right caller. Each of the others below differs from it in a line or two:
///
/// ```
/// use thonxiliko::{carry_out, compare, format, patch_area_len, read, Kind, Stores, PAGE_SIZE};
///
/// let mut patch = vec![0; patch_area_len(1)];
/// format(&mut patch, &mut [])?;
/// let mut page = [5; PAGE_SIZE];
/// page[0] = 7;
/// let mut buffer = [0; 504];
///
/// let decision = compare(&[5; PAGE_SIZE], &page, &mut buffer)?;
/// carry_out(&mut patch, &mut [], 0, &decision, Stores::All)?;
///
/// assert_eq!(decision.payload(), [0x00, 0x07]);
/// let mut again = [0; PAGE_SIZE];
/// assert_eq!(read(&patch, &[], 0, &[5; PAGE_SIZE], &mut again)?, Kind::Patch);
/// assert_eq!(again, page);
/// # Ok::<(), thonxiliko::Refusal>(())
/// ```
///
/// A refused Compare has decided nothing. In C its kind is 0, and carried out it would make the block
/// EMPTY: its page would be lost. Here the `?` cannot be left out:
///
/// ```compile_fail,E0308
/// # use thonxiliko::{carry_out, compare, format, patch_area_len, read, Kind, Stores, PAGE_SIZE};
/// # let mut patch = vec![0; patch_area_len(1)];
/// # format(&mut patch, &mut [])?;
/// # let mut page = [5; PAGE_SIZE];
/// # page[0] = 7;
/// # let mut buffer = [0; 504];
/// let decision = compare(&[5; PAGE_SIZE], &page, &mut buffer);
/// carry_out(&mut patch, &mut [], 0, &decision, Stores::All)?;
/// # Ok::<(), thonxiliko::Refusal>(())
/// ```
///
/// The whole buffer is not the payload. In C, `00 07` with 502 zeros after it is a sound payload of 252
/// entries, which would make bytes 1 to 251 zero. Here no decision is made by hand:
///
/// ```compile_fail,E0451
/// # use thonxiliko::{carry_out, compare, format, patch_area_len, read, Kind, Stores, PAGE_SIZE};
/// # let mut patch = vec![0; patch_area_len(1)];
/// # format(&mut patch, &mut [])?;
/// # let mut page = [5; PAGE_SIZE];
/// # page[0] = 7;
/// # let mut buffer = [0; 504];
/// let compared = compare(&[5; PAGE_SIZE], &page, &mut buffer)?.compared();
/// let decision = thonxiliko::Decision { compared, payload: &buffer, page: &page };
/// carry_out(&mut patch, &mut [], 0, &decision, Stores::All)?;
/// # Ok::<(), thonxiliko::Refusal>(())
/// ```
///
/// Nor does one that was made become another:
///
/// ```compile_fail,E0616
/// # use thonxiliko::{carry_out, compare, format, patch_area_len, read, Kind, Stores, PAGE_SIZE};
/// # let mut patch = vec![0; patch_area_len(1)];
/// # format(&mut patch, &mut [])?;
/// # let mut page = [5; PAGE_SIZE];
/// # page[0] = 7;
/// # let mut buffer = [0; 504];
/// # let whole = [0; 504];
/// let mut decision = compare(&[5; PAGE_SIZE], &page, &mut buffer)?;
/// decision.payload = &whole;
/// carry_out(&mut patch, &mut [], 0, &decision, Stores::All)?;
/// # Ok::<(), thonxiliko::Refusal>(())
/// ```
///
/// And neither the buffer nor the page changes between the two calls:
///
/// ```compile_fail,E0506
/// # use thonxiliko::{carry_out, compare, format, patch_area_len, read, Kind, Stores, PAGE_SIZE};
/// # let mut patch = vec![0; patch_area_len(1)];
/// # format(&mut patch, &mut [])?;
/// # let mut page = [5; PAGE_SIZE];
/// # page[0] = 7;
/// # let mut buffer = [0; 504];
/// let decision = compare(&[5; PAGE_SIZE], &page, &mut buffer)?;
/// buffer[1] = 8;
/// carry_out(&mut patch, &mut [], 0, &decision, Stores::All)?;
/// # Ok::<(), thonxiliko::Refusal>(())
/// ```
///
/// ```compile_fail,E0506
/// # use thonxiliko::{carry_out, compare, format, patch_area_len, read, Kind, Stores, PAGE_SIZE};
/// # let mut patch = vec![0; patch_area_len(1)];
/// # format(&mut patch, &mut [])?;
/// # let mut page = [5; PAGE_SIZE];
/// # page[0] = 7;
/// # let mut buffer = [0; 504];
/// let decision = compare(&[5; PAGE_SIZE], &page, &mut buffer)?;
/// page[0] = 8;
/// carry_out(&mut patch, &mut [], 0, &decision, Stores::All)?;
/// # Ok::<(), thonxiliko::Refusal>(())
/// ```
///
/// What it does not hold is the base and the block: carry it out on the block over whose base it was
/// made. A payload that comes from elsewhere is carried out by the C interface (`thonxiliko-sys`).
#[derive(Clone, Copy, PartialEq, Eq)]
pub struct Decision<'a> {
    compared: Compared,
    payload: &'a [u8],
    page: &'a [u8],
}

impl<'a> Decision<'a> {
    /// The numbers that [`compare`] found.
    pub fn compared(&self) -> Compared {
        self.compared
    }

    /// The kind that is stored if the decision is carried out: what a desk shows before it commits.
    pub fn kind(&self) -> Kind {
        match self.compared.difference {
            Difference::Same => Kind::Empty,
            Difference::Patch => Kind::Patch,
            Difference::Large => Kind::Full,
        }
    }

    /// The payload; empty unless the kind is [`Kind::Patch`].
    pub fn payload(&self) -> &'a [u8] {
        self.payload
    }

    /// The page that was compared.
    pub fn page(&self) -> &'a [u8] {
        self.page
    }
}

impl fmt::Debug for Decision<'_> {
    // Without the page, of which 8,192 numbers would be printed.
    fn fmt(&self, f: &mut fmt::Formatter<'_>) -> fmt::Result {
        let mut text = f.debug_struct("Decision");
        text.field("compared", &self.compared).field("payload", &self.payload);
        text.finish_non_exhaustive()
    }
}

/// What [`apply`] did.
#[derive(Clone, Copy, Debug, PartialEq, Eq)]
pub struct Applied {
    /// The number of entries applied.
    pub entries: usize,
    /// The position of the last one.
    pub last: usize,
}

/// One entry of a payload, given by [`Entries`].
#[derive(Clone, Copy, Debug, PartialEq, Eq, Hash)]
pub struct Entry {
    /// The byte of the page that it changes.
    pub position: usize,
    /// What that byte becomes.
    pub value: u8,
}

/// How [`Entries`] came to give no more.
#[derive(Clone, Copy, Debug, PartialEq, Eq, Hash)]
pub enum Ending {
    /// The payload is used up: it is sound.
    End,
    /// The payload is not sound.
    Stopped {
        /// The offset that [`apply`] gives: where the first entry starts that is not sound.
        offset: usize,
    },
}

/// What [`judge`] found.
#[derive(Clone, Copy, Debug, PartialEq, Eq)]
pub struct Judged {
    /// The slot's kind.
    pub kind: Kind,
    /// Bytes of its payload; 0 unless the kind is [`Kind::Patch`].
    pub length: usize,
}

/// What [`carry_out`] or [`carry_out_mapped`] stored; told fewer stores than all, what the whole write
/// would have.
#[derive(Clone, Copy, Debug, PartialEq, Eq)]
pub struct Written {
    /// The kind stored.
    pub kind: Kind,
    /// Bytes of the payload stored; 0 unless the kind is [`Kind::Patch`].
    pub length: usize,
}

/// What [`tally`] counted.
#[derive(Clone, Copy, Debug, PartialEq, Eq)]
pub struct Tally {
    /// Blocks whose slot holds a patch.
    pub patch: u64,
    /// Blocks whose page stands in the full area.
    pub full: u64,
}

/// A number that the interface never gives: the archive is not the one that this crate is for.
#[cold]
fn foreign(what: &str, number: impl fmt::Display) -> ! {
    panic!("libthonxiliko.a answered {what} {number}, which its interface does not have");
}

fn accepted(number: u32) -> Result<(), Refusal> {
    match Refusal::from_number(number) {
        None if number == 0 => Ok(()),
        None => foreign("the number", number),
        Some(refusal) => Err(refusal),
    }
}

fn kind(number: u32) -> Kind {
    match number {
        0 => Kind::Empty,
        1 => Kind::Patch,
        2 => Kind::Full,
        _ => foreign("the kind", number),
    }
}

fn difference(number: u32) -> Difference {
    match number {
        0 => Difference::Same,
        1 => Difference::Patch,
        2 => Difference::Large,
        _ => foreign("the kind", number),
    }
}

fn pair(number: u32) -> Pair {
    match number {
        0 => Pair::Empty,
        1 => Pair::Full,
        2 => Pair::Patch,
        _ => foreign("the pair", number),
    }
}

/// The offset that is given with [`Refusal::Payload`] alone.
fn break_of(refusal: Refusal, offset: u32) -> Option<usize> {
    (refusal == Refusal::Payload).then_some(offset as usize)
}

fn payload_accepted(number: u32, offset: u32) -> Result<(), PayloadRefusal> {
    accepted(number)
        .map_err(|refusal| PayloadRefusal { refusal, offset: break_of(refusal, offset) })
}

/// A position is a place in a page, or -1 for none.
fn position(last: i32) -> Option<usize> {
    match usize::try_from(last) {
        Ok(place) if place < PAGE_SIZE => Some(place),
        Err(_) if last == -1 => None,
        _ => foreign("the last position", last),
    }
}

/// Makes both areas new and empty. An empty `full` is an absent full area.
///
/// Refuses with [`Refusal::AreaLength`] only; old contents do not matter.
///
/// ```
/// let mut patch = vec![0xAA; thonxiliko::patch_area_len(2)];
/// let mut full = vec![0xAA; thonxiliko::full_area_len(2)];
/// thonxiliko::format(&mut patch, &mut full)?;
/// assert_eq!(&patch[..8], b"PBKPATCH");
/// assert!(full[4_096..].iter().all(|byte| *byte == 0));
/// # Ok::<(), thonxiliko::Refusal>(())
/// ```
pub fn format(patch: &mut [u8], full: &mut [u8]) -> Result<(), Refusal> {
    // SAFETY: each pointer and length are those of a slice borrowed for the call, and no slice
    // borrowed mutably overlaps another. The same holds for every call below.
    let done =
        unsafe { sys::thx_format(patch.as_mut_ptr(), patch.len(), full.as_mut_ptr(), full.len()) };
    accepted(done.number)
}

/// Finds the stream of bytes in which `page` differs from `base`, and so decides what the page takes to
/// be stored: nothing, a patch or a full page.
///
/// The stream is put into `payload` if it fits a slot ([`Difference::Patch`]). Otherwise, and after the
/// stream, `payload` stays as it was. The decision borrows `page` and `payload` until it is dropped.
///
/// Refuses, in this order: [`Refusal::PageLength`]; [`Refusal::ShortBuffer`] if `payload` has less
/// than 504 bytes.
///
/// ```
/// use thonxiliko::{compare, Difference, Kind, Refusal, PAGE_SIZE, PAYLOAD_SIZE};
///
/// let mut page = vec![0; PAGE_SIZE];
/// page[0] = 7;
/// let mut payload = [0xAA; PAYLOAD_SIZE];
/// let decision = compare(&[], &page, &mut payload)?;
/// assert_eq!((decision.kind(), decision.payload()), (Kind::Patch, &[0x00, 0x07][..]));
/// let compared = decision.compared();
/// assert_eq!((compared.difference, compared.last), (Difference::Patch, Some(0)));
/// assert_eq!((compared.length, compared.entries), (2, 1));
/// assert_eq!(payload[..3], [0x00, 0x07, 0xAA]);
///
/// // This one would take a full page.
/// let large = vec![9; PAGE_SIZE];
/// let decision = compare(&[], &large, &mut payload)?;
/// assert_eq!((decision.kind(), decision.payload()), (Kind::Full, &[][..]));
/// assert_eq!(decision.compared().length, 16_384);
/// assert_eq!(decision.page(), large);
///
/// assert_eq!(compare(&[], &page[1..], &mut payload), Err(Refusal::PageLength));
/// # Ok::<(), Refusal>(())
/// ```
pub fn compare<'a>(
    base: &[u8],
    page: &'a [u8],
    payload: &'a mut [u8],
) -> Result<Decision<'a>, Refusal> {
    // SAFETY: as in `format`.
    let compared = unsafe {
        sys::thx_compare(
            base.as_ptr(),
            base.len(),
            page.as_ptr(),
            page.len(),
            payload.as_mut_ptr(),
            payload.len(),
        )
    };
    accepted(compared.number)?;
    let compared = Compared {
        difference: difference(compared.kind),
        length: compared.length as usize,
        entries: compared.entries as usize,
        last: position(compared.last),
    };
    Ok(Decision { compared, payload: own_bytes(payload, &compared), page })
}

/// Of Compare's buffer, the bytes that are the payload.
fn own_bytes<'a>(buffer: &'a [u8], compared: &Compared) -> &'a [u8] {
    let length = if compared.difference == Difference::Patch { compared.length } else { 0 };
    buffer.get(..length).unwrap_or_else(|| foreign("the length", length))
}

/// Fills `page` with `base` and then the entries of `payload`.
///
/// Refuses, in this order: [`Refusal::PageLength`]; [`Refusal::Payload`] if the payload is empty,
/// longer than 504 bytes, or not a row of whole entries that stay in the page. An entry is a jump and a
/// value; a jump of 0 to 254 is one byte, and the byte 255 is followed by one of 255 or more in 16 bits,
/// the low byte first. A smaller jump there is refused too.
///
/// ```
/// let mut page = [0xFF; thonxiliko::PAGE_SIZE];
/// let applied = thonxiliko::apply(&[], &[0xFE, 0x01], &mut page)?;
/// assert_eq!((applied.entries, applied.last), (1, 254));
/// assert_eq!((page[253], page[254], page[255]), (0, 1, 0));
///
/// // The second entry has a jump and no value.
/// let fault = thonxiliko::apply(&[], &[0xFE, 0x01, 0x00], &mut page).unwrap_err();
/// assert_eq!(fault.to_string(), "refused 7: the payload is not sound (offset 2)");
/// assert_eq!(fault.offset, Some(2));
///
/// // After 255 a jump of 255 is sound; 254 has a code of one byte.
/// let applied = thonxiliko::apply(&[], &[0xFF, 0xFF, 0x00, 0x01], &mut page)?;
/// assert_eq!((applied.entries, applied.last), (1, 255));
/// let fault = thonxiliko::apply(&[], &[0xFF, 0xFE, 0x00, 0x01], &mut page).unwrap_err();
/// assert_eq!(fault.offset, Some(0));
/// # Ok::<(), thonxiliko::Refusal>(())
/// ```
pub fn apply(base: &[u8], payload: &[u8], page: &mut [u8]) -> Result<Applied, PayloadRefusal> {
    // SAFETY: as in `format`.
    let applied = unsafe {
        sys::thx_apply(
            base.as_ptr(),
            base.len(),
            payload.as_ptr(),
            payload.len(),
            page.as_mut_ptr(),
            page.len(),
        )
    };
    payload_accepted(applied.number, applied.offset)?;
    Ok(Applied {
        entries: applied.entries as usize,
        last: position(applied.last).unwrap_or_else(|| foreign("the last position", applied.last)),
    })
}

/// Reads the entries of a payload, one after the other.
///
/// Joined, they are those that [`apply`] uses. Of a payload that is not sound, those before the first
/// entry that is not sound are given. [`Entries::ending`] tells which it was. Two sound payloads that
/// give the same entries are the same bytes.
///
/// ```
/// use thonxiliko::{entries, Ending, Entry};
///
/// let mut sound = entries(&[0x00, 0x07, 0xFE, 0x01]);
/// assert_eq!(sound.next(), Some(Entry { position: 0, value: 7 }));
/// assert_eq!(sound.ending(), None);
/// assert_eq!(sound.next(), Some(Entry { position: 255, value: 1 }));
/// assert_eq!((sound.next(), sound.ending()), (None, Some(Ending::End)));
///
/// // The second entry leaves the page.
/// let mut broken = entries(&[0x00, 0x07, 0xFF, 0xFF, 0x1F, 0x01]);
/// assert_eq!(broken.by_ref().count(), 1);
/// assert_eq!(broken.ending(), Some(Ending::Stopped { offset: 2 }));
/// assert_eq!(broken.next(), None);
///
/// // The second entry has a jump of 0 in three bytes.
/// let mut broken = entries(&[0x00, 0x07, 0xFF, 0x00, 0x00, 0x05]);
/// assert_eq!(broken.by_ref().count(), 1);
/// assert_eq!(broken.ending(), Some(Ending::Stopped { offset: 2 }));
/// ```
pub fn entries(payload: &[u8]) -> Entries<'_> {
    Entries { payload, at: 0, position: -1, ending: None }
}

/// A reader of entries, made by [`entries`]. It remembers its payload and its place.
#[derive(Clone, Debug)]
pub struct Entries<'a> {
    payload: &'a [u8],
    at: u64,
    position: i32,
    ending: Option<Ending>,
}

impl Entries<'_> {
    /// Where the reader stands: the payload offset of the entry that comes next, or at which it has
    /// ended or stopped.
    pub fn offset(&self) -> usize {
        self.at as usize
    }

    /// How the reader came to give no more; none as long as it has not said so by `None`.
    pub fn ending(&self) -> Option<Ending> {
        self.ending
    }
}

impl Iterator for Entries<'_> {
    type Item = Entry;

    fn next(&mut self) -> Option<Entry> {
        if self.ending.is_some() {
            return None;
        }
        let Entries { payload, at, position, .. } = *self;
        // SAFETY: as in `format`.
        let step = unsafe { sys::thx_next(payload.as_ptr(), payload.len(), at, position) };
        match (step.number, step.found) {
            (0, 1) => {
                (self.at, self.position) = (step.at, step.position);
                return Some(entry(step));
            }
            (0, 0) => self.ending = Some(Ending::End),
            (7, 0) => self.ending = Some(Ending::Stopped { offset: self.offset() }),
            (number, _) => foreign("the number", number),
        }
        None
    }
}

impl FusedIterator for Entries<'_> {}

fn entry(step: sys::thx_entry) -> Entry {
    Entry {
        position: position(step.position).unwrap_or_else(|| foreign("the position", step.position)),
        value: u8::try_from(step.value).unwrap_or_else(|_| foreign("the value", step.value)),
    }
}

/// Tells whether one slot is sound. The entries of its payload are not looked at.
///
/// Refuses, in this order: [`Refusal::AreaLength`] if `slot` is not 512 bytes long;
/// [`Refusal::Slot`].
///
/// ```
/// use thonxiliko::{judge, Kind, Refusal, SLOT_SIZE};
///
/// let mut slot = [0; SLOT_SIZE];
/// assert_eq!(judge(&slot)?.kind, Kind::Empty);
/// slot[0] = 3;
/// assert_eq!(judge(&slot), Err(Refusal::Slot));
/// # Ok::<(), Refusal>(())
/// ```
pub fn judge(slot: &[u8]) -> Result<Judged, Refusal> {
    // SAFETY: as in `format`.
    let judged = unsafe { sys::thx_judge(slot.as_ptr(), slot.len()) };
    accepted(judged.number)?;
    Ok(Judged { kind: kind(judged.kind), length: judged.length as usize })
}

/// Hands out a block's payload, a part of `patch` itself.
///
/// There is none if the length or the header of the patch area is wrong, if it has no such block, or
/// if the block's slot is not a sound PATCH slot. The entries are not looked at.
///
/// ```
/// let mut patch = vec![0; thonxiliko::patch_area_len(1)];
/// thonxiliko::format(&mut patch, &mut [])?;
/// assert_eq!(thonxiliko::show(&patch, 0), None);
///
/// let mut page = vec![0; thonxiliko::PAGE_SIZE];
/// page[0] = 7;
/// let mut payload = [0; thonxiliko::PAYLOAD_SIZE];
/// let decision = thonxiliko::compare(&[], &page, &mut payload)?;
/// thonxiliko::carry_out(&mut patch, &mut [], 0, &decision, thonxiliko::Stores::All)?;
/// assert_eq!(thonxiliko::show(&patch, 0), Some(&[0x00, 0x07][..]));
/// # Ok::<(), thonxiliko::Refusal>(())
/// ```
pub fn show(patch: &[u8], block: u64) -> Option<&[u8]> {
    // SAFETY: as in `format`.
    let part = unsafe { sys::thx_show(patch.as_ptr(), patch.len(), block) };
    let at = usize::try_from(part.at).ok()?;
    let end = at.checked_add(usize::try_from(part.len).ok()?)?;
    patch.get(at..end).filter(|payload| !payload.is_empty())
}

/// Fills `page` with a block: its base, its patched base, or its page in the full area.
///
/// `base` is the block's page in the base, the same that it was written with.
///
/// Refuses, in this order: [`Refusal::PageLength`], [`Refusal::AreaLength`], [`Refusal::Header`] and
/// [`Refusal::Version`], [`Refusal::Block`], [`Refusal::Slot`], [`Refusal::NoFullPage`],
/// [`Refusal::Payload`]. Other blocks are not looked at.
///
/// ```
/// use thonxiliko::{format, patch_area_len, read, Kind, Refusal, PAGE_SIZE};
///
/// let mut patch = vec![0; patch_area_len(1)];
/// format(&mut patch, &mut [])?;
/// let base = vec![5; PAGE_SIZE];
/// let mut page = vec![0; PAGE_SIZE];
/// assert_eq!(read(&patch, &[], 0, &base, &mut page)?, Kind::Empty);
/// assert_eq!(page, base);
/// let fault = read(&patch, &[], 1, &base, &mut page).unwrap_err();
/// assert_eq!((fault.refusal, fault.offset), (Refusal::Block, None));
///
/// patch[512..522].copy_from_slice(&[1, 1, 3, 0, 0, 0, 0, 0, 0x00, 0x07]); // 00 07 00: cut off
/// let fault = read(&patch, &[], 0, &base, &mut page).unwrap_err();
/// assert_eq!((fault.refusal, fault.offset), (Refusal::Payload, Some(2)));
/// # Ok::<(), Refusal>(())
/// ```
pub fn read(
    patch: &[u8],
    full: &[u8],
    block: u64,
    base: &[u8],
    page: &mut [u8],
) -> Result<Kind, PayloadRefusal> {
    // SAFETY: as in `format`.
    let reading = unsafe {
        sys::thx_read(
            patch.as_ptr(),
            patch.len(),
            full.as_ptr(),
            full.len(),
            block,
            base.as_ptr(),
            base.len(),
            page.as_mut_ptr(),
            page.len(),
        )
    };
    payload_accepted(reading.number, reading.offset)?;
    Ok(kind(reading.kind))
}

/// Carries out a decision: stores on a block what [`compare`] decided.
///
/// Told [`Stores::All`] it is the whole write, of which this page speaks; told fewer it is stopped after
/// as many stores, with the same refusals and the same answer. See [`Stores`].
///
/// The block's slot is set: all zeros for [`Kind::Empty`], the payload for [`Kind::Patch`], a reference
/// for [`Kind::Full`]. If the block has a place in the full area, that holds the page for [`Kind::Full`]
/// and zeros otherwise. Nothing else changes. What the block held before is not looked at, so a slot that
/// is not sound is replaced too. Read back over the base that was compared, the block is the page.
///
/// Refuses, in this order: [`Refusal::AreaLength`], [`Refusal::Header`] and [`Refusal::Version`],
/// [`Refusal::Block`], and [`Refusal::NoFullPage`] if the kind is [`Kind::Full`] and the full area has no
/// place for the block. The C interface has further ones, for decisions that are not Compare's.
///
/// ```
/// use thonxiliko::{carry_out, compare, format, full_area_len, patch_area_len};
/// use thonxiliko::{Kind, Refusal, Stores, Written, PAGE_SIZE, PAYLOAD_SIZE};
///
/// let mut patch = vec![0; patch_area_len(2)];
/// let mut full = vec![0; full_area_len(1)];
/// format(&mut patch, &mut full)?;
/// let page = vec![9; PAGE_SIZE];
/// let mut payload = [0; PAYLOAD_SIZE];
/// let decision = compare(&[], &page, &mut payload)?;
/// assert_eq!(decision.kind(), Kind::Full);
/// assert_eq!(full[4_096], 0); // nothing is stored yet
///
/// let written = carry_out(&mut patch, &mut full, 0, &decision, Stores::All)?;
/// assert_eq!(written, Written { kind: Kind::Full, length: 0 });
/// assert_eq!((patch[512], &full[4_096..]), (2, &page[..]));
///
/// // A write that makes the block EMPTY is stopped between its two stores.
/// let mut other = [0; PAYLOAD_SIZE];
/// let empty = compare(&[], &[0; PAGE_SIZE], &mut other)?;
/// carry_out(&mut patch, &mut full, 0, &empty, Stores::One)?;
/// assert_eq!((patch[512], &full[4_096..]), (0, &page[..]));
/// // The same again, told all, is the whole write.
/// carry_out(&mut patch, &mut full, 0, &empty, Stores::All)?;
/// assert_eq!((patch[512], full[4_096]), (0, 0));
///
/// let refused = carry_out(&mut patch, &mut full, 1, &decision, Stores::All);
/// assert_eq!(refused, Err(Refusal::NoFullPage));
/// # Ok::<(), Refusal>(())
/// ```
pub fn carry_out(
    patch: &mut [u8],
    full: &mut [u8],
    block: u64,
    decision: &Decision<'_>,
    stores: Stores,
) -> Result<Written, Refusal> {
    // SAFETY: as in `format`.
    let written = unsafe {
        sys::thx_carry_out(
            patch.as_mut_ptr(),
            patch.len(),
            full.as_mut_ptr(),
            full.len(),
            block,
            decision.kind().number(),
            decision.payload.as_ptr(),
            decision.payload.len(),
            decision.page.as_ptr(),
            decision.page.len(),
            stores.number(),
        )
    };
    accepted(written.number)?;
    Ok(Written { kind: kind(written.kind), length: written.length as usize })
}

/// Carries out a decision, and keeps the block's pair in `map`.
///
/// It does to both areas what [`carry_out`] does. If it is done, and was told [`Stores::All`], the block's
/// own pair is set to what was stored, whatever it was before. Other pairs and later bytes of the map are
/// not looked at and stay. Told fewer stores it leaves the whole map.
///
/// A map tells the truth only if it is the store's own: all zeros beside fresh areas, else made by
/// [`build`], and lent to every write and every cut since. After one of them without it, after a write
/// that was stopped, or with another store's map, [`read_mapped`] can give the page of before, or zeros.
/// Build it anew then.
///
/// Refuses, in this order: [`Refusal::AreaLength`], [`Refusal::ShortBuffer`] if the map has less than
/// [`map_len`] bytes, [`Refusal::Header`] and [`Refusal::Version`], [`Refusal::Block`], and
/// [`Refusal::NoFullPage`] as in [`carry_out`]. If it is refused, the map stays as it is.
///
/// ```
/// use thonxiliko::{build, carry_out_mapped, compare, format, full_area_len, map_len};
/// use thonxiliko::{patch_area_len, Refusal, Stores, PAGE_SIZE, PAYLOAD_SIZE};
///
/// let mut patch = vec![0; patch_area_len(3)];
/// let mut full = vec![0; full_area_len(1)];
/// format(&mut patch, &mut full)?;
/// let mut map = vec![0; map_len(3)];
///
/// let large = vec![9; PAGE_SIZE];
/// let mut small = vec![0; PAGE_SIZE];
/// small[100] = 8;
/// let (mut first, mut second) = ([0; PAYLOAD_SIZE], [0; PAYLOAD_SIZE]);
/// let large = compare(&[], &large, &mut first)?;
/// let small = compare(&[], &small, &mut second)?;
/// carry_out_mapped(&mut patch, &mut full, &mut map, 0, &large, Stores::All)?;
/// carry_out_mapped(&mut patch, &mut full, &mut map, 2, &small, Stores::All)?;
/// assert_eq!(map, [0b00_10_00_01]);
/// let refused = carry_out_mapped(&mut patch, &mut full, &mut map, 1, &large, Stores::All);
/// assert_eq!(refused, Err(Refusal::NoFullPage));
///
/// let mut built = vec![0; map_len(3)];
/// build(&patch, &full, &mut built)?;
/// assert_eq!(map, built);
/// # Ok::<(), Refusal>(())
/// ```
pub fn carry_out_mapped(
    patch: &mut [u8],
    full: &mut [u8],
    map: &mut [u8],
    block: u64,
    decision: &Decision<'_>,
    stores: Stores,
) -> Result<Written, Refusal> {
    // SAFETY: as in `format`.
    let written = unsafe {
        sys::thx_carry_out_mapped(
            patch.as_mut_ptr(),
            patch.len(),
            full.as_mut_ptr(),
            full.len(),
            map.as_mut_ptr(),
            map.len(),
            block,
            decision.kind().number(),
            decision.payload.as_ptr(),
            decision.payload.len(),
            decision.page.as_ptr(),
            decision.page.len(),
            stores.number(),
        )
    };
    accepted(written.number)?;
    Ok(Written { kind: kind(written.kind), length: written.length as usize })
}

/// Fills `page` with a block by what the map says of it.
///
/// [`Pair::Empty`] gives the base, and neither slot nor full area is looked at. [`Pair::Patch`] needs a
/// sound PATCH slot. [`Pair::Full`] gives the block's page in the full area, whatever its slot is.
///
/// It trusts the map. With the map that [`build`] makes, or one kept by [`carry_out_mapped`] and
/// [`cut_mapped`], it answers as [`read`] does. A map that does not belong to the areas is mostly not
/// noticed: where it says EMPTY of a block that was written since, the base comes back, yesterday's page.
///
/// Refuses, in this order: [`Refusal::PageLength`], [`Refusal::AreaLength`], [`Refusal::ShortBuffer`]
/// if the map has less than [`map_len`] bytes, [`Refusal::Header`] and [`Refusal::Version`],
/// [`Refusal::Block`], [`Refusal::Pair`] if the block's own pair is 3, [`Refusal::Slot`],
/// [`Refusal::NoFullPage`], [`Refusal::Payload`]. Other blocks and their pairs are not looked at.
///
/// ```
/// use thonxiliko::{carry_out_mapped, compare, format, patch_area_len, read_mapped};
/// use thonxiliko::{Kind, Refusal, Stores, PAGE_SIZE, PAYLOAD_SIZE};
///
/// let mut patch = vec![0; patch_area_len(2)];
/// format(&mut patch, &mut [])?;
/// let mut map = [0];
/// let base = vec![5; PAGE_SIZE];
/// let mut changed = base.clone();
/// changed[0] = 6;
/// let mut payload = [0; PAYLOAD_SIZE];
/// let decision = compare(&base, &changed, &mut payload)?;
/// carry_out_mapped(&mut patch, &mut [], &mut map, 1, &decision, Stores::All)?;
///
/// let mut page = vec![0; PAGE_SIZE];
/// assert_eq!(read_mapped(&patch, &[], &map, 1, &base, &mut page)?, Kind::Patch);
/// assert_eq!(page, changed);
/// // A map that knows nothing of the write gives the base, and nobody notices.
/// assert_eq!(read_mapped(&patch, &[], &[0], 1, &base, &mut page)?, Kind::Empty);
/// assert_eq!(page, base);
/// // One that says PATCH of an EMPTY slot is noticed, and so is a pair of 3.
/// let fault = read_mapped(&patch, &[], &[0b10_10], 0, &base, &mut page).unwrap_err();
/// assert_eq!(fault.refusal, Refusal::Slot);
/// let fault = read_mapped(&patch, &[], &[0b11_00], 1, &base, &mut page).unwrap_err();
/// assert_eq!(fault.refusal, Refusal::Pair);
/// # Ok::<(), Refusal>(())
/// ```
pub fn read_mapped(
    patch: &[u8],
    full: &[u8],
    map: &[u8],
    block: u64,
    base: &[u8],
    page: &mut [u8],
) -> Result<Kind, PayloadRefusal> {
    // SAFETY: as in `format`.
    let reading = unsafe {
        sys::thx_read_mapped(
            patch.as_ptr(),
            patch.len(),
            full.as_ptr(),
            full.len(),
            map.as_ptr(),
            map.len(),
            block,
            base.as_ptr(),
            base.len(),
            page.as_mut_ptr(),
            page.len(),
        )
    };
    payload_accepted(reading.number, reading.offset)?;
    Ok(kind(reading.kind))
}

/// Drops block `k` and all blocks after it: the data file has become shorter and has `k` blocks now.
///
/// Their slots and their places in the full area become zeros, whatever they held. Each of these blocks
/// then reads as its base, and may be written over another base from then on; only such a block may.
/// Blocks below `k` keep every byte. The areas stay as long as they are.
///
/// Refuses, in this order: [`Refusal::AreaLength`], [`Refusal::Header`] and [`Refusal::Version`],
/// [`Refusal::Block`] if the store has fewer than `k` blocks. With just `k` blocks nothing changes. No
/// slot, payload or place is looked at, so none can be at fault.
///
/// A map that is kept must not miss it: see [`cut_mapped`].
///
/// ```
/// use thonxiliko::{carry_out, compare, cut, format, full_area_len, patch_area_len, read};
/// use thonxiliko::{Kind, Refusal, Stores, PAGE_SIZE, PAYLOAD_SIZE};
///
/// let mut patch = vec![0; patch_area_len(3)];
/// let mut full = vec![0; full_area_len(3)];
/// format(&mut patch, &mut full)?;
/// let (base, changed) = (vec![5; PAGE_SIZE], vec![9; PAGE_SIZE]);
/// let mut payload = [0; PAYLOAD_SIZE];
/// let decision = compare(&base, &changed, &mut payload)?;
/// for block in 0..3 {
///     carry_out(&mut patch, &mut full, block, &decision, Stores::All)?; // they have one base
/// }
/// cut(&mut patch, &mut full, 1)?;
///
/// let mut page = vec![0; PAGE_SIZE];
/// assert_eq!(read(&patch, &full, 0, &base, &mut page)?, Kind::Full);
/// assert_eq!(page, changed);
/// assert_eq!(read(&patch, &full, 1, &base, &mut page)?, Kind::Empty);
/// assert_eq!(page, base);
/// assert_eq!(cut(&mut patch, &mut full, 4), Err(Refusal::Block));
/// # Ok::<(), Refusal>(())
/// ```
pub fn cut(patch: &mut [u8], full: &mut [u8], k: u64) -> Result<(), Refusal> {
    // SAFETY: as in `format`.
    let done =
        unsafe { sys::thx_cut(patch.as_mut_ptr(), patch.len(), full.as_mut_ptr(), full.len(), k) };
    accepted(done.number)
}

/// Drops block `k` and all blocks after it, and their pairs in `map`.
///
/// It does to both areas what [`cut`] does. If it is done, the pairs of the dropped blocks are 0,
/// whatever they were. Pairs of blocks below `k`, pairs past the last block and later bytes of the map
/// are not looked at and stay.
///
/// Refuses, in this order: [`Refusal::AreaLength`], [`Refusal::ShortBuffer`] if the map has less than
/// [`map_len`] bytes, whatever `k` is, [`Refusal::Header`] and [`Refusal::Version`], and
/// [`Refusal::Block`] as in [`cut`]. A refused cut leaves the map.
///
/// ```
/// use thonxiliko::{build, carry_out_mapped, compare, cut_mapped, format, map_len};
/// use thonxiliko::{patch_area_len, Refusal, Stores, PAGE_SIZE, PAYLOAD_SIZE};
///
/// let mut patch = vec![0; patch_area_len(6)];
/// format(&mut patch, &mut [])?;
/// let mut map = vec![0; map_len(6)];
/// let mut page = vec![0; PAGE_SIZE];
/// page[100] = 8;
/// let mut payload = [0; PAYLOAD_SIZE];
/// let decision = compare(&[], &page, &mut payload)?;
/// for block in 0..6 {
///     carry_out_mapped(&mut patch, &mut [], &mut map, block, &decision, Stores::All)?;
/// }
/// assert_eq!(map, [0b10_10_10_10, 0b10_10]);
///
/// cut_mapped(&mut patch, &mut [], &mut map, 3)?;
/// assert_eq!(map, [0b00_10_10_10, 0]);
/// let mut built = vec![0; map_len(6)];
/// build(&patch, &[], &mut built)?;
/// assert_eq!(map, built);
/// assert_eq!(cut_mapped(&mut patch, &mut [], &mut map[..1], 6), Err(Refusal::ShortBuffer));
/// # Ok::<(), Refusal>(())
/// ```
pub fn cut_mapped(
    patch: &mut [u8],
    full: &mut [u8],
    map: &mut [u8],
    k: u64,
) -> Result<(), Refusal> {
    // SAFETY: as in `format`.
    let done = unsafe {
        sys::thx_cut_mapped(
            patch.as_mut_ptr(),
            patch.len(),
            full.as_mut_ptr(),
            full.len(),
            map.as_mut_ptr(),
            map.len(),
            k,
        )
    };
    accepted(done.number)
}

/// Tells up to where anything is kept: one more than the highest block whose slot is not EMPTY, or 0.
///
/// It is not always the length of the data file. A page that equals its base is EMPTY, and past the end
/// of the base so is a page of zeros; where the file ends with such pages, this is less.
///
/// Refuses, in this order: [`Refusal::AreaLength`], [`Refusal::Header`] and [`Refusal::Version`], and
/// [`Refusal::Slot`] if any slot is not sound, wherever it stands. Payloads are not looked at.
///
/// ```
/// use thonxiliko::{carry_out, compare, format, highest, patch_area_len};
/// use thonxiliko::{Refusal, Stores, PAGE_SIZE, PAYLOAD_SIZE};
///
/// let mut patch = vec![0; patch_area_len(5)];
/// format(&mut patch, &mut [])?;
/// assert_eq!(highest(&patch), Ok(0));
///
/// let mut page = vec![0; PAGE_SIZE];
/// page[100] = 8;
/// let mut payload = [0; PAYLOAD_SIZE];
/// carry_out(&mut patch, &mut [], 2, &compare(&[], &page, &mut payload)?, Stores::All)?;
/// assert_eq!(highest(&patch), Ok(3));
/// // The data file may have a fourth page, which equals its base.
/// carry_out(&mut patch, &mut [], 3, &compare(&page, &page, &mut payload)?, Stores::All)?;
/// assert_eq!(highest(&patch), Ok(3));
///
/// patch[512 + 511] = 1; // block 0: an EMPTY slot is all zeros
/// assert_eq!(highest(&patch), Err(Refusal::Slot));
/// # Ok::<(), Refusal>(())
/// ```
pub fn highest(patch: &[u8]) -> Result<u64, Refusal> {
    // SAFETY: as in `format`.
    let extent = unsafe { sys::thx_highest(patch.as_ptr(), patch.len()) };
    accepted(extent.number)?;
    Ok(extent.blocks)
}

/// Clears up after a write that was stopped: zeroes the place of every block whose slot does not refer to
/// it, and nothing else. `patch` is only read.
///
/// Every block reads as before, and [`build`] gives no [`Refusal::StrayPage`] any more; a store that it
/// accepts is not changed. Where one write of a run of writes and cuts from fresh areas was stopped, both
/// areas are, after the sweep, those of the run with that write whole or without it. Without it if it was
/// told [`Stores::None`], or told [`Stores::One`] with [`Kind::Full`] on a block whose slot did not refer
/// to a full page; else with it.
///
/// No map is lent. Build the map anew: by one from before the stop a block that was full reads as zeros.
///
/// Sweep only after a known stop. Without one [`Refusal::StrayPage`] means that something is lost, a slot
/// for instance, and then the place has the only copy of a page, which a sweep erases.
///
/// Refuses, in this order: [`Refusal::AreaLength`], [`Refusal::Header`] and [`Refusal::Version`]; then
/// [`Refusal::Slot`] or [`Refusal::NoFullPage`], that of the lowest block at fault. All slots are checked,
/// also where there is no full area. Payloads are not looked at.
///
/// ```
/// use thonxiliko::{build, carry_out_mapped, compare, format, full_area_len, patch_area_len};
/// use thonxiliko::{read, read_mapped, sweep, Kind, Refusal, Stores, PAGE_SIZE, PAYLOAD_SIZE};
///
/// let mut patch = vec![0; patch_area_len(2)];
/// let mut full = vec![0; full_area_len(2)];
/// let mut map = [0];
/// format(&mut patch, &mut full)?;
/// let (old, mut new) = (vec![9; PAGE_SIZE], vec![0; PAGE_SIZE]);
/// new[100] = 8;
/// let (mut first, mut second) = ([0; PAYLOAD_SIZE], [0; PAYLOAD_SIZE]);
/// let large = compare(&[], &old, &mut first)?;
/// let small = compare(&[], &new, &mut second)?;
/// carry_out_mapped(&mut patch, &mut full, &mut map, 0, &large, Stores::All)?;
///
/// // Stopped after one store: block 0 has its patch, and the old page still stands in its place.
/// carry_out_mapped(&mut patch, &mut full, &mut map, 0, &small, Stores::One)?;
/// let fault = build(&patch, &full, &mut [0]).unwrap_err();
/// assert_eq!((fault.refusal, fault.block), (Refusal::StrayPage, Some(0)));
/// sweep(&patch, &mut full)?;
/// assert_eq!(full[4_096], 0);
///
/// // The map did not see it, and gives neither page.
/// let mut page = vec![1; PAGE_SIZE];
/// assert_eq!(read_mapped(&patch, &full, &map, 0, &[], &mut page)?, Kind::Full);
/// assert_eq!(page, [0; PAGE_SIZE]);
/// build(&patch, &full, &mut map)?;
/// assert_eq!(read_mapped(&patch, &full, &map, 0, &[], &mut page)?, Kind::Patch);
/// assert_eq!(page, new);
///
/// patch[1_024] = 9; // block 1: no such kind
/// assert_eq!(sweep(&patch, &mut full), Err(Refusal::Slot));
/// # Ok::<(), Refusal>(())
/// ```
pub fn sweep(patch: &[u8], full: &mut [u8]) -> Result<(), Refusal> {
    // SAFETY: as in `format`.
    let done =
        unsafe { sys::thx_sweep(patch.as_ptr(), patch.len(), full.as_mut_ptr(), full.len()) };
    accepted(done.number)
}

/// Checks every slot, every payload and every place in the full area, and makes the block map.
///
/// The map has two bits for each block, block `b` in bits `2·(b mod 4)` and up of byte `b / 4`.
/// [`map_len`] bytes are written; later bytes of `map` stay.
///
/// Refuses, in this order: [`Refusal::AreaLength`], [`Refusal::ShortBuffer`], [`Refusal::Header`] and
/// [`Refusal::Version`]; then at the first block at fault [`Refusal::Slot`], [`Refusal::NoFullPage`],
/// [`Refusal::Payload`] or [`Refusal::StrayPage`].
///
/// ```
/// use thonxiliko::{build, format, patch_area_len, Refusal};
///
/// let mut patch = vec![0; patch_area_len(5)];
/// format(&mut patch, &mut [])?;
/// let mut map = [0xFF; 3];
/// assert_eq!(build(&patch, &[], &mut map), Ok(()));
/// assert_eq!(map, [0, 0, 0xFF]);
///
/// patch[512 + 512 * 3] = 9; // no such kind
/// let fault = build(&patch, &[], &mut map).unwrap_err();
/// assert_eq!((fault.refusal, fault.block, fault.offset), (Refusal::Slot, Some(3), None));
///
/// patch[1024..1034].copy_from_slice(&[1, 1, 3, 0, 0, 0, 0, 0, 0x00, 0x07]); // 00 07 00: cut off
/// let fault = build(&patch, &[], &mut map).unwrap_err();
/// assert_eq!(fault.to_string(), "refused 7: the payload is not sound (block 1, offset 2)");
/// # Ok::<(), Refusal>(())
/// ```
pub fn build(patch: &[u8], full: &[u8], map: &mut [u8]) -> Result<(), BuildRefusal> {
    // SAFETY: as in `format`.
    let built = unsafe {
        sys::thx_build(
            patch.as_ptr(),
            patch.len(),
            full.as_ptr(),
            full.len(),
            map.as_mut_ptr(),
            map.len(),
        )
    };
    accepted(built.number).map_err(|refusal| BuildRefusal {
        refusal,
        block: match refusal {
            Refusal::Slot | Refusal::Payload | Refusal::NoFullPage | Refusal::StrayPage => {
                Some(built.block)
            }
            _ => None,
        },
        offset: break_of(refusal, built.offset),
    })
}

/// Looks up one block in a map of `n` blocks.
///
/// Refuses, in this order: [`Refusal::AreaLength`] if `n` is over 131,072; [`Refusal::ShortBuffer`]
/// if the map has less than [`map_len`] bytes; [`Refusal::Block`]; [`Refusal::Pair`] if the block's
/// own pair is 3.
///
/// ```
/// use thonxiliko::{look_up, Pair, Refusal};
///
/// assert_eq!(look_up(&[0b00_11_10_01], 4, 1), Ok(Pair::Patch));
/// assert_eq!(look_up(&[0b00_11_10_01], 4, 2), Err(Refusal::Pair));
/// ```
pub fn look_up(map: &[u8], n: u64, block: u64) -> Result<Pair, Refusal> {
    // SAFETY: as in `format`.
    let found = unsafe { sys::thx_look_up(map.as_ptr(), map.len(), n, block) };
    accepted(found.number)?;
    Ok(pair(found.pair))
}

/// Counts the PATCH and the full pairs in a map of `n` blocks.
///
/// Refuses, in this order: [`Refusal::AreaLength`] if `n` is over 131,072; [`Refusal::ShortBuffer`]
/// if the map has less than [`map_len`] bytes; [`Refusal::Pair`] if one of the `n` pairs is 3 or an
/// unused pair of the last byte is not 0. Later bytes are not looked at.
///
/// ```
/// let tally = thonxiliko::tally(&[0xAA, 0x01, 0xFF], 5)?;
/// assert_eq!((tally.patch, tally.full), (4, 1));
/// # Ok::<(), thonxiliko::Refusal>(())
/// ```
pub fn tally(map: &[u8], n: u64) -> Result<Tally, Refusal> {
    // SAFETY: as in `format`.
    let tallied = unsafe { sys::thx_tally(map.as_ptr(), map.len(), n) };
    accepted(tallied.number)?;
    Ok(Tally { patch: tallied.patch, full: tallied.full })
}
