//! Every bit of both areas turned over, one at a time.

use thonxiliko::{
    entries, show, Ending, Kind, Refusal, FULL_HEADER_SIZE, PAGE_SIZE, PATCH_HEADER_SIZE, SLOT_SIZE,
};

use crate::checksum;
use crate::shipped::Block;
use crate::store::Store;

/// What stands before a payload in its slot.
const SLOT_HEAD: usize = 8;

/// Where a bit lies.
#[derive(Clone, Copy, Debug, PartialEq, Eq)]
pub enum Part {
    PatchHeader,
    EmptySlot,
    /// Kind, flags, length and zeros of a PATCH slot.
    PatchHead,
    Payload,
    /// The zeros behind a payload.
    PatchTail,
    FullSlot,
    FullHeader,
    /// The place of a FULL_REF block.
    FullPage,
    /// The place of another block, which is zeros.
    ZeroPlace,
}

pub const PARTS: [Part; 9] = [
    Part::PatchHeader,
    Part::EmptySlot,
    Part::PatchHead,
    Part::Payload,
    Part::PatchTail,
    Part::FullSlot,
    Part::FullHeader,
    Part::FullPage,
    Part::ZeroPlace,
];

impl Part {
    pub fn in_patch_area(self) -> bool {
        !matches!(self, Part::FullHeader | Part::FullPage | Part::ZeroPlace)
    }
}

/// How many bits of a part came to what. Each bit is counted in `bits` and in one other number, but for
/// `named` and `taken`, which are shares of `payload` and `other_page`.
#[derive(Clone, Copy, Debug, Default, PartialEq, Eq)]
pub struct Counts {
    pub bits: u64,
    /// Refused by Read and by Build with the same number.
    pub header: u64,
    pub version: u64,
    pub slot: u64,
    pub payload: u64,
    /// Of `payload`: the flipped bit lies in the entry that the offset names.
    pub named: u64,
    pub no_full_page: u64,
    /// Refused by Build with 10; Read gives the page that was written.
    pub stray_right: u64,
    /// Refused by Build with 10; Read gives another page.
    pub stray_wrong: u64,
    /// Refused by neither; Read gives another page.
    pub other_page: u64,
    /// Refused by neither; Read gives the page that was written.
    pub same_page: u64,
    /// Of `other_page`: PostgreSQL's checksum fits too.
    pub taken: u64,
}

impl Counts {
    pub fn add(&mut self, other: &Counts) {
        self.bits += other.bits;
        self.header += other.header;
        self.version += other.version;
        self.slot += other.slot;
        self.payload += other.payload;
        self.named += other.named;
        self.no_full_page += other.no_full_page;
        self.stray_right += other.stray_right;
        self.stray_wrong += other.stray_wrong;
        self.other_page += other.other_page;
        self.same_page += other.same_page;
        self.taken += other.taken;
    }

    pub fn refused_by_read(&self) -> u64 {
        self.header + self.version + self.slot + self.payload + self.no_full_page
    }

    pub fn refused_by_build(&self) -> u64 {
        self.refused_by_read() + self.stray_right + self.stray_wrong
    }

    /// Every bit came to one thing.
    pub fn add_up(&self) -> bool {
        self.bits == self.refused_by_build() + self.other_page + self.same_page
            && self.named <= self.payload
            && self.taken <= self.other_page
    }
}

/// The counts of each part, in the order of `PARTS`.
pub type Table = [Counts; PARTS.len()];

/// Flips each bit of both areas, asks Build and Read, and puts the bit back.
pub fn count(store: &Store, blocks: &[Block]) -> Table {
    let mut table = Table::default();
    let mut damaged = store.clone();
    for at in 0..store.patch.len() {
        let (part, block) = in_patch_area(store, at);
        for bit in 0..8 {
            damaged.patch[at] ^= 1 << bit;
            let counts = &mut table[part as usize];
            if let Some(offset) = ask(&damaged, blocks, block, counts) {
                counts.named += u64::from(names(&damaged, block, offset, at));
            }
            damaged.patch[at] ^= 1 << bit;
        }
    }
    for at in 0..store.full.len() {
        let (part, block) = in_full_area(store, at);
        for bit in 0..8 {
            damaged.full[at] ^= 1 << bit;
            ask(&damaged, blocks, block, &mut table[part as usize]);
            damaged.full[at] ^= 1 << bit;
        }
    }
    table
}

/// The part that a byte belongs to, and the block that is read. A header belongs to every block; block 0
/// is read for it.
pub(crate) fn in_patch_area(store: &Store, at: usize) -> (Part, usize) {
    if at < PATCH_HEADER_SIZE {
        return (Part::PatchHeader, 0);
    }
    let (block, inside) = ((at - PATCH_HEADER_SIZE) / SLOT_SIZE, at % SLOT_SIZE);
    let (kind, length) = store.judge(block).expect("the undamaged store is sound");
    let part = match kind {
        Kind::Empty => Part::EmptySlot,
        Kind::Full => Part::FullSlot,
        Kind::Patch if inside < SLOT_HEAD => Part::PatchHead,
        Kind::Patch if inside < SLOT_HEAD + length => Part::Payload,
        Kind::Patch => Part::PatchTail,
    };
    (part, block)
}

fn in_full_area(store: &Store, at: usize) -> (Part, usize) {
    if at < FULL_HEADER_SIZE {
        return (Part::FullHeader, 0);
    }
    let block = (at - FULL_HEADER_SIZE) / PAGE_SIZE;
    let (kind, _) = store.judge(block).expect("the undamaged store is sound");
    (if kind == Kind::Full { Part::FullPage } else { Part::ZeroPlace }, block)
}

/// Asks Build and Read, and counts what they answer. Where both refuse they must agree, in the payload's
/// offset too, and Build must name the block; only 10 is Build's alone. The offset, if there is one.
fn ask(damaged: &Store, blocks: &[Block], block: usize, counts: &mut Counts) -> Option<usize> {
    let mut page = [0; PAGE_SIZE];
    let built = damaged.build();
    let read = damaged.read(block, &mut page);
    let right = page[..] == blocks[block].page[..];
    counts.bits += 1;
    if let Some(named) = built.err().and_then(|fault| fault.block) {
        assert_eq!(named, block as u64, "Build names another block");
    }
    let built = built.map_err(|fault| (fault.refusal, fault.offset));
    match (built, read.map_err(|fault| (fault.refusal, fault.offset))) {
        (Err(one), Err(other)) if one == other => {
            let (refusal, offset) = one;
            *refused(counts, refusal) += 1;
            hold_reader(damaged, block, offset);
            return offset;
        }
        (Err((Refusal::StrayPage, None)), Ok(_)) if right => counts.stray_right += 1,
        (Err((Refusal::StrayPage, None)), Ok(_)) => counts.stray_wrong += 1,
        (Ok(()), Ok(_)) if right => counts.same_page += 1,
        (Ok(()), Ok(_)) => {
            counts.other_page += 1;
            counts.taken += u64::from(checksum::taken(&page, blocks[block].number));
        }
        (built, read) => panic!("block {block}: Build says {built:?} and Read {read:?}"),
    }
    None
}

/// Whether the entry at this offset of the block's payload takes in this byte of the patch area.
fn names(damaged: &Store, block: usize, offset: usize, at: usize) -> bool {
    let start = PATCH_HEADER_SIZE + SLOT_SIZE * block + SLOT_HEAD + offset;
    let length = if damaged.patch[start] == 255 { 4 } else { 2 };
    (start..start + length).contains(&at)
}

/// A reader of a payload that breaks stops where Build and Read say.
fn hold_reader(damaged: &Store, block: usize, offset: Option<usize>) {
    if let Some(offset) = offset {
        let payload = show(&damaged.patch, block as u64).expect("the slot is sound");
        let mut reader = entries(payload);
        reader.by_ref().for_each(drop);
        assert_eq!(reader.ending(), Some(Ending::Stopped { offset }), "block {block}");
    }
}

fn refused(counts: &mut Counts, refusal: Refusal) -> &mut u64 {
    match refusal {
        Refusal::Header => &mut counts.header,
        Refusal::Version => &mut counts.version,
        Refusal::Slot => &mut counts.slot,
        Refusal::Payload => &mut counts.payload,
        Refusal::NoFullPage => &mut counts.no_full_page,
        other => panic!("a flipped bit is refused by {}", other.number()),
    }
}
