//! Slots, pages and areas that are lost, swapped, cut, doubled, or lent with another base.

use thonxiliko::{Kind, PayloadRefusal, Stores, PAGE_SIZE, PATCH_HEADER_SIZE, SLOT_SIZE};

use crate::checksum;
use crate::shipped::Block;
use crate::store::{place, slot, Store};

/// What a page that was read is.
#[derive(Clone, Copy, Debug, PartialEq, Eq)]
pub enum Page {
    /// The page that was written.
    Written,
    /// The block's page in the base that it was written over.
    Base,
    /// The page of the base that was lent, which is not the one that the block was written over.
    LentBase,
    /// What the block held before its last write.
    Earlier,
    /// The page that was written to another block.
    OfBlock(usize),
    Zeros,
    /// A page that never was.
    Never,
}

/// What Read gives for one block: a number if it refuses, else the kind, what the page is, and whether
/// PostgreSQL's checksum fits it.
#[derive(Clone, Copy, Debug, PartialEq, Eq)]
pub enum Given {
    Refused(u32),
    Page { kind: Kind, page: Page, taken: bool },
}

#[derive(Clone, Debug)]
pub struct Case {
    pub what: &'static str,
    /// Build's number, and the block that it names.
    pub build: (u32, Option<u64>),
    /// The blocks that the case is about.
    pub reads: Vec<(usize, Given)>,
    pub others: Others,
}

/// What all blocks give that a case is not about.
#[derive(Clone, Copy, Debug, PartialEq, Eq)]
pub enum Others {
    /// Each the page that was written to it.
    Written,
    Refused(u32),
}

/// A sound store, and blocks of every kind in it.
pub(crate) struct Ground<'b> {
    blocks: &'b [Block],
    store: Store,
    pub(crate) patch: [usize; 2],
    pub(crate) full: [usize; 2],
    /// EMPTY blocks with a place in the full area and without one.
    pub(crate) empty: usize,
    pub(crate) empty_past: usize,
    last: usize,
}

impl<'b> Ground<'b> {
    pub(crate) fn new(store: &Store, blocks: &'b [Block]) -> Ground<'b> {
        let kinds = store.kinds().expect("a sound store");
        let of = |wanted: Kind| -> Vec<usize> {
            (0..kinds.len()).filter(|block| kinds[*block] == wanted).collect()
        };
        let (patch, full, empty) = (of(Kind::Patch), of(Kind::Full), of(Kind::Empty));
        let below = |at: &&usize| **at < store.pages();
        let (inside, past) = (empty.iter().find(below), empty.iter().rev().find(|at| !below(at)));
        Ground {
            blocks,
            store: store.clone(),
            patch: [patch[0], patch[1]],
            full: [full[0], full[1]],
            empty: *inside.expect("an EMPTY block below m"),
            empty_past: *past.expect("an EMPTY block at or past m"),
            last: blocks.len() - 1,
        }
    }

    /// Damages a copy of the store, and asks Build and Read about it.
    fn case(&self, what: &'static str, about: &[usize], damage: impl FnOnce(&mut Store)) -> Case {
        let mut damaged = self.store.clone();
        damage(&mut damaged);
        let build = match damaged.build() {
            Ok(()) => (0, None),
            Err(fault) => (fault.refusal.number(), fault.block),
        };
        let reads = about.iter().map(|block| (*block, self.given(&damaged, *block))).collect();
        Case { what, build, reads, others: self.others(&damaged, about) }
    }

    fn given(&self, damaged: &Store, block: usize) -> Given {
        let mut page = [0; PAGE_SIZE];
        let read = damaged.read(block, &mut page);
        self.came(damaged, block, read, &page)
    }

    /// What came of a read, and what the page is.
    pub(crate) fn came(
        &self,
        damaged: &Store,
        block: usize,
        read: Result<Kind, PayloadRefusal>,
        page: &[u8],
    ) -> Given {
        match read {
            Err(fault) => Given::Refused(fault.refusal.number()),
            Ok(kind) => Given::Page {
                kind,
                page: self.what_is(page, block, &damaged.bases[block]),
                taken: checksum::taken(page, self.blocks[block].number),
            },
        }
    }

    fn what_is(&self, page: &[u8], block: usize, lent: &[u8]) -> Page {
        let Block { base, page: written, .. } = &self.blocks[block];
        match page {
            page if page == written => Page::Written,
            page if page == filled(base) => Page::Base,
            page if page == filled(lent) => Page::LentBase,
            page if page == earlier(&self.blocks[block]) => Page::Earlier,
            page if page.iter().all(|byte| *byte == 0) => Page::Zeros,
            page => match self.blocks.iter().position(|block| block.page == page) {
                Some(other) => Page::OfBlock(other),
                None => Page::Never,
            },
        }
    }

    /// What all blocks give that a case is not about.
    fn others(&self, damaged: &Store, about: &[usize]) -> Others {
        let others = (0..self.blocks.len()).filter(|block| !about.contains(block));
        let mut all = others.map(|block| match self.given(damaged, block) {
            Given::Refused(number) => Others::Refused(number),
            Given::Page { page: Page::Written, .. } => Others::Written,
            given => panic!("block {block}, which the case is not about, gives {given:?}"),
        });
        let first = all.next().expect("a case is not about every block");
        assert!(all.all(|other| other == first), "blocks that a case is not about differ");
        first
    }

    fn of_kind(&self, wanted: impl Fn(Kind) -> bool) -> Vec<usize> {
        let kinds = self.store.kinds().expect("a sound store");
        (0..kinds.len()).filter(|block| wanted(kinds[*block])).collect()
    }
}

/// A base of length 0 stands for zeros.
pub(crate) fn filled(base: &[u8]) -> Vec<u8> {
    let mut page = base.to_vec();
    page.resize(PAGE_SIZE, 0);
    page
}

/// The page between base and written page: half of the bytes that differ, and the checksum for it. It
/// is made up; a block that was written twice in a day has had one.
pub fn earlier(block: &Block) -> Vec<u8> {
    let mut page = filled(&block.base);
    let differ: Vec<usize> = (0..PAGE_SIZE).filter(|at| page[*at] != block.page[*at]).collect();
    for at in &differ[..differ.len() / 2] {
        page[*at] = block.page[*at];
    }
    checksum::set(&mut page, block.number);
    page
}

/// The base of a day later: the written page with bytes all over it changed once more, and the checksum
/// for it. It is made up.
pub fn later_base(block: &Block) -> Vec<u8> {
    const STEP: usize = 97;
    const PAGE_HEADER: usize = 24;
    let mut page = block.page.clone();
    for at in (PAGE_HEADER..PAGE_SIZE).step_by(STEP) {
        page[at] = page[at].wrapping_add(1);
    }
    checksum::set(&mut page, block.number);
    page
}

/// Exchanges two stretches of the same length.
fn swap(bytes: &mut [u8], one: std::ops::Range<usize>, other: std::ops::Range<usize>) {
    for (one, other) in one.zip(other) {
        bytes.swap(one, other);
    }
}

pub fn all(store: &Store, blocks: &[Block]) -> Vec<Case> {
    let ground = Ground::new(store, blocks);
    let mut cases = lost(&ground);
    cases.extend(swapped(&ground));
    cases.extend(doubled(&ground));
    cases.extend(other_bases(&ground));
    cases.extend(patch_areas(&ground));
    cases.extend(full_areas(&ground));
    cases
}

fn lost(ground: &Ground) -> Vec<Case> {
    let ([patch, _], [full, _]) = (ground.patch, ground.full);
    let older = |store: &mut Store| {
        let Block { base, .. } = &ground.blocks[patch];
        let page = earlier(&ground.blocks[patch]);
        store.write_told(patch, base, &page, Stores::All).expect("a patch");
    };
    vec![
        ground
            .case("a PATCH slot set to zeros", &[patch], |store| store.patch[slot(patch)].fill(0)),
        ground.case("a PATCH slot as it was before the last write", &[patch], older),
        ground.case("a FULL_REF slot set to zeros, its page kept", &[full], |store| {
            store.patch[slot(full)].fill(0)
        }),
        ground.case("a FULL_REF slot set to zeros, its page kept, then swept", &[full], |store| {
            store.patch[slot(full)].fill(0);
            store.sweep().expect("sound slots");
        }),
        ground.case("a FULL_REF slot and its page set to zeros", &[full], |store| {
            store.patch[slot(full)].fill(0);
            store.full[place(full)].fill(0);
        }),
        ground.case("a full page set to zeros, its slot kept", &[full], |store| {
            store.full[place(full)].fill(0)
        }),
    ]
}

fn swapped(ground: &Ground) -> Vec<Case> {
    let ([patch, second], [full, other], empty) = (ground.patch, ground.full, ground.empty);
    vec![
        ground.case("two PATCH slots swapped", &[patch, second], |store| {
            swap(&mut store.patch, slot(patch), slot(second))
        }),
        ground.case("a PATCH slot and an EMPTY slot swapped", &[patch, empty], |store| {
            swap(&mut store.patch, slot(patch), slot(empty))
        }),
        ground.case("a PATCH slot and a FULL_REF slot swapped", &[patch, full], |store| {
            swap(&mut store.patch, slot(patch), slot(full))
        }),
        ground.case("two full pages swapped", &[full, other], |store| {
            swap(&mut store.full, place(full), place(other))
        }),
    ]
}

fn doubled(ground: &Ground) -> Vec<Case> {
    let ([patch, _], [full, _]) = (ground.patch, ground.full);
    let (empty, past) = (ground.empty, ground.empty_past);
    vec![
        ground.case("a PATCH slot also over an EMPTY one", &[empty], |store| {
            store.patch.copy_within(slot(patch), slot(empty).start)
        }),
        ground.case("a FULL_REF slot also over an EMPTY one below m", &[empty], |store| {
            store.patch.copy_within(slot(full), slot(empty).start)
        }),
        ground.case("a FULL_REF slot also over an EMPTY one not below m", &[past], |store| {
            store.patch.copy_within(slot(full), slot(past).start)
        }),
        ground.case("a full page also in the place of an EMPTY block", &[empty], |store| {
            store.full.copy_within(place(full), place(empty).start)
        }),
    ]
}

fn other_bases(ground: &Ground) -> Vec<Case> {
    let ([patch, second], [full, _], empty) = (ground.patch, ground.full, ground.empty);
    let later = |store: &mut Store, block: usize| {
        store.bases[block] = later_base(&ground.blocks[block]);
    };
    vec![
        ground.case("a PATCH slot over the base of a day later", &[patch], |store| {
            later(store, patch)
        }),
        ground.case("a FULL_REF slot over the base of a day later", &[full], |store| {
            later(store, full)
        }),
        ground.case("an EMPTY slot over the base of a day later", &[empty], |store| {
            later(store, empty)
        }),
        ground.case("a PATCH slot over the base page of another block", &[patch], |store| {
            store.bases[patch] = store.bases[second].clone()
        }),
        ground.case("a PATCH slot over a base of length 0", &[patch], |store| {
            store.bases[patch].clear()
        }),
    ]
}

fn patch_areas(ground: &Ground) -> Vec<Case> {
    let ([patch, _], last) = (ground.patch, ground.last);
    let changed = ground.of_kind(|kind| kind != Kind::Empty);
    let fresh = |pages| Store::fresh(ground.blocks, pages).expect("sound lengths");
    let pages = ground.store.pages();
    let mut cases = vec![
        ground.case("the patch area lost (0 bytes)", &[patch], |store| store.patch.clear()),
        ground.case("the patch area cut by 1 byte", &[patch], |store| {
            store.patch.pop();
        }),
        ground.case("the patch area cut by its last slot", &[last], |store| {
            store.patch.truncate(slot(last).start)
        }),
        ground.case("the patch area cut to fewer slots than full pages", &[patch], |store| {
            store.patch.truncate(slot(pages - 1).start)
        }),
        ground.case("the patch area longer by a slot of zeros", &[last], |store| {
            store.patch.extend([0; SLOT_SIZE])
        }),
        ground.case("the patch area twice in a row", &[last], |store| {
            store.patch.extend_from_within(..)
        }),
        ground.case("the patch area all zeros", &[patch], |store| store.patch.fill(0)),
        ground.case("the patch header zeros, the slots kept", &[patch], |store| {
            store.patch[..PATCH_HEADER_SIZE].fill(0)
        }),
        ground.case("both areas exchanged", &[patch], |store| {
            std::mem::swap(&mut store.patch, &mut store.full)
        }),
    ];
    cases.extend([
        ground.case("the patch area formatted, the full area kept", &changed, |store| {
            store.patch = fresh(pages).patch
        }),
        ground.case("both areas formatted", &changed, |store| *store = fresh(pages)),
    ]);
    cases
}

fn full_areas(ground: &Ground) -> Vec<Case> {
    let pages = ground.store.pages();
    let last_page = pages - 1;
    let of_full = ground.of_kind(|kind| kind == Kind::Full);
    let [full, _] = ground.full;
    vec![
        ground.case("the full area lost (0 bytes)", &of_full, |store| store.full.clear()),
        ground.case("the full area cut by 1 byte", &[full], |store| {
            store.full.pop();
        }),
        ground.case("the full area cut by its last page", &[last_page], |store| {
            store.full.truncate(place(last_page).start)
        }),
        ground.case("the full area longer by a page of zeros", &[full], |store| {
            store.full.extend([0; PAGE_SIZE])
        }),
        ground.case("the full area twice in a row", &[full], |store| {
            store.full.extend_from_within(..)
        }),
        ground.case("the full area all zeros", &[full], |store| store.full.fill(0)),
        ground.case("the full area formatted, the patch area kept", &of_full, |store| {
            store.full = Store::fresh(ground.blocks, pages).expect("sound lengths").full
        }),
    ]
}
