//! One store over the shipped pages, and what its calls answer.

use std::ops::Range;

use thonxiliko::{
    build, carry_out, compare, format, full_area_len, judge, map_len, patch_area_len, read,
    read_mapped, sweep, BuildRefusal, Kind, PayloadRefusal, Refusal, Stores, FULL_HEADER_SIZE,
    PAGE_SIZE, PATCH_HEADER_SIZE, PAYLOAD_SIZE, SLOT_SIZE,
};

use crate::shipped::Block;

/// What is damaged: both areas, and the base pages that are lent with them.
#[derive(Clone)]
pub struct Store {
    pub patch: Vec<u8>,
    pub full: Vec<u8>,
    pub bases: Vec<Vec<u8>>,
}

/// The bytes of a block's slot in the patch area.
pub fn slot(block: usize) -> Range<usize> {
    let start = PATCH_HEADER_SIZE + SLOT_SIZE * block;
    start..start + SLOT_SIZE
}

/// The bytes of a block's place in the full area.
pub fn place(block: usize) -> Range<usize> {
    let start = FULL_HEADER_SIZE + PAGE_SIZE * block;
    start..start + PAGE_SIZE
}

impl Store {
    /// All blocks written into fresh areas, the full area just long enough.
    pub fn of(blocks: &[Block]) -> Result<Store, Refusal> {
        let mut store = Store::fresh(blocks, pages_needed(blocks)?)?;
        for (at, block) in blocks.iter().enumerate() {
            store.write(at, block)?;
        }
        Ok(store)
    }

    /// Keeps a block's page over its base: what Compare decides is carried out.
    pub fn write(&mut self, at: usize, block: &Block) -> Result<(), Refusal> {
        self.write_told(at, &block.base, &block.page, Stores::All)
    }

    /// The same for any base and page, stopped if it is told fewer stores than all.
    pub fn write_told(
        &mut self,
        at: usize,
        base: &[u8],
        page: &[u8],
        stores: Stores,
    ) -> Result<(), Refusal> {
        let mut payload = [0; PAYLOAD_SIZE];
        let decision = compare(base, page, &mut payload)?;
        carry_out(&mut self.patch, &mut self.full, at as u64, &decision, stores)?;
        Ok(())
    }

    pub fn sweep(&mut self) -> Result<(), Refusal> {
        sweep(&self.patch, &mut self.full)
    }

    pub fn fresh(blocks: &[Block], pages: usize) -> Result<Store, Refusal> {
        let mut store = Store {
            patch: vec![0; patch_area_len(blocks.len() as u64)],
            full: vec![0; full_area_len(pages as u64)],
            bases: blocks.iter().map(|block| block.base.clone()).collect(),
        };
        format(&mut store.patch, &mut store.full)?;
        Ok(store)
    }

    /// Blocks that the full area has places for.
    pub fn pages(&self) -> usize {
        self.full.len().saturating_sub(FULL_HEADER_SIZE) / PAGE_SIZE
    }

    pub fn judge(&self, block: usize) -> Result<(Kind, usize), Refusal> {
        judge(&self.patch[slot(block)]).map(|judged| (judged.kind, judged.length))
    }

    pub fn kinds(&self) -> Result<Vec<Kind>, Refusal> {
        (0..self.bases.len()).map(|block| self.judge(block).map(|(kind, _)| kind)).collect()
    }

    pub fn read(&self, block: usize, page: &mut [u8]) -> Result<Kind, PayloadRefusal> {
        read(&self.patch, &self.full, block as u64, &self.bases[block], page)
    }

    pub fn read_mapped(
        &self,
        map: &[u8],
        block: usize,
        page: &mut [u8],
    ) -> Result<Kind, PayloadRefusal> {
        read_mapped(&self.patch, &self.full, map, block as u64, &self.bases[block], page)
    }

    /// The map of a sound store.
    pub fn map(&self) -> Result<Vec<u8>, BuildRefusal> {
        let mut map = vec![0; map_len(self.bases.len() as u64)];
        build(&self.patch, &self.full, &mut map)?;
        Ok(map)
    }

    pub fn build(&self) -> Result<(), BuildRefusal> {
        let slots = self.patch.len() / SLOT_SIZE;
        build(&self.patch, &self.full, &mut vec![0; map_len(slots as u64)])
    }
}

/// Up to the last block that differs in too much for a slot.
fn pages_needed(blocks: &[Block]) -> Result<usize, Refusal> {
    let mut needed = 0;
    for (at, block) in blocks.iter().enumerate() {
        if compare(&block.base, &block.page, &mut [0; PAYLOAD_SIZE])?.kind() == Kind::Full {
            needed = at + 1;
        }
    }
    Ok(needed)
}
