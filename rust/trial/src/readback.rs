//! A stored segment, read back from its files.

use std::path::Path;

use thonxiliko::{highest, look_up, Kind, Pair, PAGE_SIZE};

use crate::folder::Pages;
use crate::held::Held;
use crate::problem::{Outcome, Problem};
use crate::segment::{mistake, Counts, CHANGED_MEANWHILE};

/// Reads every block back, by the map and by its slot, and holds it against the changed file, and the map
/// and the highest block against the reads.
pub fn check(held: &Held, base: &Path, changed: &Path) -> Outcome<Counts> {
    let (mut base, mut changed) = (Pages::open(base)?, Pages::open(changed)?);
    let (map, blocks) = (held.map()?, held.blocks());
    if blocks != changed.count {
        let problem = format!("{blocks} blocks kept of {}: {CHANGED_MEANWHILE}", changed.count);
        return Err(Problem::fault(problem));
    }
    let mut counts = Counts { blocks, base_blocks: base.count, ..Counts::default() };
    let mut last = 0;
    let (mut base_page, mut page) = (Vec::new(), Vec::new());
    for block in 0..blocks {
        base.next_page(&mut base_page)?;
        changed.next_page(&mut page)?;
        let kind = check_block(held, &map, block, &base_page, &page)?;
        counts.kinds.count(kind);
        if kind != Kind::Empty {
            last = block + 1;
        }
    }
    let tally = held.tally(&map)?;
    if (tally.patch, tally.full) != (counts.kinds.patch, counts.kinds.full) {
        return Err(mistake(format!("the tally is {tally:?}, counted were {counts:?}")));
    }
    let highest = highest(held.patch())?;
    if highest != last {
        return Err(mistake(format!("the highest is {highest}, met was {last}")));
    }
    Ok(counts)
}

/// One block, by the map and by its slot.
fn check_block(held: &Held, map: &[u8], block: u64, base: &[u8], page: &[u8]) -> Outcome<Kind> {
    let (mut again, mut by_slot) = ([0; PAGE_SIZE], [0; PAGE_SIZE]);
    let kind = held.read_mapped(map, block, base, &mut again)?;
    if held.read(block, base, &mut by_slot)? != kind {
        return Err(mistake(format!("block {block} has another kind without the map")));
    }
    if again != *page || by_slot != *page {
        return Err(
            Problem::fault(format!("reads back wrongly: {CHANGED_MEANWHILE}")).of_block(block)
        );
    }
    let pair = match kind {
        Kind::Empty => Pair::Empty,
        Kind::Patch => Pair::Patch,
        Kind::Full => Pair::Full,
    };
    if look_up(map, held.blocks(), block)? != pair {
        return Err(mistake(format!("the map is wrong about block {block}")));
    }
    Ok(kind)
}
