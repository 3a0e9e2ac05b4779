//! A sweep of the largest areas, after a stop and without one. Times are nanoseconds per block.
//!
//! A sweep leaves nothing to sweep, so the full area is made anew each time; only the sweep is timed. What
//! it takes depends on what the memory held. The limits are the headers and each slot compared, each place
//! to which no slot refers compared with zeros, which ends at the first byte of a stray page, and memset
//! over the stray pages.

use std::cell::Cell;

use differential::arena::Mapping;
use differential::rng::Rng;
use thonxiliko::{full_area_len, Kind, FULL_HEADER_SIZE, PAGE_SIZE, PATCH_HEADER_SIZE, SLOT_SIZE};

use crate::cuts::{drawn, patch_of, row, KindOf, PAGES};
use crate::limits::{self, opaque};
use crate::maps::{plain_slots, SLOT};
use crate::segments::{self, Row};
use crate::timing::{Contender, Effort};

pub const EFFORT: Effort = Effort { least: 4, quiet: 3, most: 10 };

/// What stands in the places before the sweep.
#[derive(Clone, Copy, PartialEq, Eq)]
enum Places {
    /// There is no full area.
    Absent,
    /// Nothing was ever written there.
    Holes,
    /// Pages where slots refer to them, else zeros; every byte was written once.
    Clean,
    /// The same, and one page to which no slot refers, in another place each time.
    OneStray,
    /// A page in every place.
    AllUsed,
}

/// What full areas are made from, and what the limits look at.
struct Ground {
    blocks: u64,
    /// Which slots are FULL_REF.
    refers: Vec<bool>,
    places: Places,
    patch: Vec<u8>,
    /// Slots that memcmp looks through from end to end.
    slots: Vec<u8>,
    headers: [Vec<u8>; 2],
    pages: Vec<u8>,
    zeros: Vec<u8>,
    /// How many full areas were made.
    turn: Cell<u64>,
}

/// A full area, and where its one stray page is.
struct Full {
    area: Mapping,
    stray: Option<u64>,
}

impl Full {
    fn place(&mut self, block: u64) -> &mut [u8] {
        &mut self.area.bytes()[full_area_len(block)..full_area_len(block + 1)]
    }
}

impl Ground {
    fn new(blocks: u64, kind_of: KindOf, places: Places) -> Ground {
        let mut header = vec![0; FULL_HEADER_SIZE];
        thonxiliko::format(&mut segments::fresh(0), &mut header).expect("sound lengths");
        Ground {
            blocks,
            refers: (0..blocks).map(|block| kind_of(block) == Kind::Full).collect(),
            places,
            patch: patch_of(blocks, kind_of),
            slots: plain_slots(blocks),
            headers: [segments::fresh(0), header],
            pages: Rng::new(29).bytes(PAGES * PAGE_SIZE),
            zeros: vec![0; PAGE_SIZE],
            turn: Cell::new(0),
        }
    }

    fn page(&self, block: u64) -> &[u8] {
        let start = PAGE_SIZE * (block as usize % PAGES);
        &self.pages[start..start + PAGE_SIZE]
    }

    fn refers(&self, block: u64) -> bool {
        self.refers[block as usize]
    }

    /// A block without a reference, another one each time.
    fn next_stray(&self) -> u64 {
        self.turn.set(self.turn.get() + 1);
        let mut rng = Rng::for_case(31, "stray", self.turn.get());
        loop {
            let block = rng.below(self.blocks as usize) as u64;
            if !self.refers(block) {
                return block;
            }
        }
    }

    fn full(&self) -> Full {
        if self.places == Places::Absent {
            return Full { area: Mapping::new(1), stray: None };
        }
        let mut full = Full { area: Mapping::new(full_area_len(self.blocks)), stray: None };
        full.area.bytes()[..FULL_HEADER_SIZE].copy_from_slice(&self.headers[1]);
        for block in 0..self.blocks {
            match self.places {
                Places::Holes => break,
                Places::AllUsed => limits::copy(full.place(block), self.page(block)),
                _ if self.refers(block) => limits::copy(full.place(block), self.page(block)),
                _ => limits::set(full.place(block), 0),
            }
        }
        if self.places == Places::OneStray {
            let stray = self.next_stray();
            limits::copy(full.place(stray), self.page(stray));
            full.stray = Some(stray);
        }
        full
    }

    /// The bytes that are lent as the full area.
    fn lent<'f>(&self, full: &'f mut Full) -> &'f mut [u8] {
        match self.places {
            Places::Absent => &mut [],
            _ => full.area.bytes(),
        }
    }

    /// What is measured does its work: pages in use stay, and all other places are zeros.
    fn check(&self, sweep: fn(&Ground, &mut Full)) {
        if self.places == Places::Absent {
            return;
        }
        let mut full = self.full();
        sweep(self, &mut full);
        for block in 0..self.blocks {
            let wanted = if self.refers(block) { self.page(block) } else { &self.zeros };
            assert!(full.place(block) == wanted, "block {block}");
        }
        assert!(full.area.bytes()[..FULL_HEADER_SIZE] == self.headers[1]);
    }

    fn by_library(&self, full: &mut Full) {
        let swept = opaque(thonxiliko::sweep(&self.patch, self.lent(full)));
        assert!(swept.is_ok());
    }

    fn by_independent(&self, full: &mut Full) {
        opaque(independent::sweep(&self.patch, self.lent(full)));
    }

    fn by_limits(&self, full: &mut Full) {
        limits::compare(&self.slots[..PATCH_HEADER_SIZE], &self.headers[0]);
        if self.places != Places::Absent {
            limits::compare(&full.area.bytes()[..FULL_HEADER_SIZE], &self.headers[1]);
        }
        for (slot, block) in self.slots[PATCH_HEADER_SIZE..].chunks_exact(SLOT_SIZE).zip(0..) {
            limits::compare(slot, &SLOT);
            if self.places == Places::Absent || self.refers(block) {
                continue;
            }
            limits::compare(full.place(block), &self.zeros);
            if self.places == Places::AllUsed || full.stray == Some(block) {
                limits::set(full.place(block), 0);
            }
        }
    }

    fn row(&self, work: &'static str, effort: Effort) -> Row {
        let sweeps = [Ground::by_library, Ground::by_limits, Ground::by_independent];
        self.check(Ground::by_library);
        self.check(Ground::by_independent);
        let contenders = sweeps
            .map(|sweep| Contender::prepared(move || self.full(), move |full| sweep(self, full)));
        row(self.blocks, self.blocks, work, effort, contenders)
    }
}

pub fn rows(effort: Effort, blocks: u64) -> Vec<Row> {
    let sweep = |work, kind_of, places| Ground::new(blocks, kind_of, places).row(work, effort);
    vec![
        sweep("swept, EMPTY, new memory", |_| Kind::Empty, Places::Holes),
        sweep("swept, EMPTY, nothing stray", |_| Kind::Empty, Places::Clean),
        sweep("swept, PATCH, nothing stray", |_| Kind::Patch, Places::Clean),
        sweep("swept, FULL_REF", |_| Kind::Full, Places::Clean),
        sweep("swept, kinds drawn, nothing stray", drawn, Places::Clean),
        sweep("swept, kinds drawn, one stray page", drawn, Places::OneStray),
        sweep("swept, kinds drawn, a page in every place", drawn, Places::AllUsed),
        sweep("swept, PATCH, no full area", |_| Kind::Patch, Places::Absent),
    ]
}
