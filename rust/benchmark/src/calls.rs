//! Each call on small, warm buffers.
//!
//! The limits of a call are memory functions over the bytes that the rules make it touch: headers and
//! slots that it must look at are compared, pages that it fills are copied, places that it clears are
//! set. Where it looks at each of its bytes and writes few, that is all it can be measured by.

use differential::rng::Rng;
use independent::ALL;
use thonxiliko::{
    full_area_len, map_len, patch_area_len, Decision, Difference, Kind, Stores, FULL_HEADER_SIZE,
    MAX_BLOCKS, PAGE_SIZE, PATCH_HEADER_SIZE, PAYLOAD_SIZE, SLOT_SIZE,
};

use crate::limits::{opaque, Limit};
use crate::pages::Pages;
use crate::timing::{until_stable, Contender, Effort, Times};

pub struct Row {
    pub call: &'static str,
    pub case: String,
    pub times: Times,
}

/// Blocks of the small store, and the block that is worked on.
const BLOCKS: u64 = 16;
const BLOCK: u64 = 9;
/// Blocks of the store that is built.
const BUILT: u64 = 64;
/// Payloads that are drawn for the reader.
const DRAWN: u64 = 256;
/// Pages that take turns where one again and again would be known by heart.
const TAKING_TURNS: u64 = 64;

struct Case {
    call: &'static str,
    name: String,
    library: Contender<'static>,
    independent: Contender<'static>,
    /// Which of the limits.
    limit: usize,
}

/// All cases, and each limit once for all cases that have it.
#[derive(Default)]
struct Cases {
    cases: Vec<Case>,
    limits: Vec<(Limit, Contender<'static>)>,
}

/// A call by one of the crates, on buffers of its own.
macro_rules! contender {
    ($by:ident, $lent:ident, $call:ident($($argument:expr),*)) => {{
        #[allow(unused_mut)]
        let mut $lent = $lent.clone();
        Contender::new(move || {
            let _ = opaque($by::$call($($argument),*));
        })
    }};
}

/// The same call by the library and by the independent implementation.
macro_rules! both {
    ($($work:tt)*) => {
        [contender!(thonxiliko, $($work)*), contender!(independent, $($work)*)]
    };
}

impl Cases {
    fn add(
        &mut self,
        call: &'static str,
        name: &str,
        limit: Limit,
        [library, independent]: [Contender<'static>; 2],
    ) {
        let known = self.limits.iter().position(|(other, _)| *other == limit);
        let limit = known.unwrap_or_else(|| {
            let work = limit.work();
            self.limits.push((limit, Contender::new(work)));
            self.limits.len() - 1
        });
        self.cases.push(Case { call, name: name.to_string(), library, independent, limit });
    }

    /// One pass through all cases. In each, library, limit and independent implementation take turns.
    fn pass(&mut self, turns: u32) -> bool {
        let mut better = false;
        for case in &mut self.cases {
            let (_, limit) = &mut self.limits[case.limit];
            for _ in 0..turns {
                better |= case.library.sample();
                better |= limit.sample();
                case.independent.sample();
            }
        }
        better
    }

    fn rows(&self) -> Vec<Row> {
        let row = |case: &Case| Row {
            call: case.call,
            case: case.name.clone(),
            times: Times {
                library: case.library.best,
                limits: self.limits[case.limit].1.best,
                independent: case.independent.best,
            },
        };
        self.cases.iter().map(row).collect()
    }
}

/// What a contender lends to a call.
#[derive(Clone)]
struct Lent {
    patch: Vec<u8>,
    full: Vec<u8>,
    base: Vec<u8>,
    page: Vec<u8>,
    /// The page, the payload or the map that the call fills.
    filled: Vec<u8>,
}

impl Lent {
    /// Fresh areas, and pages to write.
    fn fresh(blocks: u64, places: Option<u64>, pages: &Pages) -> Lent {
        let mut lent = Lent {
            patch: vec![0; patch_area_len(blocks)],
            full: vec![0; places.map_or(0, full_area_len)],
            base: pages.base.clone(),
            page: pages.page.clone(),
            filled: vec![0; PAGE_SIZE],
        };
        thonxiliko::format(&mut lent.patch, &mut lent.full).expect("sound lengths");
        lent
    }

    /// Writes the page to a block by the pair: Compare decides, and that is carried out.
    fn write(&mut self, block: u64) {
        let Lent { patch, full, base, page, filled } = self;
        let decision = thonxiliko::compare(base, page, filled).expect("sound pages");
        thonxiliko::carry_out(patch, full, block, &decision, Stores::All).expect("a sound store");
    }

    /// A store whose blocks all have pages of their own, with so many differences at most: one page again
    /// and again would be known by heart.
    fn drawn(places: Option<u64>, most: usize) -> Lent {
        let mut lent = Lent::fresh(BUILT, places, &Pages::equal());
        for block in 0..BUILT {
            let Pages { base, page, .. } = Pages::drawn_with(block, most);
            (lent.base, lent.page) = (base, page);
            lent.write(block);
        }
        lent
    }

    /// A store with the page in its block.
    fn with(pages: &Pages) -> Lent {
        let mut lent = Lent::fresh(BLOCKS, Some(BLOCKS), pages);
        lent.write(BLOCK);
        lent
    }

    fn slot(&self) -> Vec<u8> {
        let start = patch_area_len(BLOCK);
        self.patch[start..start + SLOT_SIZE].to_vec()
    }
}

/// Looking through both headers.
fn headers() -> Limit {
    Limit::default().compare(PATCH_HEADER_SIZE).compare(FULL_HEADER_SIZE)
}

fn compare_cases(cases: &mut Cases) {
    for pages in Pages::all() {
        let mut lent = Lent::fresh(0, None, &pages);
        lent.filled.truncate(PAYLOAD_SIZE);
        let mut limit = Limit::default().compare(PAGE_SIZE);
        if !pages.payload.is_empty() {
            limit = limit.copy(pages.payload.len());
        }
        let both = both!(lent, compare(&lent.base, &lent.page, &mut lent.filled));
        cases.add("Compare", &pages.name, limit, both);
    }
    // Those that the pair and carrying out alone have.
    for turns in drawn_turns() {
        let both = turns.both([compare_by_library, compare_by_independent]);
        cases.add("Compare", &turns.pages[0].name, turns.limit_of_compare(), both);
    }
}

fn apply_cases(cases: &mut Cases) {
    for pages in Pages::patches() {
        let lent = Lent::fresh(0, None, &pages);
        let payload = pages.payload;
        let limit = Limit::default().copy(PAGE_SIZE).copy(payload.len());
        let lent = (lent, payload);
        let both = both!(lent, apply(&lent.0.base, &lent.1, &mut lent.0.filled));
        cases.add("Apply", &pages.name, limit, both);
    }
}

/// All entries of many payloads, one step each; one payload alone would be known by heart.
fn next_cases(cases: &mut Cases) {
    for (name, pages) in [("shipped", Pages::shipped()), ("drawn", Pages::drawn(DRAWN))] {
        let payloads: Vec<Vec<u8>> = pages.into_iter().map(|pages| pages.payload).collect();
        let limit = payloads.iter().fold(Limit::default(), |limit, payload| {
            assert!(!payload.is_empty());
            limit.compare(payload.len())
        });
        let entries: usize =
            payloads.iter().map(|payload| thonxiliko::entries(payload).count()).sum();
        let name = format!("{entries} entries of {} {name} payloads", payloads.len());
        let through_all = |read: fn(&[u8])| {
            let payloads = payloads.clone();
            Contender::new(move || payloads.iter().for_each(|payload| read(payload)))
        };
        let both = [through_all(read_by_library), through_all(read_by_independent)];
        cases.add("Next", &name, limit, both);
    }
}

fn read_by_library(payload: &[u8]) {
    for entry in thonxiliko::entries(payload) {
        opaque(entry);
    }
}

fn read_by_independent(payload: &[u8]) {
    let mut step = independent::next(payload, 0, -1);
    while step.found == 1 {
        step = opaque(independent::next(payload, step.at, step.position));
    }
}

/// Pages of every kind, with the kind before their name.
fn kinds() -> Vec<(String, Pages)> {
    let mut all = vec![Pages::equal(), Pages::spread(1), Pages::spread(20), Pages::spread(100)];
    all.extend([Pages::run(252), Pages::large()]);
    let named = |pages: Pages| (kind_name(&pages), pages);
    all.into_iter().map(named).collect()
}

fn kind_name(pages: &Pages) -> String {
    match pages.compared.difference {
        Difference::Same => "EMPTY".to_string(),
        Difference::Patch => format!("PATCH, {}", pages.name),
        Difference::Large => format!("FULL_REF, {}", pages.name),
    }
}

fn judge_and_show_cases(cases: &mut Cases) {
    for (name, pages) in kinds() {
        let slot = Lent::with(&pages).slot();
        let limit = Limit::default().compare(SLOT_SIZE);
        cases.add("Judge", &name, limit, both!(slot, judge(&slot)));
    }
    for (name, pages) in kinds() {
        let lent = Lent::with(&pages);
        let limit = Limit::default().compare(PATCH_HEADER_SIZE).compare(SLOT_SIZE);
        cases.add("Show", &name, limit, both!(lent, show(&lent.patch, BLOCK)));
    }
}

fn read_cases(cases: &mut Cases) {
    for (name, pages) in kinds() {
        let lent = Lent::with(&pages);
        let limit = headers().compare(SLOT_SIZE).copy(PAGE_SIZE);
        let both = both!(lent, read(&lent.patch, &lent.full, BLOCK, &lent.base, &mut lent.filled));
        cases.add("Read", &name, limit, both);
    }
}

/// A store of 16 blocks and its map, and pages that are written to one of its blocks by turns.
#[derive(Clone)]
struct Turns {
    patch: Vec<u8>,
    full: Vec<u8>,
    map: Vec<u8>,
    pages: Vec<Pages>,
    decisions: Vec<Decision<'static>>,
    /// The buffer that is lent to Compare.
    buffer: Vec<u8>,
    turn: usize,
}

/// Work on the page whose turn it is.
type Work = fn(&mut Turns);

impl Turns {
    fn new(pages: Vec<Pages>) -> Turns {
        let Lent { patch, full, .. } = Lent::with(&pages[0]);
        Turns {
            patch,
            full,
            map: vec![0; map_len(BLOCKS)],
            decisions: pages.iter().map(Pages::decision).collect(),
            pages,
            buffer: vec![0; PAYLOAD_SIZE],
            turn: 0,
        }
    }

    fn kind(&self) -> Kind {
        self.decisions[0].kind()
    }

    /// The same work by the library and by the independent implementation.
    fn both(&self, works: [Work; 2]) -> [Contender<'static>; 2] {
        works.map(|work| {
            let mut turns = self.clone();
            Contender::new(move || {
                turns.turn = (turns.turn + 1) % turns.pages.len();
                work(&mut turns);
            })
        })
    }

    /// What carrying out touches until it is stopped after one store: headers, the payload that is
    /// checked, and the slot, or the page for FULL_REF.
    fn limit_of_stop(&self) -> Limit {
        match self.kind() {
            Kind::Empty => headers().copy(SLOT_SIZE),
            Kind::Patch => headers().copy(SLOT_SIZE).compare(self.mean_payload()),
            Kind::Full => headers().copy_by_turns(PAGE_SIZE, self.pages.len()),
        }
    }

    /// What carrying out touches: headers, the payload that is checked, slot and place. Of payloads the
    /// mean length counts. So many pages are at hand by turns.
    fn carrying_out(&self, pages: usize) -> Limit {
        let limit = headers().copy(SLOT_SIZE);
        match self.kind() {
            Kind::Empty => limit.set(PAGE_SIZE),
            Kind::Patch => limit.set(PAGE_SIZE).compare(self.mean_payload()),
            Kind::Full => limit.copy_by_turns(PAGE_SIZE, pages),
        }
    }

    fn limit_of_carry_out(&self) -> Limit {
        self.carrying_out(self.pages.len())
    }

    /// What the pair touches: page and base, and the payload that Compare puts into its buffer besides.
    /// The page that is stored is the one that was compared just before.
    fn limit_of_pair(&self) -> Limit {
        self.with_compare(self.carrying_out(1))
    }

    fn limit_of_compare(&self) -> Limit {
        self.with_compare(Limit::default())
    }

    fn with_compare(&self, limit: Limit) -> Limit {
        let limit = limit.compare_by_turns(PAGE_SIZE, self.pages.len());
        match self.kind() {
            Kind::Patch => limit.copy(self.mean_payload()),
            _ => limit,
        }
    }

    fn mean_payload(&self) -> usize {
        self.pages.iter().map(|pages| pages.payload.len()).sum::<usize>() / self.pages.len()
    }
}

/// Both told the same number of stores, each in its own way.
fn store_by_library(turns: &mut Turns, stores: Stores) {
    let Turns { patch, full, decisions, turn, .. } = turns;
    let _ = opaque(thonxiliko::carry_out(patch, full, BLOCK, &decisions[*turn], stores));
}

fn store_by_independent(turns: &mut Turns, stores: u64) {
    let Turns { patch, full, decisions, turn, .. } = turns;
    let made = &decisions[*turn];
    let (kind, payload, page) = (made.kind().number(), made.payload(), made.page());
    opaque(independent::carry_out(patch, full, BLOCK, kind, payload, page, stores));
}

fn store_mapped_by_library(turns: &mut Turns, stores: Stores) {
    let Turns { patch, full, map, decisions, turn, .. } = turns;
    let made = &decisions[*turn];
    let _ = opaque(thonxiliko::carry_out_mapped(patch, full, map, BLOCK, made, stores));
}

fn store_mapped_by_independent(turns: &mut Turns, stores: u64) {
    let Turns { patch, full, map, decisions, turn, .. } = turns;
    let made = &decisions[*turn];
    let (kind, payload, page) = (made.kind().number(), made.payload(), made.page());
    opaque(independent::carry_out_mapped(patch, full, map, BLOCK, kind, payload, page, stores));
}

fn pair_by_library(turns: &mut Turns) {
    let Turns { patch, full, pages, buffer, turn, .. } = turns;
    let Pages { base, page, .. } = &pages[*turn];
    let made = thonxiliko::compare(base, page, buffer).expect("sound pages");
    let _ = opaque(thonxiliko::carry_out(patch, full, BLOCK, &made, Stores::All));
}

fn pair_by_independent(turns: &mut Turns) {
    let Turns { patch, full, pages, buffer, turn, .. } = turns;
    let Pages { base, page, .. } = &pages[*turn];
    let (kind, payload) = decided_by_independent(base, page, buffer);
    opaque(independent::carry_out(patch, full, BLOCK, kind, payload, page, ALL));
}

fn pair_mapped_by_library(turns: &mut Turns) {
    let Turns { patch, full, map, pages, buffer, turn, .. } = turns;
    let Pages { base, page, .. } = &pages[*turn];
    let made = thonxiliko::compare(base, page, buffer).expect("sound pages");
    let _ = opaque(thonxiliko::carry_out_mapped(patch, full, map, BLOCK, &made, Stores::All));
}

fn pair_mapped_by_independent(turns: &mut Turns) {
    let Turns { patch, full, map, pages, buffer, turn, .. } = turns;
    let Pages { base, page, .. } = &pages[*turn];
    let (kind, payload) = decided_by_independent(base, page, buffer);
    opaque(independent::carry_out_mapped(patch, full, map, BLOCK, kind, payload, page, ALL));
}

/// Kind and payload, as the independent Compare decides.
pub fn decided_by_independent<'b>(
    base: &[u8],
    page: &[u8],
    buffer: &'b mut [u8],
) -> (u32, &'b [u8]) {
    let compared = independent::compare(base, page, buffer);
    let length = if compared.kind == 1 { compared.length as usize } else { 0 };
    (compared.kind, &buffer[..length])
}

fn compare_by_library(turns: &mut Turns) {
    let Turns { pages, buffer, turn, .. } = turns;
    let Pages { base, page, .. } = &pages[*turn];
    let _ = opaque(thonxiliko::compare(base, page, buffer));
}

fn compare_by_independent(turns: &mut Turns) {
    let Turns { pages, buffer, turn, .. } = turns;
    let Pages { base, page, .. } = &pages[*turn];
    opaque(independent::compare(base, page, buffer));
}

/// Pages of every kind that take turns.
fn drawn_turns() -> Vec<Turns> {
    let drawn = |name: &str, most: usize| -> Vec<Pages> {
        let page = |number| Pages { name: name.to_string(), ..Pages::drawn_with(number, most) };
        (0..TAKING_TURNS).map(page).collect()
    };
    let mut all = vec![drawn("equal, drawn", 0)];
    all.extend([1, 20, 100, 252].map(|exactly| Pages::drawn_exactly(TAKING_TURNS, exactly)));
    all.push(drawn("every byte differs, drawn", PAGE_SIZE));
    all.into_iter().map(Turns::new).collect()
}

/// The same, with the kind before their name.
fn drawn_kinds() -> Vec<(String, Turns)> {
    let named = |turns: Turns| match turns.kind() {
        Kind::Empty => ("EMPTY, drawn".to_string(), turns),
        _ => (kind_name(&turns.pages[0]), turns),
    };
    drawn_turns().into_iter().map(named).collect()
}

const WHOLE: [Work; 2] =
    [|turns| store_by_library(turns, Stores::All), |turns| store_by_independent(turns, ALL)];
const WHOLE_MAPPED: [Work; 2] = [
    |turns| store_mapped_by_library(turns, Stores::All),
    |turns| store_mapped_by_independent(turns, ALL),
];
const STOPPED: [Work; 2] =
    [|turns| store_by_library(turns, Stores::One), |turns| store_by_independent(turns, 1)];
const STOPPED_MAPPED: [Work; 2] = [
    |turns| store_mapped_by_library(turns, Stores::One),
    |turns| store_mapped_by_independent(turns, 1),
];

/// A decision carried out, whole and stopped after one store. Of a page that takes no turns the processor
/// would know the payload by heart.
fn carry_out_cases(cases: &mut Cases) {
    for (call, works) in [("Carry out", WHOLE), ("Carry out with a map", WHOLE_MAPPED)] {
        for (name, turns) in drawn_kinds() {
            cases.add(call, &name, turns.limit_of_carry_out(), turns.both(works));
        }
    }
    let stopped = [("Carry out told 1", STOPPED), ("Carry out told 1 with a map", STOPPED_MAPPED)];
    for (call, works) in stopped {
        for (name, turns) in drawn_kinds() {
            cases.add(call, &name, turns.limit_of_stop(), turns.both(works));
        }
    }
}

/// A page written by the pair of calls. The first cases are those of the single call that was before, one
/// page each; then pages that take turns.
fn pair_cases(cases: &mut Cases) {
    let mut all = kinds();
    // Every byte differs in one of the kinds already.
    let others = Pages::larges().into_iter().filter(|pages| pages.name != Pages::large().name);
    all.extend(others.map(|pages| (kind_name(&pages), pages)));
    let alone = all.into_iter().map(|(name, pages)| (name, Turns::new(vec![pages])));
    for (name, turns) in alone.chain(drawn_kinds()) {
        let both = turns.both([pair_by_library, pair_by_independent]);
        cases.add("Compare and carry out", &name, turns.limit_of_pair(), both);
    }
}

/// With a map of 16 blocks, which is all that is looked at or changed besides.
fn mapped_cases(cases: &mut Cases) {
    let alone = kinds().into_iter().map(|(name, pages)| (name, Turns::new(vec![pages])));
    for (name, turns) in alone.chain(drawn_kinds()) {
        let both = turns.both([pair_mapped_by_library, pair_mapped_by_independent]);
        cases.add("Compare and carry out with a map", &name, turns.limit_of_pair(), both);
    }
    for (name, pages) in kinds() {
        let mut lent = (Lent::with(&pages), vec![0; map_len(BLOCKS)]);
        thonxiliko::build(&lent.0.patch, &lent.0.full, &mut lent.1).expect("a sound store");
        let limit = match pages.compared.difference {
            Difference::Patch => headers().compare(SLOT_SIZE).copy(PAGE_SIZE),
            _ => headers().copy(PAGE_SIZE),
        };
        let both = both!(
            lent,
            read_mapped(
                &lent.0.patch,
                &lent.0.full,
                &lent.1,
                BLOCK,
                &lent.0.base,
                &mut lent.0.filled
            )
        );
        cases.add("Read by the map", &name, limit, both);
    }
}

fn format_cases(cases: &mut Cases) {
    for (name, places) in [("n = 64, no full area", None), ("n = m = 64", Some(BUILT))] {
        let lent = Lent::fresh(BUILT, places, &Pages::equal());
        let mut limit = Limit::default().set(lent.patch.len());
        if places.is_some() {
            limit = limit.set(lent.full.len());
        }
        cases.add("Format", name, limit, both!(lent, format(&mut lent.patch, &mut lent.full)));
    }
}

fn build_cases(cases: &mut Cases) {
    let all = [
        ("n = 64 EMPTY, no full area", Pages::equal(), None),
        ("n = 64 PATCH of 20, no full area", Pages::spread(20), None),
        ("n = 64 PATCH of 252, no full area", Pages::run(252), None),
        ("n = m = 64 PATCH of 20", Pages::spread(20), Some(BUILT)),
        ("n = m = 64 FULL_REF", Pages::large(), Some(BUILT)),
    ];
    for (name, pages, places) in all {
        let mut lent = Lent::fresh(BUILT, places, &pages);
        (0..BUILT).for_each(|block| lent.write(block));
        lent.filled.truncate(map_len(BUILT));
        let mut limit = Limit::default().compare(PATCH_HEADER_SIZE);
        if places.is_some() {
            limit = headers();
        }
        // Places that a slot refers to are not looked at.
        let looks = places.is_some() && pages.compared.difference != Difference::Large;
        for _ in 0..BUILT {
            limit = limit.compare(SLOT_SIZE);
            if looks {
                limit = limit.compare(PAGE_SIZE);
            }
        }
        limit = limit.set(lent.filled.len());
        cases.add(
            "Build",
            name,
            limit,
            both!(lent, build(&lent.patch, &lent.full, &mut lent.filled)),
        );
    }
}

/// Areas that hold nothing from K on: a call that is made again and again finds no others.
fn cut_cases(cases: &mut Cases) {
    let lent = (Lent::fresh(BUILT, Some(BUILT), &Pages::equal()), vec![0; map_len(BUILT)]);
    for (name, k) in [("n = m = 64, K = n", BUILT), ("n = m = 64, zeros already", 0)] {
        let [mut limit, mut limit_mapped] = [headers(), headers()];
        if k < BUILT {
            let zeros = |limit: Limit| {
                let [patch, full] = [lent.0.patch.len(), lent.0.full.len()];
                limit.set(patch - patch_area_len(k)).set(full - full_area_len(k))
            };
            limit = zeros(limit);
            limit_mapped = zeros(limit_mapped).set(map_len(BUILT));
        }
        let both = both!(lent, cut(&mut lent.0.patch, &mut lent.0.full, k));
        cases.add("Cut", name, limit, both);
        let both = both!(lent, cut_mapped(&mut lent.0.patch, &mut lent.0.full, &mut lent.1, k));
        cases.add("Cut with a map", name, limit_mapped, both);
    }
}

fn highest_cases(cases: &mut Cases) {
    let all = [
        ("n = 64 EMPTY", None, 0),
        ("n = 64 PATCH of 1 to 200", None, 200),
        ("n = 64 FULL_REF", Some(BUILT), PAGE_SIZE),
    ];
    for (name, places, most) in all {
        let lent = Lent::drawn(places, most);
        let mut limit = Limit::default().compare(PATCH_HEADER_SIZE);
        for _ in 0..BUILT {
            limit = limit.compare(SLOT_SIZE);
        }
        let patch = lent.patch;
        cases.add("Highest", name, limit, both!(patch, highest(&patch)));
    }
}

/// What a sweep looks at: headers, each slot, and each place to which no slot refers.
fn limit_of_sweep(lent: &Lent, looks_at_places: bool) -> Limit {
    let mut limit = Limit::default().compare(PATCH_HEADER_SIZE);
    if !lent.full.is_empty() {
        limit = headers();
    }
    for _ in 0..BUILT {
        limit = limit.compare(SLOT_SIZE);
        if looks_at_places {
            limit = limit.compare(PAGE_SIZE);
        }
    }
    limit
}

/// A store, and pages of which one is put where no slot refers to it, in another place each time.
#[derive(Clone)]
struct Stray {
    lent: Lent,
    pages: Vec<Vec<u8>>,
    turn: usize,
}

impl Stray {
    fn new(lent: &Lent) -> Stray {
        let page = |number| Pages::drawn_with(number, PAGE_SIZE).page;
        Stray { lent: lent.clone(), pages: (0..BUILT).map(page).collect(), turn: 0 }
    }

    fn put(&mut self) {
        self.turn = (self.turn + 1) % self.pages.len();
        let place = full_area_len(self.turn as u64)..full_area_len(self.turn as u64 + 1);
        self.lent.full[place].copy_from_slice(&self.pages[self.turn]);
    }
}

/// Areas with nothing to sweep: a call that is made again and again finds no others. Then a page is put
/// into another place before each sweep, which counts for all contenders.
fn sweep_cases(cases: &mut Cases) {
    let all = [
        ("n = m = 64 EMPTY", Some(BUILT), 0),
        ("n = m = 64 PATCH of 1 to 200", Some(BUILT), 200),
        ("n = m = 64 FULL_REF", Some(BUILT), PAGE_SIZE),
        ("n = 64 PATCH of 1 to 200, no full area", None, 200),
    ];
    for (name, places, most) in all {
        let lent = Lent::drawn(places, most);
        let limit = limit_of_sweep(&lent, places.is_some() && most < PAGE_SIZE);
        cases.add("Sweep", name, limit, both!(lent, sweep(&lent.patch, &mut lent.full)));
    }
    for (name, most) in [("EMPTY", 0), ("PATCH of 1 to 200", 200)] {
        let lent = Lent::drawn(Some(BUILT), most);
        let limit = limit_of_sweep(&lent, true).set(PAGE_SIZE);
        let limit = limit.copy_by_turns(PAGE_SIZE, TAKING_TURNS as usize);
        let mut by_library = Stray::new(&lent);
        let mut by_independent = Stray::new(&lent);
        let both = [
            Contender::new(move || {
                by_library.put();
                let Lent { patch, full, .. } = &mut by_library.lent;
                let _ = opaque(thonxiliko::sweep(patch, full));
            }),
            Contender::new(move || {
                by_independent.put();
                let Lent { patch, full, .. } = &mut by_independent.lent;
                opaque(independent::sweep(patch, full));
            }),
        ];
        let name = format!("n = m = 64 {name}, a stray page put before it");
        cases.add("Sweep", &name, limit, both);
    }
}

fn map_cases(cases: &mut Cases) {
    let mut map = Rng::new(3).bytes(map_len(MAX_BLOCKS));
    // Pairs of all kinds and none of 3: where both bits are set the low one goes.
    map.iter_mut().for_each(|byte| *byte &= !((*byte / 2) & 0x55));
    let limit = Limit::default().compare(1);
    let both = both!(map, look_up(&map, MAX_BLOCKS, opaque(70_001)));
    cases.add("Look up", "n = 131,072", limit, both);
    let tallies = [
        ("n = 28", 28),
        ("n = 64", 64),
        ("n = 124", 124),
        ("n = 3,000", 3_000),
        ("n = 131,072", MAX_BLOCKS),
    ];
    for (name, blocks) in tallies {
        let limit = Limit::default().compare(map_len(blocks));
        cases.add("Tally", name, limit, both!(map, tally(&map, blocks)));
    }
}

/// Turns of each case in one pass.
const TURNS: u32 = 30;
pub const EFFORT: Effort = Effort { least: 30, quiet: 5, most: 200 };

pub fn rows(effort: Effort) -> Vec<Row> {
    let mut cases = Cases::default();
    compare_cases(&mut cases);
    apply_cases(&mut cases);
    next_cases(&mut cases);
    judge_and_show_cases(&mut cases);
    read_cases(&mut cases);
    carry_out_cases(&mut cases);
    pair_cases(&mut cases);
    mapped_cases(&mut cases);
    format_cases(&mut cases);
    build_cases(&mut cases);
    cut_cases(&mut cases);
    highest_cases(&mut cases);
    sweep_cases(&mut cases);
    map_cases(&mut cases);
    until_stable(effort, || cases.pass(TURNS));
    cases.rows()
}
