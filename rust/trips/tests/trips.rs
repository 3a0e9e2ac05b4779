//! A process is ended by SIGKILL right after a write that was told none, one or all of its stores; another
//! one sweeps the files, at once or after a third has gone on with the run. Then both areas are those of
//! the run with that write whole or without it, as the rule says. So it is for every write of a run.

use std::env;
use std::fs;
use std::io::{self, Write as _};
use std::os::unix::process::ExitStatusExt;
use std::path::{Path, PathBuf};
use std::process::{Command, ExitStatus};
use std::time::{SystemTime, UNIX_EPOCH};

use thonxiliko::{
    build, format, judge, map_len, read, sweep, Kind, PayloadRefusal, Stores, PAGE_SIZE,
    PATCH_HEADER_SIZE, SLOT_SIZE,
};
use trips::files::{full_path, patch_path, Files};
use trips::run::{Run, Step, Write};

/// A folder of its own, removed in the end.
struct Folder(PathBuf);

impl Folder {
    fn new(name: &str) -> Folder {
        let path = env::temp_dir().join(format!("trips-{}-{name}", std::process::id()));
        fs::create_dir_all(&path).expect("a folder for temporary files");
        Folder(path)
    }
}

impl Drop for Folder {
    fn drop(&mut self) {
        // What is left behind is no reason to fail.
        let _ = fs::remove_dir_all(&self.0);
    }
}

/// The program in a process of its own, under the emulator by which cargo runs tests, if there is one.
fn trip(words: &[&str]) -> ExitStatus {
    let machine = env::consts::ARCH.to_uppercase();
    let runner = env::var(format!("CARGO_TARGET_{machine}_UNKNOWN_LINUX_GNU_RUNNER"));
    let runner = runner.unwrap_or_default();
    let mut line = runner.split_whitespace().chain([env!("CARGO_BIN_EXE_trip")]);
    let program = line.next().expect("the program itself, at least");
    Command::new(program).args(line).args(words).status().expect("a process")
}

/// The bytes of both areas.
#[derive(Clone, PartialEq, Eq)]
struct Areas {
    patch: Vec<u8>,
    full: Vec<u8>,
}

impl Areas {
    fn fresh(run: &Run) -> Areas {
        let mut areas = Areas { patch: vec![0; run.patch_len()], full: vec![0; run.full_len()] };
        format(&mut areas.patch, &mut areas.full).expect("sound lengths");
        areas
    }

    fn in_folder(folder: &Path) -> Areas {
        let bytes = |path: PathBuf| fs::read(path).expect("an area file");
        Areas { patch: bytes(patch_path(folder)), full: bytes(full_path(folder)) }
    }

    fn put_into(&self, folder: &Path) {
        fs::write(patch_path(folder), &self.patch).expect("an area file");
        fs::write(full_path(folder), &self.full).expect("an area file");
    }

    /// After some steps, each of them whole.
    fn after<'s>(&self, steps: impl IntoIterator<Item = &'s Step>) -> Areas {
        let mut areas = self.clone();
        for step in steps {
            step.make(&mut areas.patch, &mut areas.full).expect("a sound store");
        }
        areas
    }

    fn kind(&self, block: u64) -> Kind {
        let start = PATCH_HEADER_SIZE + SLOT_SIZE * block as usize;
        judge(&self.patch[start..start + SLOT_SIZE]).expect("a sound slot").kind
    }

    /// What Read answers and the page that it gives, over a base of zeros.
    fn read(&self, block: u64) -> (Result<Kind, PayloadRefusal>, Vec<u8>) {
        let mut page = vec![0xEE; PAGE_SIZE];
        let answer = read(&self.patch, &self.full, block, &[], &mut page);
        (answer, page)
    }

    fn build(&self, run: &Run) {
        let mut map = vec![0; map_len(run.blocks)];
        build(&self.patch, &self.full, &mut map).expect("a store that Build accepts");
    }
}

/// One process that ended in a write, and what came of it.
struct Trip {
    told: Stores,
    block: u64,
    /// What the write stores, and what the block held.
    kind: Kind,
    held: Kind,
    /// Before the write, after the whole write, and in the files when the process had ended.
    before: Areas,
    after: Areas,
    left: Areas,
    /// In the files when another process had swept them.
    swept: Areas,
    /// At the end of the run without the write and with it, and in the files after the rest of the run in
    /// one more process and the sweep.
    run_without: Areas,
    run_with: Areas,
    run_swept: Areas,
}

const TOLD: [Stores; 3] = [Stores::None, Stores::One, Stores::All];

/// Ends processes in every write of a run, told none, one and all of its stores.
fn trips_of(name: &str, seed: u64) -> Vec<Trip> {
    let run = Run::drawn(seed);
    let mut trips = Vec::new();
    for (at, step) in run.steps.iter().enumerate() {
        if let Step::Write(write) = step {
            trips.extend(TOLD.iter().map(|told| make_trip(name, seed, &run, at, write, *told)));
        }
    }
    trips
}

fn make_trip(name: &str, seed: u64, run: &Run, at: usize, write: &Write, told: Stores) -> Trip {
    let (stopped, gone_on) = (Folder::new(name), Folder::new(&format!("{name}-on")));
    let word = |folder: &Folder| folder.0.to_str().expect("a path in Unicode").to_string();
    let (seed, step) = (seed.to_string(), at.to_string());

    let ended = trip(&["stop", &word(&stopped), &seed, &step, &told.number().to_string()]);
    assert_eq!(ended.signal(), Some(mapped::SIGKILL), "the process was to end by a kill: {ended}");
    let left = Areas::in_folder(&stopped.0);
    assert!(trip(&["sweep", &word(&stopped)]).success());

    left.put_into(&gone_on.0);
    assert!(trip(&["go-on", &word(&gone_on), &seed, &step]).success());
    assert!(trip(&["sweep", &word(&gone_on)]).success());

    let before = Areas::fresh(run).after(&run.steps[..at]);
    let after = before.after([&run.steps[at]]);
    Trip {
        told,
        block: write.block,
        kind: write.kind(),
        held: before.kind(write.block),
        left,
        swept: Areas::in_folder(&stopped.0),
        run_without: before.after(&run.steps[at + 1..]),
        run_with: after.after(&run.steps[at + 1..]),
        run_swept: Areas::in_folder(&gone_on.0),
        before,
        after,
    }
}

/// Whether the write is there after the sweep: not if no store was made, nor if the one store was a page
/// to which no slot refers.
fn stays(trip: &Trip) -> bool {
    match trip.told {
        Stores::None => false,
        Stores::One => trip.kind != Kind::Full || trip.held == Kind::Full,
        Stores::All => true,
    }
}

/// What is in the files after the sweep is as a rule says.
fn swept_by(rule: impl Fn(&Trip) -> bool, trip: &Trip) -> bool {
    let (at_once, later) = match rule(trip) {
        true => (&trip.after, &trip.run_with),
        false => (&trip.before, &trip.run_without),
    };
    trip.swept == *at_once && trip.run_swept == *later
}

/// Before the sweep the block reads as before or as its new page, every other block as before; and the
/// sweep changes none of it.
fn reads_well(run: &Run, trip: &Trip) -> bool {
    (0..run.blocks).all(|block| {
        let seen = block == trip.block && stays(trip);
        let wanted = if seen { trip.after.read(block) } else { trip.before.read(block) };
        trip.left.read(block) == wanted && trip.swept.read(block) == wanted
    })
}

/// A seed from the environment, or from the clock.
fn seed() -> u64 {
    let clock = SystemTime::now().duration_since(UNIX_EPOCH).expect("a clock").subsec_nanos();
    let given = env::var("TRIPS_SEED").ok().map(|seed| seed.parse().expect("a number"));
    given.unwrap_or_else(|| u64::from(clock))
}

/// Not by a macro: what those print is shown for failed tests only.
fn say(text: &str) {
    let _ = writeln!(io::stderr(), "{text}");
}

#[test]
fn a_process_ends_in_every_write() {
    let first = seed();
    for seed in first..first + 3 {
        let run = Run::drawn(seed);
        let trips = trips_of("every", seed);
        let again = format!("again by TRIPS_SEED={seed} cargo test -p trips");
        for (number, trip) in trips.iter().enumerate() {
            let Trip { told, kind, held, block, .. } = trip;
            let what = format!("{number}: {kind:?} over {held:?}, block {block}, told {told:?}");
            assert!(reads_well(&run, trip), "a block reads otherwise, {what}; {again}");
            assert!(swept_by(stays, trip), "the areas are others, {what}; {again}");
            trip.swept.build(&run);
            trip.run_swept.build(&run);
        }
        let count = |sort: &dyn Fn(&Trip) -> bool| trips.iter().filter(|trip| sort(trip)).count();
        let stray = count(&|trip| trip.left != trip.before && trip.left != trip.after);
        let there = count(&|trip| trip.before != trip.after && stays(trip));
        say(&format!(
            "{} processes ended in a write, {stray} left a stray page, {there} writes stayed; {again}",
            trips.len()
        ));
        assert!(stray > 0 && 0 < there && there < trips.len(), "not all sorts were met; {again}");
    }
}

/// The comparison can fail: it does by each other rule, and if nobody sweeps.
#[test]
fn other_rules_are_found_out() {
    let trips = trips_of("rules", seed());
    let found = |rule: &dyn Fn(&Trip) -> bool| trips.iter().any(|trip| !swept_by(rule, trip));
    assert!(!found(&stays));
    assert!(found(&|_| true), "that every write stays");
    assert!(found(&|_| false), "that no write stays");
    assert!(found(&|trip| trip.told != Stores::None), "that one store is enough");
    assert!(found(&|trip| trip.told == Stores::All), "that one store is none");
    assert!(found(&|trip| trip.kind != Kind::Full && stays(trip)), "that no full page stays");
    let unswept = |trip: &Trip| trip.left == trip.before || trip.left == trip.after;
    assert!(!trips.iter().all(unswept), "that no sweep is needed");
    // And a sweep in this process makes of what was left what the other process made of it.
    for trip in &trips {
        let mut left = trip.left.clone();
        sweep(&left.patch, &mut left.full).expect("a sound store");
        assert!(left == trip.swept);
    }
}

/// While one process has the files, another one does not sweep them; a process that was killed does not
/// have them any more.
#[test]
fn files_in_use_are_not_swept() {
    let folder = Folder::new("in-use");
    let word = folder.0.to_str().expect("a path in Unicode");
    assert_eq!(trip(&["stop", word, "1", "0", "1"]).signal(), Some(mapped::SIGKILL));
    let left = Areas::in_folder(&folder.0);
    let files = Files::open(&folder.0).expect("files that nobody has");
    assert_eq!(trip(&["sweep", word]).code(), Some(2));
    assert!(Areas::in_folder(&folder.0) == left);
    drop(files);
    assert!(trip(&["sweep", word]).success());
    assert!(Areas::in_folder(&folder.0) != left);
}
