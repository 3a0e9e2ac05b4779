//! Compares the library with the independent implementation. See `--help`.

use std::process::ExitCode;
use std::time::{Instant, SystemTime, UNIX_EPOCH};

use differential::generate;
use differential::harness::{Counts, Harness, Mismatch, Unseen};
use differential::maps::{self, Elsewhere};
use differential::rng::Rng;
use differential::runs;
use differential::{cases, crash, cuts, extremes, huge, orders, payloads, stops, sweeps};

const HELP: &str = "\
usage: differential [--quick | --long] [--seed N] [--part NAME [--case I]] [--trace]

Gives the same inputs to libthonxiliko.a over its C interface, to the safe wrapper over it, and to an
independent implementation; compares every answer and every lent byte after every call.

  --quick       a few seconds (the default)
  --long        more than four million calls
  --seed N      replay with this seed (otherwise drawn from the clock, and printed)
  --part NAME   only one part: cases, orders, lengths, numbers, payloads, readers, pairs, maps, cuts,
                sweeps, random, runs, stops, huge
  --case I      only this case of the part, which is readers, maps, random, runs or stops
  --trace       print each input before the call, to find the one that crashed
";

/// How a part is run: as a whole, or so many cases, each drawn from a generator of its own.
enum Work {
    Whole(fn(&mut Session) -> Result<(), Mismatch>),
    Drawn { quick: u64, long: u64, run: fn(&mut Session, &mut Rng) -> Result<(), Mismatch> },
}

struct Part {
    name: &'static str,
    work: Work,
    /// The part's own inputs must meet every number of every call.
    meets_all: bool,
}

/// The parts in the order of a whole run.
const PARTS: [Part; 14] = [
    Part { name: "cases", work: Work::Whole(hand_written), meets_all: true },
    Part { name: "orders", work: Work::Whole(every_order), meets_all: false },
    Part { name: "lengths", work: Work::Whole(lengths), meets_all: false },
    Part { name: "numbers", work: Work::Whole(numbers), meets_all: false },
    Part { name: "payloads", work: Work::Whole(short_payloads), meets_all: false },
    Part {
        name: "readers",
        work: Work::Drawn { quick: 400, long: 8_000, run: longer_payload },
        meets_all: false,
    },
    Part { name: "pairs", work: Work::Whole(every_pair), meets_all: false },
    Part {
        name: "maps",
        work: Work::Drawn { quick: 300, long: 6_000, run: store_from_elsewhere },
        meets_all: false,
    },
    Part { name: "cuts", work: Work::Whole(every_cut), meets_all: false },
    Part { name: "sweeps", work: Work::Whole(every_sweep), meets_all: false },
    Part {
        name: "random",
        work: Work::Drawn { quick: 60_000, long: 1_100_000, run: random },
        meets_all: true,
    },
    Part {
        name: "runs",
        work: Work::Drawn { quick: 130, long: 2_500, run: random_run },
        meets_all: false,
    },
    Part {
        name: "stops",
        work: Work::Drawn { quick: 100, long: 2_000, run: stopped_run },
        meets_all: false,
    },
    Part { name: "huge", work: Work::Whole(largest), meets_all: false },
];

struct Options {
    long: bool,
    seed: u64,
    part: Option<String>,
    case: Option<u64>,
    trace: bool,
}

fn number(text: Option<String>) -> Result<u64, String> {
    let text = text.ok_or("a number is missing")?;
    text.parse().map_err(|_| format!("'{text}' is not a number"))
}

/// None if help was asked for.
fn options() -> Result<Option<Options>, String> {
    let clock = SystemTime::now().duration_since(UNIX_EPOCH).map_or(1, |time| time.as_nanos());
    let mut options = Options {
        long: false,
        seed: clock as u64 % 1_000_000_000,
        part: None,
        case: None,
        trace: false,
    };
    let mut words = std::env::args().skip(1);
    while let Some(word) = words.next() {
        match word.as_str() {
            "--quick" => options.long = false,
            "--long" => options.long = true,
            "--seed" => options.seed = number(words.next())?,
            "--part" => options.part = Some(words.next().ok_or("--part wants a name")?),
            "--case" => options.case = Some(number(words.next())?),
            "--trace" => options.trace = true,
            "--help" => return Ok(None),
            _ => return Err(format!("'{word}' is not known; see --help")),
        }
    }
    options.check()?;
    Ok(Some(options))
}

impl Options {
    fn wants(&self, part: &Part) -> bool {
        self.part.as_deref().map_or(true, |only| only == part.name)
    }

    /// Words that would be passed over in silence are refused.
    fn check(&self) -> Result<(), String> {
        if !PARTS.iter().any(|part| self.wants(part)) {
            return Err("there is no such part; see --help".to_string());
        }
        let drawn = |part: &Part| matches!(part.work, Work::Drawn { .. });
        let one_drawn = PARTS.iter().filter(|part| self.wants(part)).all(drawn);
        if self.case.is_some() && !one_drawn {
            return Err("--case goes with --part readers, maps, random, runs or stops".to_string());
        }
        Ok(())
    }
}

/// A mismatch and how to see it again.
struct Failure {
    mismatch: Mismatch,
    replay: String,
}

struct Session {
    options: Options,
    harness: Harness,
    runs: runs::Met,
    stops: stops::Met,
    elsewhere: Elsewhere,
    /// What each part met, in the part alone.
    met: Vec<(&'static Part, Counts)>,
}

impl Session {
    /// The command that does one part or case again, to be given in rust/.
    fn replay(&self, part: &Part, case: Option<u64>) -> String {
        let mode = if self.options.long { "--long" } else { "--quick" };
        let (seed, name) = (self.options.seed, part.name);
        let mut replay =
            format!("cargo run --bin differential -- {mode} --seed {seed} --part {name}");
        if let Some(case) = case {
            replay += &format!(" --case {case}");
        }
        replay
    }

    /// Does one piece of work so that it comes out the same again when it is replayed alone.
    fn piece(
        &mut self,
        part: &Part,
        case: Option<u64>,
        run: impl FnOnce(&mut Session) -> Result<(), Mismatch>,
    ) -> Result<(), Failure> {
        let replay = self.replay(part, case);
        self.harness.start_case(case.unwrap_or(0));
        crash::note(&replay);
        run(self).map_err(|mismatch| Failure { mismatch, replay })
    }

    fn pieces(&mut self, part: &Part) -> Result<(), Failure> {
        match part.work {
            Work::Whole(run) => self.piece(part, None, run),
            Work::Drawn { quick, long, run } => {
                let cases = if self.options.long { long } else { quick };
                let range = self.options.case.map_or(0..=cases - 1, |case| case..=case);
                for case in range {
                    let mut rng = Rng::for_case(self.options.seed, part.name, case);
                    self.piece(part, Some(case), |session| run(session, &mut rng))?;
                }
                Ok(())
            }
        }
    }

    /// Runs the parts that are wanted, and says how long each took.
    fn run(&mut self) -> Result<(), Failure> {
        for part in &PARTS {
            if !self.options.wants(part) {
                continue;
            }
            let start = Instant::now();
            let result = self.pieces(part);
            let counts = std::mem::take(&mut self.harness.counts);
            if result.is_ok() {
                let (calls, seconds) = (counts.total(), start.elapsed().as_secs_f64());
                println!("{:<8} {calls:>9} calls  {seconds:>6.1} s", part.name);
            }
            self.met.push((part, counts));
            result?;
        }
        Ok(())
    }

    fn ran(&self, name: &str) -> bool {
        self.met.iter().any(|(part, _)| part.name == name)
    }

    /// What was not met although a part is there to meet it. Each part is held to its own inputs:
    /// the cases written by hand meet every number, and would hide all that random inputs miss.
    fn holes(&self) -> Vec<String> {
        let mut holes = Vec::new();
        if self.options.case.is_some() {
            return holes;
        }
        for (part, counts) in self.met.iter().filter(|(part, _)| part.meets_all) {
            let never = |side: &str, (call, told, number): Unseen| {
                let name = call.name();
                format!("{}: {side}{name}, told {told:?}, never gave {number}", part.name)
            };
            holes.extend(counts.unseen().into_iter().map(|unseen| never("", unseen)));
            let by_wrapper = counts.unseen_by_wrapper().into_iter();
            holes.extend(by_wrapper.map(|unseen| never("the wrapper's ", unseen)));
        }
        if let (true, Some(hole)) = (self.ran("runs"), self.runs.hole()) {
            holes.push(format!("runs: {hole}"));
        }
        if let (true, Some(hole)) = (self.ran("stops"), self.stops.hole()) {
            holes.push(format!("stops: {hole}"));
        }
        let Elsewhere { accepted, stopped, .. } = self.elsewhere;
        if self.ran("maps") && (accepted == 0 || stopped == 0) {
            holes.push(format!("maps: {accepted} stores accepted, {stopped} stops"));
        }
        holes
    }

    /// What the runs met.
    fn print_runs(&self) {
        let runs::Met { mapped, unmapped, cuts, refused_cuts, new_bases, .. } = self.runs;
        println!("runs: {mapped} with a map lent to every decision and cut, {unmapped} without");
        let runs::Met { by_compare, with_others, decisions, from_elsewhere, .. } = self.runs;
        let runs::Met { refused_decisions, spoiled, refused_compares, .. } = self.runs;
        println!(
            "decisions in runs: {by_compare} runs decided by Compare, {with_others} with others; of \
             Compare {decisions} accepted and {refused_decisions} refused, {from_elsewhere} from \
             elsewhere, {spoiled} spoiled; {refused_compares} Compares refused"
        );
        println!("cuts in runs: {cuts} accepted, {refused_cuts} refused, {new_bases} new bases");
        let runs::Met { alike, different, .. } = self.runs;
        println!("runs compared in pairs: {alike} ended alike, {different} did not");
        let runs::Met { other_bases, blocks_alike, blocks_different, .. } = self.runs;
        println!(
            "pairs with other bases: {other_bases}; of blocks with the same base in them \
             {blocks_alike} ended alike, {blocks_different} did not"
        );
    }

    /// What the stops met.
    fn print_stops(&self) {
        let stops::Met { told: [none, one], new_pages, other_pages, .. } = self.stops;
        let stops::Met { stray_pages, whole, mapped, unmapped, .. } = self.stops;
        let stops::Met { went_on, cut_later, written_later, ended_there, .. } = self.stops;
        println!(
            "stops, EMPTY, PATCH and FULL_REF: {none:?} told 0, {one:?} told 1; {mapped} with a map, \
             {unmapped} without"
        );
        println!(
            "after a stop {went_on} runs went on, {cut_later} with a cut of the block, {written_later} \
             with a write to it; {ended_there} ended there"
        );
        println!(
            "told 1: {new_pages} pages without a reference, {other_pages} under an old one, \
             {stray_pages} pages that lost theirs, {whole} without a place"
        );
        let stops::Met { runs_of_several, several, sweeps_between, .. } = self.stops;
        println!(
            "runs with several stops: {runs_of_several}, with {several} stops and {sweeps_between} \
             sweeps before the last"
        );
    }

    /// Prints what was met and how it came out; true if all is well.
    fn report(&self, result: Result<(), Failure>) -> bool {
        let mut all = Counts::default();
        self.met.iter().for_each(|(_, counts)| all.add_all(counts));
        println!("\n{all}");
        if self.ran("maps") {
            let Elsewhere { accepted, refused, stopped } = self.elsewhere;
            println!(
                "stores from elsewhere: Build accepted {accepted} and refused {refused}; {stopped} \
                 decisions were stopped on them"
            );
        }
        if self.ran("runs") {
            self.print_runs();
        }
        if self.ran("stops") {
            self.print_stops();
        }
        let (compared, seed) = (all.total(), self.options.seed);
        if let Err(failure) = result {
            println!("MISMATCH  {}", failure.mismatch);
            println!("  replay, in rust/: {}", failure.replay);
            println!("{compared} calls compared, 1 mismatch (seed {seed})");
            return false;
        }
        let holes = self.holes();
        if !holes.is_empty() {
            println!("NOT COVERED  {}", holes.join("; "));
            println!("{compared} calls compared, 0 mismatches, but not all was met (seed {seed})");
            return false;
        }
        println!("{compared} calls compared, 0 mismatches (seed {seed})");
        true
    }
}

/// Each case against its outcome by hand: the independent implementation, then both others.
fn hand_written(session: &mut Session) -> Result<(), Mismatch> {
    for case in cases::all() {
        // Once for each manner of lending buffers.
        for _ in 0..4 {
            let outcome = session.harness.check(&case.input)?;
            if let Some(found) = outcome.difference(&case.expected, case.input.call) {
                return Err(Mismatch {
                    side: "by hand",
                    input: format!("{}: {}", case.name, case.input),
                    found,
                });
            }
        }
    }
    Ok(())
}

fn every_order(session: &mut Session) -> Result<(), Mismatch> {
    orders::check(&mut session.harness)
}

fn lengths(session: &mut Session) -> Result<(), Mismatch> {
    let long = session.options.long;
    let fillers: &[u8] = if long { &[0x00, 0xA7, 0x01] } else { &[0x00] };
    extremes::starting_points(&mut session.harness)?;
    extremes::lengths(&mut session.harness, fillers)?;
    let mut rng = Rng::for_case(session.options.seed, "lengths", 0);
    extremes::many_lengths(&mut session.harness, &mut rng, if long { 2_000 } else { 200 })
}

fn numbers(session: &mut Session) -> Result<(), Mismatch> {
    extremes::nothing_at_all(&mut session.harness)?;
    extremes::places(&mut session.harness)?;
    extremes::numbers(&mut session.harness)
}

fn short_payloads(session: &mut Session) -> Result<(), Mismatch> {
    payloads::every_short_one(&mut session.harness)?;
    // All of them are a million calls.
    payloads::every_long_jump(&mut session.harness, !session.options.long)
}

fn longer_payload(session: &mut Session, rng: &mut Rng) -> Result<(), Mismatch> {
    payloads::a_longer_one(&mut session.harness, rng)
}

fn every_pair(session: &mut Session) -> Result<(), Mismatch> {
    maps::every_one(&mut session.harness)
}

fn store_from_elsewhere(session: &mut Session, rng: &mut Rng) -> Result<(), Mismatch> {
    maps::from_elsewhere(&mut session.harness, rng, &mut session.elsewhere)
}

fn every_cut(session: &mut Session) -> Result<(), Mismatch> {
    cuts::every_one(&mut session.harness)
}

fn every_sweep(session: &mut Session) -> Result<(), Mismatch> {
    sweeps::every_row(&mut session.harness)?;
    let mut rng = Rng::for_case(session.options.seed, "sweeps", 0);
    let rounds = if session.options.long { 4_000 } else { 200 };
    sweeps::from_elsewhere(&mut session.harness, &mut rng, rounds)
}

fn random(session: &mut Session, rng: &mut Rng) -> Result<(), Mismatch> {
    session.harness.check(&generate::any_input(rng)).map(|_| ())
}

fn random_run(session: &mut Session, rng: &mut Rng) -> Result<(), Mismatch> {
    let operations = rng.between(10, 200);
    runs::run(&mut session.harness, rng, operations, &mut session.runs)
}

fn stopped_run(session: &mut Session, rng: &mut Rng) -> Result<(), Mismatch> {
    stops::run(&mut session.harness, rng, &mut session.stops)
}

fn largest(session: &mut Session) -> Result<(), Mismatch> {
    huge::check(&mut session.harness)?;
    if session.options.long {
        if let Some(why) = huge::check_format(&mut session.harness)? {
            println!("huge     format of 1 GiB skipped: {why}");
        }
    }
    Ok(())
}

fn main() -> ExitCode {
    let options = match options() {
        Ok(Some(options)) => options,
        Ok(None) => {
            print!("{HELP}");
            return ExitCode::SUCCESS;
        }
        Err(problem) => {
            eprintln!("differential: {problem}");
            return ExitCode::from(2);
        }
    };
    let mode = if options.long { "long" } else { "quick" };
    println!("differential, {mode} mode, seed {}", options.seed);
    crash::watch();
    let mut harness = Harness::new();
    harness.trace = options.trace;
    let mut session = Session {
        options,
        harness,
        runs: runs::Met::default(),
        stops: stops::Met::default(),
        elsewhere: Elsewhere::default(),
        met: Vec::new(),
    };
    let result = session.run();
    if session.report(result) {
        ExitCode::SUCCESS
    } else {
        ExitCode::FAILURE
    }
}
