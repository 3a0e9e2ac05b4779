//! One process of a trip: the run up to a write in which it ends, the rest of the run, or the sweep.

use std::error::Error;
use std::path::Path;
use std::process::ExitCode;

use thonxiliko::{format, sweep, Stores};
use trips::files::Files;
use trips::run::{Run, Step};

type Outcome = Result<(), Box<dyn Error>>;

const HELP: &str = "\
usage: trip stop FOLDER SEED STEP STORES
       trip go-on FOLDER SEED STEP
       trip sweep FOLDER

  stop   makes the run of the seed on new area files in FOLDER up to its write STEP, which is told
         STORES (0, 1 or 2), and ends by SIGKILL
  go-on  makes the steps after STEP on the files as they are
  sweep  sweeps the files
";

fn stores(word: &str) -> Result<Stores, Box<dyn Error>> {
    match word {
        "0" => Ok(Stores::None),
        "1" => Ok(Stores::One),
        "2" => Ok(Stores::All),
        _ => Err("stores are 0, 1 or 2".into()),
    }
}

/// It does not come back if all goes well.
fn stop(folder: &Path, run: &Run, step: usize, stores: Stores) -> Outcome {
    let Files { mut patch, mut full } = Files::create(folder, run)?;
    let (patch, full) = (patch.bytes_mut(), full.bytes_mut());
    format(patch, full)?;
    for earlier in &run.steps[..step] {
        earlier.make(patch, full)?;
    }
    match &run.steps[step] {
        Step::Write(write) => write.carry_out(patch, full, stores)?,
        Step::Cut(_) => return Err("a cut is not told its stores".into()),
    }
    mapped::end_now()
}

fn go_on(folder: &Path, run: &Run, step: usize) -> Outcome {
    let Files { mut patch, mut full } = Files::open(folder)?;
    for later in &run.steps[step + 1..] {
        later.make(patch.bytes_mut(), full.bytes_mut())?;
    }
    Ok(())
}

fn sweep_files(folder: &Path) -> Outcome {
    let Files { patch, mut full } = Files::open(folder)?;
    // A slot of the process that ended must be on disk before its page goes.
    patch.sync()?;
    Ok(sweep(patch.bytes(), full.bytes_mut())?)
}

fn run() -> Outcome {
    let words: Vec<String> = std::env::args().skip(1).collect();
    let words: Vec<&str> = words.iter().map(String::as_str).collect();
    match words[..] {
        ["stop", folder, seed, step, told] => {
            stop(folder.as_ref(), &Run::drawn(seed.parse()?), step.parse()?, stores(told)?)
        }
        ["go-on", folder, seed, step] => {
            go_on(folder.as_ref(), &Run::drawn(seed.parse()?), step.parse()?)
        }
        ["sweep", folder] => sweep_files(folder.as_ref()),
        _ => Err(HELP.into()),
    }
}

fn main() -> ExitCode {
    match run() {
        Ok(()) => ExitCode::SUCCESS,
        Err(problem) => {
            eprintln!("trip: {problem}");
            ExitCode::from(2)
        }
    }
}
