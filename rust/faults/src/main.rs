//! Prints what damage to a store of the shipped pages comes to, as tables in Markdown.

use std::error::Error;
use std::process::ExitCode;

use faults::store::Store;
use faults::{cases, flips, maps, shipped, tables};

fn print() -> Result<(), Box<dyn Error>> {
    let blocks = shipped::blocks(&shipped::folder())?;
    let store = Store::of(&blocks)?;
    println!("### The store\n\n{}", tables::kinds(&store.kinds()?, store.pages()));
    let table = flips::count(&store, &blocks);
    println!("### One bit flipped\n\n{}\n{}", tables::flips(&table), tables::in_words(&table));
    println!("### Lost, swapped, doubled, cut\n\n{}", tables::cases(&cases::all(&store, &blocks)));
    println!("### Read by a map\n\n{}", tables::mapped_flips(&maps::count(&store, &blocks)));
    println!("{}", tables::mapped_cases(&maps::cases(&store, &blocks)));
    Ok(())
}

fn main() -> ExitCode {
    if std::env::args().len() > 1 {
        eprintln!("usage: faults");
        return ExitCode::from(2);
    }
    match print() {
        Ok(()) => ExitCode::SUCCESS,
        Err(problem) => {
            eprintln!("faults: {problem}");
            ExitCode::from(2)
        }
    }
}
