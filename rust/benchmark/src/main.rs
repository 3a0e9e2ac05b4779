//! Prints how long each call takes, as tables in Markdown. With `--once` every contender gets one turn,
//! to see that all of it works; with `--format` only Format of large areas is measured, with `--maps`
//! only what a map that is kept brings, with `--cuts` only cuts of the largest areas and their highest
//! block, with `--sweeps` only sweeps of the largest areas. With `--real` real pages are taken: the shipped
//! ones, and the sets of a folder if one is named.

mod calls;
mod cuts;
mod formats;
mod limits;
mod maps;
mod pages;
mod real;
mod segments;
mod sweeps;
mod timing;
mod turns;

use std::path::Path;
use std::process::ExitCode;

use timing::{Times, ONCE};

const METHOD: &str = "\
Times are in nanoseconds, each the least of many samples. \"limits\" is the sum of memcmp, memcpy and
memset over the bytes that the rules make the call touch, \"plain Rust\" the independent implementation.
The library, its limits and plain Rust take turns, in one pass after another through all cases, until
five passes in a row bring nothing better by more than 1 % (whole segments: three rounds): other work on
the machine meets all of them alike. Limits that are equal (the same functions over the same numbers of
bytes) are measured as one: beside each case that has them, and the least of all counts. In a case that is
\"drawn\" 64 pages with bases of their own take turns, and so they do in its limits: one page again and again
would be known by heart. \"Compare and carry out\" is a page written by the pair of calls. Carry out is told
all its stores, but where \"told 1\" is said.
";

const HEAD: &str =
    "library | limits | library / limits | within 1.3 | plain Rust | library / plain Rust |";
const TARGET: f64 = 1.3;

fn within_target(times: &Times) -> bool {
    times.library <= TARGET * times.limits
}

fn cells(times: &Times) -> String {
    format!(
        "{:.1} | {:.1} | {:.2} | {} | {:.1} | {:.3} |",
        times.library,
        times.limits,
        times.library / times.limits,
        if within_target(times) { "yes" } else { "no" },
        times.independent,
        times.library / times.independent
    )
}

fn print_calls(rows: &[calls::Row]) {
    println!("| Call | Case | {HEAD}");
    println!("|---|---|--:|--:|--:|---|--:|--:|");
    for row in rows {
        println!("| {} | {} | {}", row.call, row.case, cells(&row.times));
    }
}

fn print_segments(rows: &[segments::Row]) {
    println!("| Blocks | Work, per block | {HEAD}");
    println!("|--:|---|--:|--:|--:|---|--:|--:|");
    for row in rows {
        println!("| {} | {} | {}", row.blocks, row.work, cells(&row.times));
    }
}

fn print_maps(unit: &str, rows: &[maps::Row]) {
    println!("| Blocks | Work, per {unit} | {HEAD}");
    println!("|--:|---|--:|--:|--:|---|--:|--:|");
    for row in rows {
        println!("| {} | {} | {}", row.blocks, row.work, cells(&row.times));
    }
}

/// Reads by a map that is kept, and writes that keep it.
fn print_kept_maps(once: bool) {
    print_maps("block", &maps::read_rows(once));
    println!();
    print_maps("batch", &maps::write_rows(once));
}

/// The targets that were set, and how they came out.
fn print_targets(calls: &[calls::Row], segments: &[segments::Row]) {
    let within = calls.iter().filter(|row| within_target(&row.times)).count();
    println!("- Calls within {TARGET} x of their limits: {within} of {} cases.", calls.len());
    for row in calls.iter().filter(|row| row.call == "Compare" && row.case.starts_with("20 ")) {
        let share = row.times.library / row.times.independent;
        println!("- Compare, {}: {share:.3} x of plain Rust (target 0.15).", row.case);
    }
    for work in ["written by the pair", "read", "built"] {
        let mut rows = segments.iter().filter(|row| row.work == work);
        if let (Some(first), Some(last)) = (rows.next(), rows.next_back()) {
            let (few, many) = (first.times.library, last.times.library);
            println!(
                "- Per block {work}: {few:.0} ns at n = {}, {many:.0} ns at n = {}, {:.2} x.",
                first.blocks,
                last.blocks,
                many / few
            );
        }
    }
}

/// Format of large areas alone, which takes seconds and not minutes.
fn print_formats() {
    println!("{METHOD}");
    print_segments(&formats::rows(formats::EFFORT, formats::BLOCKS));
}

/// Cuts of the largest areas, and the highest block; a time is for a block that is cut or looked at.
fn print_cuts(once: bool) {
    let (effort, blocks) =
        if once { (ONCE, 1_024) } else { (cuts::EFFORT, thonxiliko::MAX_BLOCKS) };
    print_segments(&cuts::rows(effort, blocks));
}

/// Sweeps of the largest areas; a time is for a block.
fn print_sweeps(once: bool) {
    let (effort, blocks) =
        if once { (ONCE, 1_024) } else { (sweeps::EFFORT, thonxiliko::MAX_BLOCKS) };
    print_segments(&sweeps::rows(effort, blocks));
}

fn print_all(once: bool) {
    println!("{METHOD}");
    println!("### Each call, warm buffers\n");
    let calls = calls::rows(if once { ONCE } else { calls::EFFORT });
    print_calls(&calls);
    println!("\n### Whole segments, 20 differences in each block\n");
    let (effort, blocks) =
        if once { (ONCE, 1_024) } else { (segments::EFFORT, thonxiliko::MAX_BLOCKS) };
    let segments = segments::rows(effort, blocks);
    print_segments(&segments);
    println!("\n### Format of large areas\n");
    let (effort, blocks) = if once { (ONCE, 1_024) } else { (formats::EFFORT, formats::BLOCKS) };
    print_segments(&formats::rows(effort, blocks));
    println!("\n### A map that is kept\n");
    print_kept_maps(once);
    println!("\n### A table cut short, and the highest block\n");
    print_cuts(once);
    println!("\n### A sweep after a stop\n");
    print_sweeps(once);
    println!("\n### Targets\n");
    print_targets(&calls, &segments);
}

/// Real pages; a set that is not one and a peer that loses a page end the run.
fn print_real(folder: Option<&str>) -> ExitCode {
    match real::print(folder.map(Path::new)) {
        Ok(()) => ExitCode::SUCCESS,
        Err(problem) => {
            eprintln!("{problem}");
            ExitCode::FAILURE
        }
    }
}

fn main() -> ExitCode {
    let words: Vec<String> = std::env::args().skip(1).collect();
    let words: Vec<&str> = words.iter().map(String::as_str).collect();
    match words[..] {
        [] => print_all(false),
        ["--once"] => print_all(true),
        ["--format"] => print_formats(),
        ["--maps"] => {
            println!("{METHOD}");
            print_kept_maps(false);
        }
        ["--cuts"] => {
            println!("{METHOD}");
            print_cuts(false);
        }
        ["--sweeps"] => {
            println!("{METHOD}");
            print_sweeps(false);
        }
        ["--real"] => return print_real(None),
        ["--real", folder] => return print_real(Some(folder)),
        _ => {
            eprintln!(
                "usage: benchmark [--once | --format | --maps | --cuts | --sweeps | --real [FOLDER]]"
            );
            return ExitCode::from(2);
        }
    }
    ExitCode::SUCCESS
}
