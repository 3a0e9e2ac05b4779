//! The verbs of the command line: what each takes, says of itself, and does.

use std::path::Path;

use crate::block::Block;
use crate::folder::{must_be_empty, must_be_outside};
use crate::problem::Outcome;
use crate::progress::Progress;
use crate::store::{base_sums, store, Folders};
use crate::words::{number, Words};
use crate::{check, close, folder, info, rebuild, sweep, table};

pub struct Verb {
    pub name: &'static str,
    /// Its plain words; one in brackets may be left out.
    arguments: &'static [&'static str],
    pub options: &'static [&'static str],
    /// What it does, in one line and at length.
    pub line: &'static str,
    pub text: &'static str,
    /// Gives the exit status.
    pub run: fn(&Words) -> Outcome<u8>,
}

impl Verb {
    pub fn takes(&self, words: usize) -> bool {
        let least = self.arguments.iter().filter(|name| !name.starts_with('[')).count();
        (least..=self.arguments.len()).contains(&words)
    }

    pub fn usage(&self) -> String {
        let mut usage = format!("trial {}", self.name);
        self.arguments.iter().for_each(|name| usage += &format!(" {name}"));
        for option in self.options {
            let value = match *option {
                "--names" => "FILE",
                "--noon" => "FOLDER",
                "--stopped" => "N",
                _ => "0|1",
            };
            usage += &format!(" [{option} {value}]");
        }
        usage
    }

    pub fn help(&self) -> String {
        format!("usage: {}\n\n{}", self.usage(), self.text)
    }
}

pub fn overview() -> String {
    let mut text = "usage: trial VERB ...; `trial VERB --help` says more\n\n".to_string();
    VERBS.iter().for_each(|verb| text += &format!("  {:<8} {}\n", verb.name, verb.line));
    text += "\nBASE is last night's backup, a folder that is never written to. CHANGED is what became of \
        it,\nKEPT what is kept of that beside the base. Exit status: 0 done, 1 a fault or a difference was\n\
        found, 2 it could not be done.\n";
    text
}

pub const VERBS: &[Verb] = &[
    Verb {
        name: "decide",
        arguments: &["BASE", "CHANGED"],
        options: &["--names"],
        line: "tells what the changed blocks of CHANGED would take; nothing is stored",
        text: "\
Tells what each changed relation of CHANGED would take beside BASE: nothing, a patch or a full page.
Nothing is stored.

  --names FILE  lines of: path of a relation's first file, its name, 'system' or 'user' (by tabs)
",
        run: run_decide,
    },
    Verb {
        name: "store",
        arguments: &["BASE", "CHANGED", "KEPT"],
        options: &["--noon", "--names"],
        line: "keeps in KEPT what CHANGED has beyond BASE, reads it back and prints a table",
        text: "\
Tells what `decide` tells, keeps in KEPT what CHANGED has beyond BASE, and reads it back. KEPT must be
new, or have nothing in it. Its manifest, with lengths and checksums of all files of BASE and of KEPT,
is written last. BASE and CHANGED must not change meanwhile: no server may run on them.

  --noon FOLDER what CHANGED was like at noon: its pages are stored first, then those of CHANGED;
                a file that CHANGED has shorter is cut in between
  --names FILE  lines of: path of a relation's first file, its name, 'system' or 'user' (by tabs)
",
        run: run_store,
    },
    Verb {
        name: "rebuild",
        arguments: &["BASE", "KEPT", "FOLDER"],
        options: &[],
        line: "makes FOLDER from BASE and KEPT, if every byte of both is as it was stored",
        text: "\
Checks BASE and KEPT as `check` does, before a byte is written. With any fault nothing is made. Else
FOLDER is made under another name beside it, synced, and renamed: so a folder that is there is whole.
FOLDER must be new, or have nothing in it. A live store is not rebuilt: sweep it if a write was stopped,
check it, close it.
",
        run: |words| {
            let progress = &mut Progress::new();
            rebuild::rebuild(words.path(0), words.path(1), words.path(2), progress)
        },
    },
    Verb {
        name: "check",
        arguments: &["BASE", "KEPT"],
        options: &[],
        line: "holds all of BASE and KEPT against the manifest, and lists every fault",
        text: "\
Holds every file of BASE and KEPT against the manifest: none is missing, none is there beyond, lengths
and checksums fit, and Build accepts every segment. Every fault is listed, a line each, and counted.
A live segment has no checksums yet: its lengths are checked, and Build must accept it.
",
        run: |words| check::check(words.path(0), words.path(1), &mut Progress::new()),
    },
    Verb {
        name: "info",
        arguments: &["KEPT", "[FILE]"],
        options: &[],
        line: "tells what KEPT holds, with a line for each segment; or one FILE in more words",
        text: "\
Tells the state of KEPT, how many files there are of each sort, and for each segment: its blocks n, the
places m of its full area, how many blocks are EMPTY, PATCH and full, the bytes of its area files, what
they take on disk, and whether it is closed or live. Checksums are not looked at: that is `check`.
",
        run: |words| match words.plain.get(1) {
            Some(file) => info::info_of(words.path(0), file),
            None => info::info(words.path(0)),
        },
    },
    Verb {
        name: "close",
        arguments: &["KEPT"],
        options: &[],
        line: "ends writing to KEPT: its live segments get checksums",
        text: "\
Runs Build on every live segment and, if all are sound, writes their checksums into the manifest. A store
that is closed can be rebuilt. After a write that was stopped: `sweep`, then `check`, then `close`.
",
        run: |words| close::close(words.path(0), &mut Progress::new()),
    },
    Verb {
        name: "sweep",
        arguments: &["KEPT", "FILE"],
        options: &["--stopped"],
        line: "clears up after writes to FILE that were stopped",
        text: "\
Removes the pages of FILE in KEPT to which no slot refers, if so many writes to FILE were stopped since it
was last swept: one leaves a page at most. Where there are more, nothing is removed: a slot was lost, and
such a page is the only copy. FILE is checked before, and left as it is if it has any other fault, and
after it. A closed segment has nothing to sweep.

  --stopped N   so many writes to FILE were stopped. Without it nothing is swept: the blocks are listed
",
        run: |words| sweep::sweep(words.path(0), words.path(1), words.stopped).map(|()| 0),
    },
    Verb {
        name: "compare",
        arguments: &["FOLDER", "FOLDER"],
        options: &[],
        line: "says whether both folders hold the same files with the same bytes",
        text: "\
Lists every file and folder that is in only one of them, and every file with other bytes. Exit status 1
if there is one, or no file at all.
",
        run: |words| compare(words.path(0), words.path(1)),
    },
    Verb {
        name: "blocks",
        arguments: &["KEPT"],
        options: &[],
        line: "checks the segments of KEPT and lists their blocks",
        text: "\
Lists every block: its file, its number, its kind (EMPTY, PATCH, full), and whether it has a place for a
full page. Each segment must be as the manifest says, and Build must accept it.
",
        run: |words| info::blocks(words.path(0)),
    },
    Verb {
        name: "write",
        arguments: &["BASE", "KEPT", "FILE", "BLOCK", "FROM", "PAGE"],
        options: &["--stores"],
        line: "makes the page PAGE of the file FROM that of BLOCK of FILE in KEPT",
        text: "\
FILE in BASE and, if the segment is closed, its areas are held against the manifest; then the segment is
marked live. The area files are mapped, and the first store is on disk before the second one is made.
FROM must have the page; only if it is FILE in BASE, and PAGE is BLOCK, a page that is not there is zeros.
The store stays live until `close`.

  --stores 0|1  the write is stopped after none or one of its two stores, and the process is killed
",
        run: |words| {
            let page = number(words.path(5), "PAGE")?;
            block(words)?.write(words.path(4), page, words.stores).map(|()| 0)
        },
    },
    Verb {
        name: "read",
        arguments: &["BASE", "KEPT", "FILE", "BLOCK", "TO"],
        options: &[],
        line: "reads BLOCK of FILE from KEPT over BASE, into the file TO",
        text: "\
FILE in BASE and, if the segment is closed, its areas are held against the manifest before. What FILE
does not have in BASE is zeros.
",
        run: |words| block(words)?.read(words.path(4)).map(|()| 0),
    },
];

fn block(words: &Words) -> Outcome<Block<'_>> {
    let [base, kept, path] = [0, 1, 2].map(|at| words.path(at));
    Ok(Block { base, kept, path, number: number(words.path(3), "BLOCK")? })
}

fn run_decide(words: &Words) -> Outcome<u8> {
    let folders = Folders { base: words.path(0), noon: None, changed: words.path(1) };
    let names = words.names()?;
    let decided = folders.decide(&mut Progress::new())?;
    table::print_decided(&decided, &names);
    Ok(0)
}

fn run_store(words: &Words) -> Outcome<u8> {
    let noon = words.noon.as_deref();
    let folders = Folders { base: words.path(0), noon, changed: words.path(1) };
    let (kept, names, mut progress) = (words.path(2), words.names()?, Progress::new());
    must_be_empty(kept)?;
    for folder in [Some(folders.base), noon, Some(folders.changed)].into_iter().flatten() {
        must_be_outside(kept, folder)?;
    }
    let base = base_sums(folders.base, &mut progress)?;
    let decided = folders.decide(&mut progress)?;
    table::print_would_take(&decided);
    let stored = store(folders, base, decided, kept, &mut progress)?;
    table::print(&stored, &names);
    Ok(0)
}

/// Prints every difference; 1 if there is one.
fn compare(one: &Path, other: &Path) -> Outcome<u8> {
    let differences = folder::differences(one, other)?;
    for difference in &differences.found {
        println!("{difference}");
    }
    println!("{} files compared, {} differ", differences.files, differences.found.len());
    Ok(u8::from(!differences.found.is_empty() || differences.files == 0))
}
