//! Folders for the tests, and the program run on them.
#![allow(dead_code)] // each test file takes what it needs

use std::collections::BTreeMap;
use std::env;
use std::ffi::{OsStr, OsString};
use std::fs;
use std::os::unix::process::ExitStatusExt;
use std::path::{Path, PathBuf};
use std::process::{Command, Stdio};
use std::thread::sleep;
use std::time::Duration;

use thonxiliko::{FULL_HEADER_SIZE, PAGE_SIZE, PATCH_HEADER_SIZE, SLOT_SIZE};

/// How a run of the program ended: by its status, or 128 and the signal; and all that it said.
pub struct Ran {
    pub status: i32,
    pub said: String,
}

impl Ran {
    /// It ended like this, and said all of that.
    pub fn must(&self, status: i32, wanted: &[&str]) {
        assert_eq!(self.status, status, "{}", self.said);
        for text in wanted {
            assert!(self.said.contains(text), "no {text:?} in: {}", self.said);
        }
    }
}

/// The program with its words, where it is one for another machine by its emulator.
fn command<W: AsRef<OsStr>>(words: &[W]) -> Command {
    let machine = env::consts::ARCH.to_uppercase();
    let runner = env::var(format!("CARGO_TARGET_{machine}_UNKNOWN_LINUX_GNU_RUNNER"));
    let runner = runner.unwrap_or_default();
    let mut line = runner.split_whitespace().chain([env!("CARGO_BIN_EXE_trial")]);
    let program = line.next().expect("the program itself, at least");
    let mut command = Command::new(program);
    command.args(line).args(words);
    command
}

/// Runs the program to its end.
pub fn trial<W: AsRef<OsStr>>(words: &[W]) -> Ran {
    let ran = command(words).output().expect("a process");
    let status = ran.status.code().or_else(|| ran.status.signal().map(|signal| 128 + signal));
    let said = [ran.stdout, ran.stderr].map(|bytes| String::from_utf8(bytes).expect("text"));
    Ran { status: status.expect("an end"), said: said.concat() }
}

/// A folder of its own for each test, removed at the end.
pub struct Place(pub PathBuf);

impl Drop for Place {
    fn drop(&mut self) {
        let _ = fs::remove_dir_all(&self.0);
    }
}

impl Place {
    pub fn new(name: &str) -> Place {
        let path = env::temp_dir().join(format!("trial-run-{}-{name}", std::process::id()));
        fs::create_dir_all(&path).expect("a temporary folder");
        Place(path)
    }

    /// A base and what became of it: segment 11 has a patch in block 1 and full pages in 2 and 3; 17 is
    /// like it with other bytes; 12 has a patch and no full area; 14 is new; the others are as they were,
    /// gone, or no relations.
    pub fn with_folders(name: &str) -> Place {
        let place = Place::new(name);
        for (path, base, new) in [
            ("base/1/10", Some(pages(2, &[])), Some(pages(2, &[]))),
            ("base/1/11", Some(pages(4, &[])), Some(pages(4, &[(1, 20), (2, 300), (3, 300)]))),
            ("base/1/12", Some(pages(3, &[])), Some(pages(3, &[(0, 5)]))),
            ("base/1/14", None, Some(pages(2, &[]))),
            ("base/1/15", Some(pages(1, &[])), None),
            ("base/1/17", Some(pages(4, &[])), Some(pages(4, &[(1, 20), (2, 400), (3, 400)]))),
            ("global/pg_control", Some(vec![1; 100]), Some(vec![2; 100])),
            ("PG_VERSION", Some(b"15".to_vec()), Some(b"15".to_vec())),
        ] {
            for (folder, bytes) in [("base", base), ("new", new)] {
                bytes.iter().for_each(|bytes| place.put(&format!("{folder}/{path}"), bytes));
            }
        }
        place
    }

    /// The same, stored in `kept`.
    pub fn stored(name: &str) -> Place {
        let place = Place::with_folders(name);
        place.store("kept").must(0, &[]);
        place
    }

    pub fn at(&self, path: &str) -> PathBuf {
        self.0.join(path)
    }

    pub fn put(&self, path: &str, bytes: &[u8]) {
        let path = self.0.join(path);
        fs::create_dir_all(path.parent().expect("a folder")).expect("a folder");
        fs::write(path, bytes).expect("a file");
    }

    pub fn bytes(&self, path: &str) -> Vec<u8> {
        fs::read(self.at(path)).expect("a file")
    }

    /// Changes a file that is there.
    pub fn change(&self, path: &str, change: impl FnOnce(&mut Vec<u8>)) {
        let mut bytes = self.bytes(path);
        change(&mut bytes);
        self.put(path, &bytes);
    }

    pub fn remove(&self, path: &str) {
        fs::remove_file(self.at(path)).expect("a file");
    }

    pub fn rename(&self, from: &str, to: &str) {
        fs::rename(self.at(from), self.at(to)).expect("a file");
    }

    /// A verb on folders of this place; words that begin with `=` are taken as they are.
    fn words(&self, line: &str) -> Vec<OsString> {
        let words = line.split(' ').enumerate().map(|(at, word)| match word.strip_prefix('=') {
            Some(word) => OsString::from(word),
            None if at == 0 || word.starts_with('-') => OsString::from(word),
            None => self.at(word).into_os_string(),
        });
        words.collect()
    }

    pub fn run(&self, line: &str) -> Ran {
        trial(&self.words(line))
    }

    /// Starts a verb, and kills it after a while if it is not done by then.
    pub fn run_and_kill(&self, line: &str, after: Duration) {
        let mut command = command(&self.words(line));
        let quiet = command.stdout(Stdio::null()).stderr(Stdio::null());
        let mut process = quiet.spawn().expect("a process");
        sleep(after);
        process.kill().expect("killed, or done");
        process.wait().expect("an end");
    }

    pub fn store(&self, kept: &str) -> Ran {
        self.run(&format!("store base new {kept}"))
    }

    /// `write` of page PAGE of FROM to a block of segment 11, with more words.
    pub fn write(&self, block: u64, from: &str, page: u64, more: &str) -> Ran {
        self.run(&format!("write base kept =base/1/11 ={block} {from} ={page}{more}"))
    }

    /// All files below a folder, with their bytes.
    pub fn files(&self, path: &str) -> BTreeMap<PathBuf, Vec<u8>> {
        let mut files = BTreeMap::new();
        let mut folders = vec![self.at(path)];
        while let Some(folder) = folders.pop() {
            for entry in fs::read_dir(&folder).expect("a folder").flatten() {
                match entry.path() {
                    path if path.is_dir() => folders.push(path),
                    path => {
                        files.insert(path.clone(), fs::read(path).expect("a file"));
                    }
                }
            }
        }
        files
    }

    /// Nothing by this name, and nothing that was to become it.
    pub fn must_have_no(&self, folder: &str) {
        assert!(!self.at(folder).exists());
        self.must_have_nothing_half_made();
    }

    pub fn must_have_nothing_half_made(&self) {
        let half_made = |path: &Path| path.to_string_lossy().contains(".trial-");
        let entries = fs::read_dir(&self.0).expect("a folder").flatten();
        let left: Vec<_> = entries.map(|e| e.path().file_name().map(PathBuf::from)).collect();
        assert!(!left.iter().flatten().any(|path| half_made(path)), "{left:?}");
    }
}

/// Pages that differ from each other, with some bytes changed in each of the given ones.
pub fn pages(count: usize, changed: &[(usize, usize)]) -> Vec<u8> {
    let mut bytes: Vec<u8> =
        (0..count * PAGE_SIZE).map(|at| (at / PAGE_SIZE + at % 251) as u8).collect();
    for (page, differences) in changed {
        let start = page * PAGE_SIZE;
        bytes[start..start + differences].iter_mut().for_each(|byte| *byte ^= 0x80);
    }
    bytes
}

/// The bytes of a block's slot in a patch area.
pub fn slot(block: usize) -> std::ops::Range<usize> {
    let start = PATCH_HEADER_SIZE + SLOT_SIZE * block;
    start..start + SLOT_SIZE
}

/// The bytes of a block's place in a full area.
pub fn place_of(block: usize) -> std::ops::Range<usize> {
    let start = FULL_HEADER_SIZE + PAGE_SIZE * block;
    start..start + PAGE_SIZE
}
