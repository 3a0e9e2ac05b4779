//! Folders for the tests.

use std::fs;
use std::path::{Path, PathBuf};

use thonxiliko::PAGE_SIZE;

use crate::problem::Outcome;
use crate::progress::Progress;
use crate::store::{base_sums, store, Folders, Stored};

/// A folder of its own for each test, removed at the end.
pub struct Place(pub PathBuf);

impl Place {
    pub fn new(name: &str) -> Place {
        let path = std::env::temp_dir().join(format!("trial-{}-{name}", std::process::id()));
        fs::create_dir_all(&path).expect("a temporary folder");
        Place(path)
    }

    pub fn at(&self, path: &str) -> PathBuf {
        self.0.join(path)
    }

    pub fn put(&self, path: &str, bytes: &[u8]) {
        let path = self.0.join(path);
        fs::create_dir_all(path.parent().expect("a folder")).expect("a folder");
        fs::write(path, bytes).expect("a file");
    }

    /// Decides and stores, by the folders `base`, `new` and, where it is asked for, `noon`.
    pub fn store(&self, noon: bool) -> Outcome<Stored> {
        let (base, noon, changed) =
            (self.at("base"), noon.then(|| self.at("noon")), self.at("new"));
        let folders = Folders { base: &base, noon: noon.as_deref(), changed: &changed };
        let mut progress = Progress::quiet();
        let sums = base_sums(&base, &mut progress)?;
        let decided = folders.decide(&mut progress)?;
        store(folders, sums, decided, &self.at("kept"), &mut progress)
    }

    pub fn rebuild(&self, to: &Path) -> Outcome<u8> {
        crate::rebuild::rebuild(&self.at("base"), &self.at("kept"), to, &mut Progress::quiet())
    }
}

impl Drop for Place {
    fn drop(&mut self) {
        let _ = fs::remove_dir_all(&self.0);
    }
}

/// Pages that differ from each other, with some bytes changed in each of the given ones.
pub fn pages(count: usize, changed: &[(usize, usize)]) -> Vec<u8> {
    let mut bytes: Vec<u8> =
        (0..count * PAGE_SIZE).map(|at| (at / PAGE_SIZE + at % 251) as u8).collect();
    for (page, differences) in changed {
        let start = page * PAGE_SIZE;
        bytes[start..start + differences].iter_mut().for_each(|byte| *byte ^= 0x80);
    }
    bytes
}

/// Relations that stayed, changed, grew, shrank, came and went, and files of other sorts.
pub fn folders(place: &Place) {
    place.put("base/base/1/10", &pages(4, &[]));
    place.put("new/base/1/10", &pages(4, &[]));
    place.put("base/base/1/11", &pages(4, &[]));
    place.put("new/base/1/11", &pages(4, &[(1, 20), (3, 300)]));
    place.put("base/base/1/12", &pages(3, &[]));
    place.put("new/base/1/12", &pages(6, &[(0, 1)]));
    place.put("base/base/1/13_vm", &pages(5, &[]));
    place.put("new/base/1/13_vm", &pages(2, &[]));
    place.put("new/base/1/14.1", &pages(2, &[]));
    place.put("base/base/1/15", &pages(2, &[]));
    place.put("base/base/1/16", &pages(2, &[]));
    place.put("new/base/1/16", &[]);
    place.put("base/global/pg_control", &[1; 100]);
    place.put("new/global/pg_control", &[2; 100]);
    place.put("base/PG_VERSION", b"15");
    place.put("new/PG_VERSION", b"15");
    fs::create_dir_all(place.at("new/pg_notify")).expect("a folder");
}
