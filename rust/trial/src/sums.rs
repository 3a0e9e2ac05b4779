//! Lengths and checksums of files.

use std::fs::{self, File, OpenOptions};
use std::io::{Read, Write};
use std::path::Path;

use crate::folder::make_parent;
use crate::problem::{At, Outcome, Problem};
use crate::progress::Progress;
use crate::sha256::{Digest, Sha256};

/// How long a file is, and its SHA-256.
#[derive(Clone, Copy, Debug, PartialEq, Eq)]
pub struct FileSum {
    pub length: u64,
    pub digest: Digest,
}

impl FileSum {
    pub fn of(path: &Path, progress: &mut Progress) -> Outcome<FileSum> {
        let mut file = File::open(path).at(path)?;
        sum_of(|bytes| file.read(bytes).at(path), |_| Ok(()), progress)
    }

    /// Holds a file against what it was. One that is not there has no sum and is another fault.
    pub fn check(&self, path: &Path, what: &str, progress: &mut Progress) -> Outcome<()> {
        let length = match fs::symlink_metadata(path) {
            Ok(found) if found.is_file() => found.len(),
            Err(error) if error.kind() != std::io::ErrorKind::NotFound => {
                return Err(error).at(path);
            }
            _ => return Err(not_as_stored("is not there", what).of(path)),
        };
        if length != self.length {
            let found = format!("has {length} bytes and had {}", self.length);
            return Err(not_as_stored(&found, what).of(path));
        }
        if FileSum::of(path, progress)? != *self {
            return Err(not_as_stored("has other bytes than it had", what).of(path));
        }
        Ok(())
    }
}

fn not_as_stored(found: &str, what: &str) -> Problem {
    Problem::fault(format!("{what} {found}: restore it from a copy"))
}

/// Copies a file, permissions too, and gives the sum of the bytes that were read for it.
pub fn copy_with_sum(from: &Path, to: &Path, progress: &mut Progress) -> Outcome<FileSum> {
    make_parent(to)?;
    let mut old = File::open(from).at(from)?;
    let mut new = OpenOptions::new().write(true).create_new(true).open(to).at(to)?;
    let sum =
        sum_of(|bytes| old.read(bytes).at(from), |bytes| new.write_all(bytes).at(to), progress)?;
    let permissions = old.metadata().at(from)?.permissions();
    fs::set_permissions(to, permissions).at(to)?;
    Ok(sum)
}

/// The sum of all that is read; each piece is also handed on.
fn sum_of(
    mut read: impl FnMut(&mut [u8]) -> Outcome<usize>,
    mut hand_on: impl FnMut(&[u8]) -> Outcome<()>,
    progress: &mut Progress,
) -> Outcome<FileSum> {
    let (mut sum, mut length) = (Sha256::new(), 0);
    let mut piece = vec![0; 1 << 18];
    loop {
        let taken = read(&mut piece)?;
        if taken == 0 {
            return Ok(FileSum { length, digest: sum.digest() });
        }
        sum.take(&piece[..taken]);
        hand_on(&piece[..taken])?;
        length += taken as u64;
        progress.add(taken as u64);
    }
}

#[cfg(test)]
mod tests {
    use super::*;

    #[test]
    fn a_copy_has_the_sum_of_its_file() {
        let place = std::env::temp_dir().join(format!("sums-{}", std::process::id()));
        let (from, to) = (place.join("from"), place.join("below/to"));
        fs::create_dir_all(&place).expect("a folder");
        let bytes: Vec<u8> = (0..300_000u32).map(|at| (at % 251) as u8).collect();
        fs::write(&from, &bytes).expect("a file");
        let progress = &mut Progress::quiet();
        let sum = copy_with_sum(&from, &to, progress).expect("copied");
        assert_eq!(sum, FileSum { length: 300_000, digest: Digest::of(&bytes) });
        assert!(fs::read(&to).expect("the copy") == bytes);
        assert!(copy_with_sum(&from, &to, progress).is_err());

        assert!(sum.check(&to, "a file", progress).is_ok());
        fs::write(&to, [&bytes[1..], &[0]].concat()).expect("other bytes");
        let found = sum.check(&to, "a file", progress).expect_err("other bytes");
        assert!(found.to_string().contains("has other bytes than it had"), "{found}");
        fs::write(&to, &bytes[1..]).expect("cut");
        let found = sum.check(&to, "a file", progress).expect_err("cut");
        assert!(found.to_string().contains("has 299999 bytes and had 300000"), "{found}");
        fs::remove_dir_all(&place).expect("removed");
        let found = sum.check(&to, "a file", progress).expect_err("gone");
        assert!(found.to_string().contains("is not there") && found.status() == 1, "{found}");
    }
}
