//! Files and folders, as far as a data folder needs them.

use std::collections::BTreeSet;
use std::fs::{self, File};
use std::io::{BufReader, ErrorKind, Read, Seek, SeekFrom};
use std::os::unix::fs::DirBuilderExt;
use std::path::{Path, PathBuf};

use thonxiliko::PAGE_SIZE;

use crate::problem::{At, Outcome, Problem};
use crate::spelled::spelled;

/// The paths below a folder, relative to it, in order.
#[derive(Default)]
pub struct Listing {
    pub files: BTreeSet<PathBuf>,
    pub folders: BTreeSet<PathBuf>,
    /// Neither files nor folders: links, sockets and the like.
    pub others: BTreeSet<PathBuf>,
}

impl Listing {
    /// All that is below a folder. A tablespace or a log elsewhere would silently be left out, so what is
    /// neither file nor folder is refused.
    pub fn of(root: &Path) -> Outcome<Listing> {
        let listing = Listing::with_others(root)?;
        match listing.others.iter().next() {
            Some(path) => {
                let problem =
                    "this is neither file nor folder: put the file or folder in its place";
                Err(Problem::not_done(problem).of(&root.join(path)))
            }
            None => Ok(listing),
        }
    }

    pub fn with_others(root: &Path) -> Outcome<Listing> {
        must_be_folder(root)?;
        let mut listing = Listing::default();
        listing.add(root, Path::new(""))?;
        Ok(listing)
    }

    fn add(&mut self, root: &Path, below: &Path) -> Outcome<()> {
        let folder = root.join(below);
        for entry in fs::read_dir(&folder).at(&folder)? {
            let entry = entry.at(&folder)?;
            let path = below.join(entry.file_name());
            let kind = entry.file_type().at(&root.join(&path))?;
            if kind.is_dir() {
                self.folders.insert(path.clone());
                self.add(root, &path)?;
            } else if kind.is_file() {
                self.files.insert(path);
            } else {
                self.others.insert(path);
            }
        }
        Ok(())
    }
}

/// A relation file of PostgreSQL: the folder and number that name the relation's first file, and
/// whether it belongs to the main fork.
#[derive(Clone, Debug, PartialEq, Eq)]
pub struct RelationFile {
    pub first: String,
    pub fork: Option<String>,
}

/// Tells relation files apart from all others by where they are and how they are named:
/// `base/DATABASE/NUMBER` or `global/NUMBER`, then `_FORK`, then `.SEGMENT`.
pub fn relation_file(path: &Path) -> Option<RelationFile> {
    let parts: Vec<&str> = path.iter().map(|part| part.to_str()).collect::<Option<_>>()?;
    let (folder, name) = match parts[..] {
        ["base", database, name] if is_number(database) => (format!("base/{database}"), name),
        ["global", name] => ("global".to_string(), name),
        _ => return None,
    };
    let (name, segment) = split_at_mark(name, '.');
    let (number, fork) = split_at_mark(name, '_');
    let fork_known = matches!(fork, None | Some("fsm" | "vm" | "init"));
    let segment_sound = segment.map_or(true, is_number);
    (is_number(number) && fork_known && segment_sound).then(|| RelationFile {
        first: format!("{folder}/{number}"),
        fork: fork.map(str::to_string),
    })
}

fn split_at_mark(name: &str, mark: char) -> (&str, Option<&str>) {
    match name.split_once(mark) {
        Some((before, after)) => (before, Some(after)),
        None => (name, None),
    }
}

fn is_number(text: &str) -> bool {
    !text.is_empty() && text.bytes().all(|byte| byte.is_ascii_digit())
}

/// A file of whole pages, read one page at a time. A file that is not there has none.
pub struct Pages {
    path: PathBuf,
    file: Option<BufReader<File>>,
    /// The next page.
    at: u64,
    pub count: u64,
}

impl Pages {
    pub fn open(path: &Path) -> Outcome<Pages> {
        let file = match File::open(path) {
            Ok(file) => file,
            Err(error) if error.kind() == ErrorKind::NotFound => {
                return Ok(Pages { path: path.to_path_buf(), file: None, at: 0, count: 0 });
            }
            Err(error) => return Err(error).at(path),
        };
        let length = file.metadata().at(path)?.len();
        if length % PAGE_SIZE as u64 != 0 {
            let problem =
                format!("{length} bytes are no whole pages: stop the server, copy it anew");
            return Err(Problem::not_done(problem).of(path));
        }
        let (count, path) = (length / PAGE_SIZE as u64, path.to_path_buf());
        Ok(Pages { path, file: Some(BufReader::with_capacity(1 << 20, file)), at: 0, count })
    }

    /// The next page; an empty one past the end, which the library takes for a base of zeros. All the
    /// pages that the file had when it was opened must be there.
    pub fn next_page(&mut self, page: &mut Vec<u8>) -> Outcome<()> {
        page.clear();
        if let (Some(file), true) = (&mut self.file, self.at < self.count) {
            page.resize(PAGE_SIZE, 0);
            file.read_exact(page).at(&self.path)?;
            self.at += 1;
        }
        Ok(())
    }
}

/// One page of a file of whole pages; empty where the file has none so far, as in [`Pages::next_page`].
pub fn page_of(path: &Path, number: u64) -> Outcome<Vec<u8>> {
    let mut pages = Pages::open(path)?;
    let mut page = Vec::new();
    if let (Some(file), true) = (&mut pages.file, number < pages.count) {
        file.seek(SeekFrom::Start(number * PAGE_SIZE as u64)).at(path)?;
        pages.at = number;
        pages.next_page(&mut page)?;
    }
    Ok(page)
}

/// One page that a file must have.
pub fn page_there(path: &Path, number: u64) -> Outcome<Vec<u8>> {
    let page = page_of(path, number)?;
    if page.is_empty() {
        let problem =
            format!("the file is not there, or has no page {number}: give one that has it");
        return Err(Problem::not_done(problem).of(path));
    }
    Ok(page)
}

/// Refuses what is no folder: every file of it would be taken for one that is not there.
pub fn must_be_folder(folder: &Path) -> Outcome<()> {
    if !folder.is_dir() {
        return Err(
            Problem::not_done("this is no folder: see whether the name is right").of(folder)
        );
    }
    Ok(())
}

pub fn same_bytes(one: &Path, other: &Path) -> Outcome<bool> {
    let open = |path: &Path| -> Outcome<(BufReader<File>, u64)> {
        let file = File::open(path).at(path)?;
        let length = file.metadata().at(path)?.len();
        Ok((BufReader::with_capacity(1 << 20, file), length))
    };
    let ((mut left, length), (mut right, other_length)) = (open(one)?, open(other)?);
    if length != other_length {
        return Ok(false);
    }
    let (mut ours, mut theirs) = (vec![0; 1 << 16], vec![0; 1 << 16]);
    loop {
        let read = left.read(&mut ours).at(one)?;
        if read == 0 {
            return Ok(true);
        }
        right.read_exact(&mut theirs[..read]).at(other)?;
        if ours[..read] != theirs[..read] {
            return Ok(false);
        }
    }
}

pub fn length(path: &Path) -> Outcome<u64> {
    Ok(fs::metadata(path).at(path)?.len())
}

/// How many bytes some files of a folder have together.
pub fn lengths<'p>(root: &Path, paths: impl IntoIterator<Item = &'p PathBuf>) -> Outcome<u64> {
    paths.into_iter().map(|path| length(&root.join(path))).sum()
}

/// Refuses a folder that has anything in it: a file that is not written again there would be taken for
/// today's.
pub fn must_be_empty(folder: &Path) -> Outcome<()> {
    match fs::symlink_metadata(folder) {
        Err(error) if error.kind() == ErrorKind::NotFound => return Ok(()),
        _ => must_be_folder(folder)?,
    }
    if fs::read_dir(folder).at(folder)?.next().is_some() {
        let problem = "the folder is not empty: give a new one, or one with nothing in it";
        return Err(Problem::not_done(problem).of(folder));
    }
    Ok(())
}

/// Refuses what is within a folder: what is made there would change that folder.
pub fn must_be_outside(path: &Path, folder: &Path) -> Outcome<()> {
    must_be_folder(folder)?;
    let folder = fs::canonicalize(folder).at(folder)?;
    let here =
        |part: &Path| if part.as_os_str().is_empty() { ".".into() } else { part.to_path_buf() };
    let mut parts = path.ancestors().map(here);
    let there = parts.find_map(|part| fs::canonicalize(part).ok());
    if there.map_or(false, |there| there.starts_with(&folder)) {
        let problem = format!("this is within {}: give one outside", spelled(&folder));
        return Err(Problem::not_done(problem).of(path));
    }
    Ok(())
}

/// Gives a file or folder the permissions of another; PostgreSQL starts only on a private folder.
pub fn permit_like(path: &Path, model: &Path) -> Outcome<()> {
    let permissions = fs::metadata(model).at(model)?.permissions();
    fs::set_permissions(path, permissions).at(path)
}

/// Makes the folder of a file, if need be.
pub fn make_parent(path: &Path) -> Outcome<()> {
    let parent = parent_of(path);
    fs::create_dir_all(parent).at(parent)
}

/// Makes a folder, and those above it if need be. Nobody else looks into it: it is to hold a database.
pub fn make_private(folder: &Path) -> Outcome<()> {
    make_parent(folder)?;
    fs::DirBuilder::new().mode(0o700).create(folder).at(folder)
}

/// The folder in which a file or folder is.
pub fn parent_of(path: &Path) -> &Path {
    match path.parent() {
        Some(parent) if parent.as_os_str().is_empty() => Path::new("."),
        Some(parent) => parent,
        None => path,
    }
}

/// Copies a file, its folder being made if need be. Gives its length.
pub fn copy(from: &Path, to: &Path) -> Outcome<u64> {
    make_parent(to)?;
    // The system's message is about either file.
    fs::copy(from, to).at(to).at(from)
}

/// Waits until a file or a folder is on disk, as far as the system tells.
pub fn sync(path: &Path) -> Outcome<()> {
    File::open(path).and_then(|file| file.sync_all()).at(path)
}

/// The same of a folder and all that is below it.
pub fn sync_tree(root: &Path) -> Outcome<()> {
    let listing = Listing::of(root)?;
    for path in listing.files.union(&listing.folders) {
        sync(&root.join(path))?;
    }
    sync(root)
}

pub struct Differences {
    pub files: usize,
    pub found: Vec<String>,
}

pub fn differences(one: &Path, other: &Path) -> Outcome<Differences> {
    let (left, right) = (Listing::of(one)?, Listing::of(other)?);
    let mut found = Vec::new();
    for path in left.files.union(&right.files) {
        let what = match (left.files.contains(path), right.files.contains(path)) {
            (true, false) => "only in the first",
            (false, true) => "only in the second",
            _ if same_bytes(&one.join(path), &other.join(path))? => continue,
            _ => "other bytes",
        };
        found.push(format!("{}: {what}", spelled(path)));
    }
    for path in left.folders.symmetric_difference(&right.folders) {
        found.push(format!("{}: a folder in only one", spelled(path)));
    }
    Ok(Differences { files: left.files.union(&right.files).count(), found })
}

#[cfg(test)]
mod tests {
    use super::*;

    fn found(path: &str) -> Option<(String, Option<String>)> {
        relation_file(Path::new(path)).map(|file| (file.first, file.fork))
    }

    #[test]
    fn relation_files_are_told_apart() {
        let main = |first: &str| Some((first.to_string(), None));
        let fork = |first: &str, fork: &str| Some((first.to_string(), Some(fork.to_string())));
        assert_eq!(found("base/16384/16385"), main("base/16384/16385"));
        assert_eq!(found("base/16384/16385.2"), main("base/16384/16385"));
        assert_eq!(found("base/16384/16385_vm"), fork("base/16384/16385", "vm"));
        assert_eq!(found("base/16384/16385_fsm.1"), fork("base/16384/16385", "fsm"));
        assert_eq!(found("global/1262"), main("global/1262"));
        for other in [
            "global/pg_control",
            "global/pg_filenode.map",
            "base/16384/PG_VERSION",
            "base/16384/pg_internal.init",
            "base/pgsql_tmp/16385",
            "base/16384/t3_16385",
            "base/16384/16385.",
            "base/16384/16385_old",
            "pg_xact/0000",
            "16385",
        ] {
            assert_eq!(found(other), None, "{other}");
        }
    }
}
