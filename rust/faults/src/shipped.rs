//! The real pages that are shipped with the repository.

use std::fs;
use std::io;
use std::path::{Path, PathBuf};

use thonxiliko::PAGE_SIZE;

/// One block of a relation: its page in the evening and its page a day later.
#[derive(Clone)]
pub struct Block {
    /// Its number in its own file, which PostgreSQL's checksum depends on.
    pub number: u32,
    /// Without bytes where the file was shorter in the evening.
    pub base: Vec<u8>,
    pub page: Vec<u8>,
}

/// The folder of the pages, as it lies in the repository.
pub fn folder() -> PathBuf {
    Path::new(env!("CARGO_MANIFEST_DIR")).join("../../examples/pages")
}

/// Every block of every changed file, the files in the order of their names.
pub fn blocks(folder: &Path) -> io::Result<Vec<Block>> {
    let mut blocks = Vec::new();
    for path in files_below(&folder.join("changed"), Path::new(""))? {
        let changed = fs::read(folder.join("changed").join(&path))?;
        let base = folder.join("base").join(&path);
        let base = if base.exists() { fs::read(base)? } else { Vec::new() };
        for (number, page) in changed.chunks_exact(PAGE_SIZE).enumerate() {
            let base = base.chunks_exact(PAGE_SIZE).nth(number).unwrap_or(&[]).to_vec();
            blocks.push(Block { number: number as u32, base, page: page.to_vec() });
        }
    }
    Ok(blocks)
}

fn files_below(root: &Path, below: &Path) -> io::Result<Vec<PathBuf>> {
    let mut files = Vec::new();
    for entry in fs::read_dir(root.join(below))? {
        let entry = entry?;
        let path = below.join(entry.file_name());
        if entry.file_type()?.is_dir() {
            files.extend(files_below(root, &path)?);
        } else {
            files.push(path);
        }
    }
    // A folder is listed in no order of its own.
    files.sort();
    Ok(files)
}
