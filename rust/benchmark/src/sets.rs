//! Sets of real pages: the shipped ones, and those that `rust/page-sets` makes.

use std::collections::BTreeSet;
use std::fs;
use std::path::Path;

use faults::shipped;
use thonxiliko::PAGE_SIZE;

/// A page where a server would have it in memory.
#[derive(Clone, PartialEq, Eq)]
#[repr(C, align(4096))]
pub struct Page([u8; PAGE_SIZE]);

impl Page {
    pub fn zeros() -> Page {
        Page([0; PAGE_SIZE])
    }

    pub fn bytes(&self) -> &[u8] {
        &self.0
    }

    pub fn bytes_mut(&mut self) -> &mut [u8] {
        &mut self.0
    }
}

/// Pages before and after some work. Those with the same number are a pair.
pub struct Set {
    pub name: String,
    pub bases: Vec<Page>,
    pub pages: Vec<Page>,
}

impl Set {
    /// Of the shipped pages those that were there in the evening.
    pub fn shipped() -> Result<Set, String> {
        let folder = shipped::folder();
        let mut blocks = shipped::blocks(&folder).map_err(|error| about(&folder, error))?;
        blocks.retain(|block| !block.base.is_empty());
        let bases = blocks.iter().flat_map(|block| split(&block.base)).collect();
        let pages = blocks.iter().flat_map(|block| split(&block.page)).collect();
        Ok(Set { name: "shipped".to_string(), bases, pages })
    }

    /// The base and the page of a pair.
    pub fn pair(&self, at: usize) -> (&[u8], &[u8]) {
        (self.bases[at].bytes(), self.pages[at].bytes())
    }

    fn read(folder: &Path, name: &str) -> Result<Set, String> {
        let page_path = folder.join(format!("{name}.page"));
        let bases = read_pages(&folder.join(format!("{name}.base")))?;
        let pages = read_pages(&page_path)?;
        if bases.len() != pages.len() {
            let counts = format!("{} pages, but {} in the base", pages.len(), bases.len());
            return Err(about(&page_path, counts));
        }
        Ok(Set { name: name.to_string(), bases, pages })
    }
}

/// Every set of a folder, by name.
pub fn of_folder(folder: &Path) -> Result<Vec<Set>, String> {
    let names = names_in(folder)?;
    if names.is_empty() {
        return Err(about(folder, "no set of pages (NAME.base and NAME.page)"));
    }
    names.iter().map(|name| Set::read(folder, name)).collect()
}

/// The names of all files that are a half of a set.
fn names_in(folder: &Path) -> Result<BTreeSet<String>, String> {
    let mut names = BTreeSet::new();
    for entry in fs::read_dir(folder).map_err(|error| about(folder, error))? {
        let path = entry.map_err(|error| about(folder, error))?.path();
        let half = path.extension().map_or(false, |end| end == "base" || end == "page");
        if let (true, Some(name)) = (half, path.file_stem()) {
            names.insert(name.to_string_lossy().into_owned());
        }
    }
    Ok(names)
}

fn read_pages(path: &Path) -> Result<Vec<Page>, String> {
    let bytes = fs::read(path).map_err(|error| about(path, error))?;
    if bytes.is_empty() || bytes.len() % PAGE_SIZE != 0 {
        return Err(about(path, format!("{} bytes are no whole pages", bytes.len())));
    }
    Ok(split(&bytes))
}

fn split(bytes: &[u8]) -> Vec<Page> {
    let page = |chunk: &[u8]| Page(chunk.try_into().expect("a whole page"));
    bytes.chunks_exact(PAGE_SIZE).map(page).collect()
}

fn about(path: &Path, what: impl std::fmt::Display) -> String {
    format!("{}: {what}", path.display())
}

#[cfg(test)]
mod tests {
    use super::*;
    use std::path::PathBuf;

    /// A folder of its own for each test, removed at the end.
    struct Folder(PathBuf);

    impl Folder {
        fn new(name: &str) -> Folder {
            let path = std::env::temp_dir().join(format!("sets-{}-{name}", std::process::id()));
            fs::create_dir_all(&path).expect("a folder");
            Folder(path)
        }

        fn with(self, file: &str, bytes: &[u8]) -> Folder {
            fs::write(self.0.join(file), bytes).expect("a file");
            self
        }

        fn refused(&self) -> String {
            of_folder(&self.0).err().expect("refused")
        }
    }

    impl Drop for Folder {
        fn drop(&mut self) {
            let _ = fs::remove_dir_all(&self.0);
        }
    }

    const TWO: [u8; 2 * PAGE_SIZE] = [7; 2 * PAGE_SIZE];

    #[test]
    fn sets_are_read_by_name_and_page_by_page() {
        let mut changed = TWO;
        changed[PAGE_SIZE + 3] = 8;
        let folder = Folder::new("read").with("b.base", &TWO).with("b.page", &changed);
        let folder = folder.with("a.page", &TWO).with("a.base", &TWO).with("notes", b"no set");
        let sets = of_folder(&folder.0).expect("sets");
        assert_eq!(sets.iter().map(|set| &set.name[..]).collect::<Vec<_>>(), ["a", "b"]);
        assert!(sets[0].bases == sets[0].pages && sets[0].pages.len() == 2);
        assert!(sets[1].bases[0] == sets[1].pages[0]);
        assert_eq!(sets[1].pages[1].bytes(), &changed[PAGE_SIZE..]);
    }

    #[test]
    fn what_is_no_whole_page_is_refused_by_the_file_s_name() {
        let whole = Folder::new("short").with("day.base", &TWO);
        let refused = whole.with("day.page", &TWO[..PAGE_SIZE + 1]).refused();
        assert!(refused.contains("day.page") && refused.contains("8193"), "{refused}");
        let refused = Folder::new("none").with("day.base", &[]).with("day.page", &[]).refused();
        assert!(refused.contains("day.base"), "{refused}");
    }

    #[test]
    fn halves_that_do_not_fit_are_refused() {
        let fewer = Folder::new("fewer").with("day.base", &TWO);
        let refused = fewer.with("day.page", &TWO[..PAGE_SIZE]).refused();
        assert!(refused.contains("day.page"), "{refused}");
        for (half, other) in [("day.base", "day.page"), ("day.page", "day.base")] {
            let refused = Folder::new(half).with(half, &TWO).refused();
            assert!(refused.contains(other), "{refused}");
        }
        assert!(Folder::new("empty").refused().contains("no set"));
    }

    #[test]
    fn the_shipped_pages_are_a_set() {
        let set = Set::shipped().expect("the shipped pages");
        assert!(set.bases.len() == set.pages.len() && set.bases != set.pages);
    }
}
