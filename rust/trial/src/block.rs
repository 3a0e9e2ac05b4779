//! One block of a kept segment, written or read. Each of these is one process of `examples/run`.

use std::io::{self, Write};
use std::path::Path;

use mapped::end_now;
use thonxiliko::{compare, Kind, Refusal, Stores, PAGE_SIZE, PAYLOAD_SIZE};

use crate::areas::AreaFiles;
use crate::folder::{must_be_outside, page_of, page_there};
use crate::grow::give_place;
use crate::held::Held;
use crate::kept::{changed_base, Kept};
use crate::problem::{advice, At, Outcome, Problem, STOP_OR_LOSS};
use crate::spelled::spelled;

/// A block of a segment, and where its store and its base are.
#[derive(Clone, Copy)]
pub struct Block<'p> {
    pub base: &'p Path,
    pub kept: &'p Path,
    pub path: &'p Path,
    pub number: u64,
}

impl Block<'_> {
    /// The page in the base, which may have no such file or page by the manifest.
    fn base_page(&self, kept: &Kept) -> Outcome<Vec<u8>> {
        let file = self.base.join(self.path);
        let page = page_of(&file, self.number)?;
        if page.is_empty() && self.number < kept.base_pages(self.path) {
            return Err(changed_base(&file));
        }
        Ok(page)
    }

    /// A page of a file that must have it, unless it is the block's own in the base: zeros are that, too.
    fn page_from(&self, from: &Path, page: u64, base: &[u8]) -> Outcome<Vec<u8>> {
        if page != self.number || from != self.base.join(self.path) {
            return page_there(from, page);
        }
        let mut page = base.to_vec();
        page.resize(PAGE_SIZE, 0);
        Ok(page)
    }

    /// The base file and the areas are held against the manifest before anything is made of them.
    fn held(&self, kept: &Kept) -> Outcome<Held> {
        kept.segment(self.path)?;
        kept.check_base_file(self.base, self.path)?;
        let held = kept.held_as_listed(self.path)?;
        if self.number >= held.blocks() {
            let problem =
                format!("the store has {} blocks: {}", held.blocks(), advice(Refusal::Block));
            return Err(self.not_done(problem));
        }
        Ok(held)
    }

    fn not_done(&self, problem: String) -> Problem {
        Problem::not_done(problem).of_block(self.number).of(self.path)
    }

    /// Writes a page of a file. The segment is live before the first store. Told fewer stores than all,
    /// this process ends right after them, as it would if the machine tripped there.
    pub fn write(&self, from: &Path, page: u64, stores: Stores) -> Outcome<()> {
        let mut kept = Kept::to_write(self.kept)?;
        let held = self.held(&kept)?;
        let base = self.base_page(&kept)?;
        let page = self.page_from(from, page, &base)?;
        let mut payload = [0; PAYLOAD_SIZE];
        let decision = compare(&base, &page, &mut payload)
            .map_err(|refusal| Problem::from(refusal).of(from))?;
        let (holds, takes) = (held.kind(self.number).at(self.path)?, decision.kind());
        let no_place = held.place(self.number).is_none();
        drop(held);
        kept.mark_live(self.path)?;
        let paths = kept.area_paths(self.path);
        if takes == Kind::Full && no_place {
            // Carried out as it is, it would be refused with 8.
            give_place(&paths.1, self.number)?;
        }
        let mut files = AreaFiles::open(&paths)?;
        let what = format!("{self}: held {}, takes {}", in_words(holds), in_words(takes));
        if stores == Stores::All {
            files.write_safely(self.number, &decision).at(self.path)?;
            println!("{what}; written; the segment is live until `trial close`");
            return Ok(());
        }
        files.carry_out(self.number, &decision, stores).at(self.path)?;
        println!(
            "{what}; stopped after {} of its stores, and the process with it",
            stores.number()
        );
        // Said or not, it ends here.
        let _ = io::stdout().flush();
        end_now()
    }

    /// Reads the block by its slot into a file.
    pub fn read(&self, to: &Path) -> Outcome<()> {
        let kept = Kept::to_read(self.kept)?;
        let held = self.held(&kept)?;
        must_be_outside(to, self.base)?;
        must_be_outside(to, self.kept)?;
        let mut page = vec![0; PAGE_SIZE];
        let kind = held.read(self.number, &self.base_page(&kept)?, &mut page).at(self.path)?;
        std::fs::write(to, page).at(to)?;
        let live = if kept.segment(self.path)?.is_live() { "; the segment is live" } else { "" };
        println!("{self}: holds {} and was read{live}", in_words(kind));
        if held.is_stray(self.number, kind) {
            // What was read is right after a stop, and the page of before after a loss.
            eprintln!("trial: {self}: no slot refers to the page in its place: {STOP_OR_LOSS}");
        }
        Ok(())
    }
}

impl std::fmt::Display for Block<'_> {
    fn fmt(&self, f: &mut std::fmt::Formatter<'_>) -> std::fmt::Result {
        write!(f, "{}, block {}", spelled(self.path), self.number)
    }
}

fn in_words(kind: Kind) -> &'static str {
    match kind {
        Kind::Empty => "nothing",
        Kind::Patch => "a patch",
        Kind::Full => "a full page",
    }
}
