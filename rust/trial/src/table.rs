//! The tables that are printed before storing and after it.

use std::collections::BTreeMap;

use crate::decided::Kinds;
use crate::folder::RelationFile;
use crate::names::Names;
use crate::segment::Counts;
use crate::store::{DecidedSegment, Stored, StoredSegment};

/// One line of the table.
#[derive(Default)]
struct Row {
    name: String,
    /// PostgreSQL's own, many files in one row.
    catalogs: bool,
    counts: Counts,
    files: u64,
    /// Blocks of the main fork, now and in the base.
    main: (u64, u64),
    forks: Vec<String>,
}

impl Row {
    fn add(&mut self, relation: &RelationFile, counts: &Counts) {
        self.counts.add(counts);
        self.files += 1;
        match &relation.fork {
            None => {
                self.main.0 += counts.blocks;
                self.main.1 += counts.base_blocks;
            }
            Some(fork) if counts.base_blocks == 0 => self.forks.push(format!("{fork} (new)")),
            Some(fork) => self.forks.push(fork.clone()),
        }
    }

    fn note(&self) -> String {
        if self.catalogs {
            return format!("{} files", self.files);
        }
        let mut notes = Vec::new();
        match self.main {
            (0, 0) => {}
            (_, 0) => notes.push("not in the base".to_string()),
            (now, base) if now > base => notes.push(format!("grew by {}", thousands(now - base))),
            (now, base) if now < base => notes.push(format!("shrank by {}", thousands(base - now))),
            _ => {}
        }
        if !self.forks.is_empty() {
            notes.push(format!("with {}", self.forks.join(", ")));
        }
        notes.join("; ")
    }
}

pub fn thousands(number: u64) -> String {
    let digits = number.to_string();
    let mut text = String::new();
    for (at, digit) in digits.chars().enumerate() {
        if at > 0 && (digits.len() - at) % 3 == 0 {
            text.push(',');
        }
        text.push(digit);
    }
    text
}

pub fn size(bytes: u64) -> String {
    match bytes {
        0..=10_239 => format!("{} B", thousands(bytes)),
        10_240..=1_048_575 => format!("{:.0} KiB", bytes as f64 / 1024.0),
        _ => format!("{:.1} MiB", bytes as f64 / 1_048_576.0),
    }
}

fn share(counts: &Counts) -> String {
    match counts.whole_pages() {
        0 => "-".to_string(),
        whole => format!("{:.0} %", 100.0 * counts.kept as f64 / whole as f64),
    }
}

fn print_row(name: &str, counts: &Counts, note: &str) {
    println!(
        "{name:<34} {:>8} {:>8} {:>8} {:>8} {:>10} {:>12} {:>6}  {note}",
        thousands(counts.blocks),
        thousands(counts.kinds.empty),
        thousands(counts.kinds.patch),
        thousands(counts.kinds.full),
        size(counts.kept),
        size(counts.whole_pages()),
        share(counts),
    );
}

/// One row for each relation with all its forks and segments; the catalogs share one, the last. Then
/// what all of them come to.
fn rows<'s>(
    segments: impl Iterator<Item = (&'s RelationFile, Counts)>,
    names: &Names,
) -> (Vec<Row>, Counts) {
    let mut by_name: BTreeMap<String, Row> = BTreeMap::new();
    let name = "PostgreSQL's own catalogs".to_string();
    let mut catalogs = Row { name, catalogs: true, ..Row::default() };
    let mut total = Counts::default();
    for (relation, counts) in segments {
        let name = names.of(&relation.first);
        let row = if name.system {
            &mut catalogs
        } else {
            let fresh = || Row { name: name.name.clone(), ..Row::default() };
            by_name.entry(relation.first.clone()).or_insert_with(fresh)
        };
        row.add(relation, &counts);
        total.add(&counts);
    }
    let mut rows: Vec<Row> = by_name.into_values().collect();
    rows.sort_by(|a, b| b.counts.blocks.cmp(&a.counts.blocks).then(a.name.cmp(&b.name)));
    if catalogs.files > 0 {
        rows.push(catalogs);
    }
    (rows, total)
}

fn print_taking(name: &str, kinds: &Kinds, note: &str) {
    println!(
        "{name:<34} {:>8} {:>8} {:>8} {:>12}  {note}",
        thousands(kinds.blocks()),
        thousands(kinds.empty),
        thousands(kinds.patch),
        thousands(kinds.full),
    );
}

fn print_taking_head(what: &str) {
    println!();
    println!("{:<43} {:-^30}", "", " would take ");
    println!("{what:<34} {:>8} {:>8} {:>8} {:>12}", "blocks", "nothing", "a patch", "a full page");
    println!("{}", "-".repeat(74));
}

/// What each changed relation would take in the evening, and what all of them would.
pub fn print_decided(decided: &[DecidedSegment], names: &Names) {
    let counts = |segment: &DecidedSegment| {
        let evening = segment.decided.evening;
        let (blocks, base_blocks) = (evening.kinds.blocks(), evening.base_blocks);
        Counts { blocks, base_blocks, kinds: evening.kinds, kept: 0 }
    };
    let (rows, total) =
        rows(decided.iter().map(|segment| (&segment.relation, counts(segment))), names);
    print_taking_head("changed relation");
    for row in &rows {
        print_taking(&row.name, &row.counts.kinds, &row.note());
    }
    println!("{}", "-".repeat(74));
    print_taking("all", &total.kinds, "");
    println!();
    println!("So Compare decides. Nothing is stored.");
}

/// What a day's pages would take, in short: to be told before they are stored.
pub fn print_would_take(decided: &[DecidedSegment]) {
    let (mut noon, mut evening) = (Kinds::default(), Kinds::default());
    for segment in decided {
        noon.add(&segment.decided.noon.kinds);
        evening.add(&segment.decided.evening.kinds);
    }
    print_taking_head("changed relations");
    if noon.blocks() > 0 {
        print_taking("at noon", &noon, "");
    }
    print_taking("in the evening", &evening, "");
    println!();
    println!("So Compare decides. Nothing is stored yet; now it is carried out.");
}

/// One line for each segment that was cut; nothing if none was.
fn print_cuts(stored: &Stored, names: &Names) {
    if stored.segments.iter().all(|segment| segment.day.cut.is_none()) {
        return;
    }
    println!();
    println!(
        "{:<34} {:>8} {:>8} {:>8} {:>8}",
        "cut short since noon", "cut at", "before", "after", "evening"
    );
    println!("{}", "-".repeat(70));
    for StoredSegment { relation, day, .. } in &stored.segments {
        if let Some(cut) = day.cut {
            let fork = relation.fork.as_ref().map_or(String::new(), |fork| format!(" ({fork})"));
            println!(
                "{:<34} {:>8} {:>8} {:>8} {:>8}",
                names.of(&relation.first).name + &fork,
                thousands(cut.at),
                thousands(cut.before),
                thousands(cut.after),
                thousands(day.highest),
            );
        }
    }
    println!();
    println!(
        "cut at: the blocks that the file has left. before, after, evening: one more than the"
    );
    println!(
        "highest block of which anything is kept, which is less than the file's length where its"
    );
    println!("last pages are as in the base.");
}

pub fn print(stored: &Stored, names: &Names) {
    let (rows, total) =
        rows(stored.segments.iter().map(|segment| (&segment.relation, segment.counts)), names);
    println!();
    println!(
        "{:<34} {:>8} {:>8} {:>8} {:>8} {:>10} {:>12} {:>6}",
        "changed relation", "blocks", "EMPTY", "PATCH", "full", "kept", "whole pages", "kept/w"
    );
    println!("{}", "-".repeat(101));
    for row in &rows {
        print_row(&row.name, &row.counts, &row.note());
    }
    println!("{}", "-".repeat(101));
    print_row("all", &total, "");
    println!();
    println!(
        "EMPTY: as in the base. PATCH: the bytes that differ, in a slot. full: the whole page."
    );
    println!(
        "kept: what the two area files take on disk. whole pages: 8,192 bytes for each changed"
    );
    println!(
        "block, the PATCH and the full ones. Every block was read back and compared, and took what"
    );
    println!("was decided before.");
    let days = || stored.segments.iter().map(|segment| segment.day);
    let writes = days().map(|day| day.writes).sum();
    let cuts = days().filter(|day| day.cut.is_some()).count();
    println!(
        "The map of each segment was lent to all {} writes and {} cuts and is the one that Build makes;",
        thousands(writes),
        cuts
    );
    println!(
        "blocks were read by it after each write, and from the files by a map built anew and by their slots."
    );
    println!(
        "Besides: {} files unchanged, {} gone since the base, {} that hold no relation's pages kept whole ({}).",
        thousands(stored.unchanged),
        thousands(stored.gone),
        thousands(stored.whole_files),
        size(stored.whole_bytes)
    );
    print_cuts(stored, names);
}

#[cfg(test)]
mod tests {
    use super::*;

    #[test]
    fn numbers_are_easy_to_read() {
        assert_eq!(thousands(0), "0");
        assert_eq!(thousands(999), "999");
        assert_eq!(thousands(1_000), "1,000");
        assert_eq!(thousands(1_234_567), "1,234,567");
        assert_eq!(size(8_192), "8,192 B");
        assert_eq!(size(20_480), "20 KiB");
        assert_eq!(size(104_857_600), "100.0 MiB");
    }
}
