//! Reads a manifest, strictly: what it does not know, it refuses.

use std::collections::btree_map::{BTreeMap, Entry};
use std::path::PathBuf;

use thonxiliko::MAX_BLOCKS;

use super::{AreaSums, Manifest, Segment, FIRST_LINE};
use crate::problem::{Outcome, Problem};
use crate::sha256::Digest;
use crate::spelled::unspelled;
use crate::sums::FileSum;

fn damaged(what: &str) -> Problem {
    Problem::fault(format!("the manifest is damaged ({what}): restore it from a copy"))
}

pub fn manifest(bytes: &[u8]) -> Outcome<Manifest> {
    let text = known_version(bytes)?;
    let (records, end) = split_end(text).ok_or_else(|| damaged("it has no last line"))?;
    if Digest::from_hex(end) != Some(Digest::of(records.as_bytes())) {
        return Err(damaged("its own SHA-256 does not fit"));
    }
    let mut lines = records.split_terminator('\n');
    let live = match (lines.next(), lines.next()) {
        (Some(FIRST_LINE), Some("state closed")) => false,
        (Some(FIRST_LINE), Some("state live")) => true,
        _ => return Err(damaged("line 2 is no state")),
    };
    let mut manifest = Manifest::default();
    for (number, line) in (3..).zip(lines) {
        record(&mut manifest, line)
            .ok_or_else(|| damaged(&format!("line {number} is no record, or is there twice")))?;
    }
    if manifest.is_live() != live {
        return Err(damaged("its state is not that of its segments"));
    }
    fits(&manifest)?;
    Ok(manifest)
}

/// The text, if its first line is the known one. Another version is no damage.
fn known_version(bytes: &[u8]) -> Outcome<&str> {
    let first = bytes.split(|byte| *byte == b'\n').next().unwrap_or(&[]);
    match std::str::from_utf8(bytes) {
        Ok(text) if first == FIRST_LINE.as_bytes() => Ok(text),
        _ if first.starts_with(b"thonxiliko-trial ") && first != FIRST_LINE.as_bytes() => {
            let problem = "the manifest is of another version: use the program that made it";
            Err(Problem::not_done(problem))
        }
        _ => Err(damaged("it is no text that begins as it should")),
    }
}

/// What stands before the last line, and the sum in that line.
fn split_end(text: &str) -> Option<(&str, &str)> {
    let text = text.strip_suffix('\n')?;
    let at = text.rfind('\n')? + 1;
    Some((&text[..at], text[at..].strip_prefix("end ")?))
}

/// Takes one record in; none if it is not sound.
fn record(manifest: &mut Manifest, line: &str) -> Option<()> {
    let fields: Vec<&str> = line.split(' ').collect();
    match fields[..] {
        ["base", length, sum, path] => put(&mut manifest.base, path, file_sum(length, sum)?),
        ["whole", length, sum, path] => put(&mut manifest.whole, path, file_sum(length, sum)?),
        ["segment", blocks, places, patch, full, path] => {
            put(&mut manifest.segments, path, segment(blocks, places, patch, full)?)
        }
        ["gone", path] => manifest.gone.insert(unspelled(path)?).then_some(()),
        ["folder", path] => manifest.folders.insert(unspelled(path)?).then_some(()),
        _ => None,
    }
}

/// No path is there twice.
fn put<T>(group: &mut BTreeMap<PathBuf, T>, path: &str, value: T) -> Option<()> {
    match group.entry(unspelled(path)?) {
        Entry::Vacant(place) => {
            place.insert(value);
            Some(())
        }
        Entry::Occupied(_) => None,
    }
}

fn file_sum(length: &str, sum: &str) -> Option<FileSum> {
    Some(FileSum { length: number(length)?, digest: Digest::from_hex(sum)? })
}

fn segment(blocks: &str, places: &str, patch: &str, full: &str) -> Option<Segment> {
    let blocks = number(blocks)?;
    let places = if places == "-" { None } else { Some(number(places)?) };
    let sums = match (patch, full) {
        ("live", "live") => None,
        (patch, "-") => Some(AreaSums { patch: Digest::from_hex(patch)?, full: None }),
        (patch, full) => {
            Some(AreaSums { patch: Digest::from_hex(patch)?, full: Some(Digest::from_hex(full)?) })
        }
    };
    let full_fits = sums.map_or(true, |sums| sums.full.is_some() == places.is_some());
    let sound = blocks <= MAX_BLOCKS && places.unwrap_or(0) <= blocks && full_fits;
    sound.then_some(Segment { blocks, places, sums })
}

/// Digits alone, and no zero before them.
fn number(text: &str) -> Option<u64> {
    let number: u64 = text.parse().ok()?;
    (number.to_string() == text).then_some(number)
}

/// A file comes from one place, and only what the base has can be gone.
fn fits(manifest: &Manifest) -> Outcome<()> {
    let Manifest { base, segments, whole, gone, .. } = manifest;
    let twice = |path: &&PathBuf| whole.contains_key(*path) || gone.contains(*path);
    if segments.keys().any(|path| twice(&path)) || gone.iter().any(|path| whole.contains_key(path))
    {
        return Err(damaged("a file is there in two ways"));
    }
    if gone.iter().any(|path| !base.contains_key(path)) {
        return Err(damaged("a file is gone that the base does not have"));
    }
    Ok(())
}

#[cfg(test)]
mod tests {
    use super::*;

    /// One record of every sort, odd names among them.
    fn sample() -> Manifest {
        let sum = FileSum { length: 5, digest: Digest::of(b"a") };
        let digest = Digest::of(b"b");
        let mut manifest = Manifest::default();
        manifest.base.insert("base/1/11".into(), sum);
        manifest.base.insert("odd name".into(), sum);
        let closed = AreaSums { patch: digest, full: Some(digest) };
        let segment = Segment { blocks: 4, places: Some(2), sums: Some(closed) };
        manifest.segments.insert("base/1/11".into(), segment);
        let sums = Some(AreaSums { full: None, ..closed });
        manifest.segments.insert("base/1/12".into(), Segment { places: None, sums, ..segment });
        manifest.whole.insert("new\n%line".into(), sum);
        manifest.gone.insert("odd name".into());
        manifest.folders.insert("base".into());
        manifest
    }

    fn problem(text: &str) -> String {
        manifest(text.as_bytes()).expect_err("refused").to_string()
    }

    /// The records of a text, with the last line that belongs to them.
    fn ended(records: &str) -> String {
        format!("{records}end {}\n", Digest::of(records.as_bytes()))
    }

    #[test]
    fn a_manifest_comes_back() {
        let mut wanted = sample();
        assert_eq!(manifest(wanted.text().as_bytes()).expect("sound"), wanted);
        wanted.segments.get_mut(&PathBuf::from("base/1/11")).expect("a segment").sums = None;
        assert!(wanted.text().contains("\nstate live\n"));
        assert!(wanted.text().contains("\nsegment 4 2 live live base/1/11\n"));
        assert!(wanted.text().contains("new%0A%25line\n"));
        assert_eq!(manifest(wanted.text().as_bytes()).expect("sound"), wanted);
    }

    /// Cut anywhere, or with any one byte changed.
    #[test]
    fn any_damage_is_noticed() {
        let text = sample().text();
        for length in 0..text.len() {
            assert!(manifest(&text.as_bytes()[..length]).is_err(), "{length} bytes");
        }
        for at in 0..text.len() {
            let mut bytes = text.clone().into_bytes();
            bytes[at] ^= 1;
            assert!(manifest(&bytes).is_err(), "byte {at}");
        }
    }

    /// Wrong records, though the last line fits.
    #[test]
    fn wrong_records_are_refused() {
        let text = sample().text();
        let records = &text[..text.rfind("end ").expect("a last line")];
        assert_eq!(ended(records), text);
        let sum = Digest::of(b"a");
        for wrong in [
            "what base/1/13".to_string(),
            String::new(),
            "gone".to_string(),
            "gone base/1/11 more".to_string(),
            "folder  base/2".to_string(),
            "folder base".to_string(),
            "folder /base".to_string(),
            "folder ../base".to_string(),
            "folder base/2\r".to_string(),
            format!("base 5 {sum} base/1/11"),
            format!("base 05 {sum} base/1/13"),
            format!("base +5 {sum} base/1/13"),
            format!("base 5 {} base/1/13", &sum.to_string()[1..]),
            format!("whole 5 {sum} ../../etc/passwd"),
            format!("segment 4 2 {sum} {sum} base/1/12"),
            format!("segment 4 2 {sum} - base/1/13"),
            format!("segment 4 - {sum} {sum} base/1/13"),
            format!("segment 4 5 {sum} {sum} base/1/13"),
            format!("segment 4 2 {sum} live base/1/13"),
            format!("segment 131073 - {sum} - base/1/13"),
        ] {
            let found = problem(&ended(&format!("{records}{wrong}\n")));
            assert!(found.contains("is no record, or is there twice"), "{wrong}: {found}");
        }
    }

    #[test]
    fn a_manifest_fits_itself() {
        let text = sample().text();
        let records = &text[..text.rfind("end ").expect("a last line")];
        let sum = Digest::of(b"a");
        for (more, wanted) in [
            ("segment 4 2 live live base/1/13\n".to_string(), "its state"),
            (format!("whole 5 {sum} base/1/11\n"), "in two ways"),
            ("gone base/1/11\n".to_string(), "in two ways"),
            ("gone base/1/14\n".to_string(), "that the base does not have"),
        ] {
            let found = problem(&ended(&format!("{records}{more}")));
            assert!(found.contains(wanted), "{more}: {found}");
        }
        let live = records.replace("state closed", "state live");
        assert!(problem(&ended(&live)).contains("its state"));
        assert!(problem(&format!("{text}\n")).contains("no last line"));
        assert!(problem(&format!("{text}{}", text)).contains("its own SHA-256"));
    }

    #[test]
    fn another_version_is_no_damage() {
        let text = sample().text().replacen("trial 1", "trial 2", 1);
        let found = manifest(text.as_bytes()).expect_err("refused");
        assert!(found.to_string().contains("another version") && found.status() == 2, "{found}");
    }
}
