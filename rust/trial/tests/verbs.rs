//! The verbs, as a shop runs them: what they end with, and what they leave.

mod common;

use std::ffi::OsString;
use std::fs::{self, File};
use std::os::unix::ffi::OsStringExt;
use std::os::unix::fs::PermissionsExt;

use common::{pages, place_of, slot, trial, Place};

const PATCH: &str = "kept/pages/base/1/11.patch";
const FULL: &str = "kept/pages/base/1/11.full";
const BOTH_READINGS: [&str; 3] = [
    "a write was stopped",
    "--stopped 1",
    "a FULL_REF slot was lost: then this place holds the only",
];

#[test]
fn a_store_comes_back() {
    let place = Place::stored("back");
    place.run("check base kept").must(0, &["7 files of the base, 4 segments and 1 files"]);
    place.run("rebuild base kept again").must(0, &["rebuilt 4 segments over their base, copied 2"]);
    // Nobody else looks into it.
    let mode = fs::metadata(place.at("kept")).expect("a folder").permissions().mode();
    assert_eq!(mode & 0o777, 0o700);
    place.run("compare new again").must(0, &["7 files compared, 0 differ"]);
    place.must_have_nothing_half_made();
    fs::create_dir(place.at("empty")).expect("a folder");
    place.run("rebuild base kept empty").must(0, &[]);
    place.run("compare new empty").must(0, &[]);
    place.put("empty/more", b"");
    place.run("compare new empty").must(1, &["more: only in the second", "1 differ"]);
}

/// Names are bytes.
#[test]
fn odd_names_survive() {
    let place = Place::with_folders("odd");
    let odd: [&[u8]; 5] = [b"not\xFFtext", b"new\nline", b"a space", b"100%41", b"tab\tand \\"];
    for name in odd {
        let name = OsString::from_vec(name.to_vec());
        for (folder, below, text) in [
            ("base", "same", "a"),
            ("new", "same", "a"),
            ("base", "gone", "b"),
            ("new", "whole", "c"),
        ] {
            let folder = place.at(folder).join(below).join(&name);
            fs::create_dir_all(&folder).expect("a folder");
            fs::write(folder.join(&name), text).expect("a file");
        }
    }
    place.store("kept").must(0, &[]);
    place.run("check base kept").must(0, &[]);
    place.run("rebuild base kept again").must(0, &[]);
    place.run("compare new again").must(0, &["17 files compared, 0 differ"]);
    let lost = OsString::from_vec(b"new\nline".to_vec());
    fs::remove_file(place.at("kept/whole/whole").join(&lost).join(&lost)).expect("a file");
    place.run("check base kept").must(1, &["whole/whole/new%0Aline/new%0Aline: ", "found: 1"]);
}

/// A word that is no text is a path like any other.
#[test]
fn words_need_be_no_text() {
    let place = Place::stored("words");
    let odd = place.0.join(OsString::from_vec(b"odd\xFF".to_vec()));
    let [base, kept] = ["base", "kept"].map(|name| place.at(name).into_os_string());
    let words = ["rebuild".into(), base, kept.clone(), odd.clone().into_os_string()];
    trial(&words).must(0, &[]);
    assert!(odd.join("PG_VERSION").exists());
    let file = OsString::from_vec(b"base/1/\xFF".to_vec());
    trial(&["info".into(), kept, file]).must(2, &["base/1/%FF: no segment of this file is kept"]);
    trial(&[OsString::from_vec(b"\xFF".to_vec())]).must(2, &["%FF is no verb"]);
}

#[test]
fn the_command_line_is_strict() {
    trial::<&str>(&[]).must(2, &["no verb is given"]);
    trial(&["--help"]).must(0, &["decide ", "store ", "rebuild ", "check ", "info ", "close "]);
    for verb in ["sweep", "compare", "blocks", "write", "read", "store"] {
        trial(&[verb, "--help"]).must(0, &[&format!("usage: trial {verb} ")]);
        trial(&[verb]).must(2, &[&format!("usage: trial {verb} ")]);
        trial(&[verb, "--live"]).must(2, &["has no option --live"]);
    }
    trial(&["read", "a", "b", "c", "first", "d"]).must(2, &["BLOCK wants a number and got first"]);
    trial(&["rebuild", "none", "none", "to"]).must(2, &["none: this is no folder"]);
    trial(&["compare", "none", "none"]).must(2, &["none: this is no folder"]);
}

#[test]
fn used_folders_are_refused() {
    let place = Place::stored("used");
    let before = place.files("kept");
    place.store("kept").must(2, &["kept: the folder is not empty: give a new one"]);
    assert!(place.files("kept") == before);
    place.put("again/base/1/11", b"mine");
    place
        .run("rebuild base kept again")
        .must(2, &["again: the folder is not empty: give a new one"]);
    assert_eq!(place.bytes("again/base/1/11"), b"mine");
    assert_eq!(place.files("again").len(), 1);
    place.must_have_nothing_half_made();
    place.run("rebuild base kept new/PG_VERSION").must(2, &["new/PG_VERSION: this is no folder"]);
    place.store("new/PG_VERSION").must(2, &["new/PG_VERSION: this is no folder"]);
    fs::create_dir(place.at("elsewhere")).expect("a folder");
    std::os::unix::fs::symlink(place.at("elsewhere"), place.at("link")).expect("a link");
    place.run("rebuild base kept link").must(2, &["link: this is a link: give the folder itself"]);
    assert!(place.files("elsewhere").is_empty());
}

/// From a write to the close the store has no checksums, so it is not rebuilt.
#[test]
fn a_live_store_is_not_rebuilt() {
    let place = Place::stored("live");
    place.write(1, "new/base/1/14", 0, "").must(0, &["held a patch, takes a full page; written"]);
    place
        .run("rebuild base kept again")
        .must(2, &["base/1/11: this segment is live", "trial close"]);
    place.must_have_no("again");
    place.run("check base kept").must(0, &["base/1/11: live", "1 of the segments are live"]);
    place.run("info kept").must(0, &["state live"]);
    place.run("close kept").must(0, &["base/1/11: closed", "1 segments closed"]);
    place.run("close kept").must(0, &["0 segments closed"]);
    place.run("check base kept").must(0, &[]);
    place.run("rebuild base kept again").must(0, &[]);
    let page = |bytes: Vec<u8>, at: usize| bytes[at * 8192..(at + 1) * 8192].to_vec();
    let again = place.bytes("again/base/1/11");
    assert!(page(again.clone(), 1) == page(place.bytes("new/base/1/14"), 0));
    assert!(page(again, 3) == page(place.bytes("new/base/1/11"), 3));
    place.run("compare new again").must(1, &["base/1/11: other bytes", "1 differ"]);
}

/// Killed before its first store, a write has marked the segment. One that is refused has not.
#[test]
fn a_segment_is_live_before_the_first_store() {
    let place = Place::stored("first");
    let before = place.files("kept");
    place.write(1, "new/base/1/14", 9, "").must(2, &["new/base/1/14: ", "has no page 9"]);
    place.write(4, "new/base/1/14", 0, "").must(2, &["base/1/11: block 4: the store has 4 blocks"]);
    assert!(place.files("kept") == before);
    place.write(1, "new/base/1/14", 0, " --stores =0").must(137, &[]);
    place.run("check base kept").must(0, &["base/1/11: live"]);
    place.run("rebuild base kept again").must(2, &["base/1/11: this segment is live"]);
    place.run("sweep kept =base/1/11 --stopped =1").must(0, &["pages removed: 0"]);
    place.run("close kept").must(0, &[]);
    assert!(place.files("kept") == before);
}

/// The live segment alone goes without checksums, and must have its n.
#[test]
fn a_live_store_is_checked_too() {
    let place = Place::stored("live-check");
    place.write(1, "new/base/1/14", 0, "").must(0, &[]);
    let sound = place.bytes(PATCH);
    place.change(PATCH, |bytes| bytes.truncate(slot(3).start));
    place.run("check base kept").must(1, &["11.patch: the area file has 2048 bytes"]);
    place
        .run("close kept")
        .must(1, &["11.patch: the area file has 2048 bytes", "nothing was closed"]);
    place.put(PATCH, &sound);
    place.change(PATCH, |bytes| bytes[slot(1)][1] = 1);
    place.run("check base kept").must(1, &["base/1/11: refused 6", "(block 1)", "restore both"]);
    place.put(PATCH, &sound);
    place.change("kept/pages/base/1/17.patch", |bytes| bytes[slot(1)][9] ^= 1);
    place.run("check base kept").must(1, &["17.patch: the SHA-256 is not", "faults found: 1"]);
}

/// A trip: sweep, check, close.
#[test]
fn a_stopped_write_is_cleared_up() {
    let place = Place::stored("trip");
    place
        .write(1, "new/base/1/14", 0, " --stores =1")
        .must(137, &["stopped after 1 of its stores"]);
    let tripped = place.files("kept");
    place.run("rebuild base kept again").must(2, &["base/1/11: this segment is live"]);
    place.run("check base kept").must(1, &["base/1/11: refused 10", "(block 1)"]);
    place.run("check base kept").must(1, &BOTH_READINGS);
    place.run("read base kept =base/1/11 =1 to").must(0, &BOTH_READINGS);
    place.run("close kept").must(1, &BOTH_READINGS);
    place.run("info kept").must(1, &["base/1/11: refused 10"]);
    place.run("sweep kept =base/1/11").must(2, &["base/1/11, block 1: its page would be removed"]);
    place.run("sweep kept =base/1/11").must(2, &BOTH_READINGS);
    place.run("sweep kept =base/1/11 --stopped =0").must(1, &["block 1", "nothing was swept"]);
    assert!(place.files("kept") == tripped);
    place
        .run("sweep kept =base/1/11 --stopped =1")
        .must(0, &["base/1/11, block 1: ", "removed: 1"]);
    place.run("check base kept").must(0, &[]);
    place.run("close kept").must(0, &[]);
    place.run("rebuild base kept again").must(0, &[]);
    place.run("compare new again").must(0, &[]);
}

/// Two stray pages, and one stopped write: one of them has lost its slot.
#[test]
fn more_stray_pages_than_stops_are_not_swept() {
    let place = Place::stored("more");
    place.write(1, "new/base/1/14", 0, " --stores =1").must(137, &[]);
    place.change(PATCH, |bytes| bytes[slot(3)].fill(0));
    let before = place.files("kept");
    let ran = place.run("sweep kept =base/1/11 --stopped =1");
    ran.must(1, &["block 1: its page would", "block 3: its page would", "a slot may be lost"]);
    assert!(place.files("kept") == before);
}

/// No write was under way in a closed segment: a page without a slot has lost it.
#[test]
fn a_closed_segment_is_not_swept() {
    let place = Place::stored("closed");
    let before = place.files("kept");
    place.run("sweep kept =base/1/11 --stopped =1").must(0, &["nothing to sweep"]);
    place.run("sweep kept =base/1/11").must(0, &["nothing to sweep"]);
    assert!(place.files("kept") == before);
    place.change(PATCH, |bytes| bytes[slot(3)].fill(0));
    let before = place.files("kept");
    for line in ["sweep kept =base/1/11 --stopped =1", "sweep kept =base/1/11"] {
        place
            .run(line)
            .must(1, &["11.patch: ", "restore both area files from a copy; do not sweep"]);
        assert!(place.files("kept") == before);
    }
}

/// What a write or a read is laid over must be what it was.
#[test]
fn a_block_of_a_damaged_store_is_neither_written_nor_read() {
    type Damage = (fn(&Place), &'static str);
    let damages: [Damage; 5] = [
        (|place| place.change("base/base/1/11", |bytes| bytes[9000] ^= 1), "11: the base file has"),
        (|place| place.change("base/base/1/11", |bytes| bytes.truncate(8192)), "11: the base file"),
        (|place| place.remove("base/base/1/11"), "base/base/1/11: the base file is not there"),
        (|place| place.change(PATCH, |bytes| bytes[slot(1)][9] ^= 1), "11.patch: the SHA-256"),
        (|place| place.change(FULL, |bytes| bytes[place_of(3)].fill(0)), "11.full: the SHA-256"),
    ];
    for (at, (damage, wanted)) in damages.into_iter().enumerate() {
        let place = Place::stored(&format!("damaged-{at}"));
        damage(&place);
        let before = place.files("kept");
        place.write(0, "new/base/1/14", 0, "").must(1, &[wanted]);
        place.run("read base kept =base/1/11 =1 to").must(1, &[wanted]);
        assert!(place.files("kept") == before && !place.at("to").exists());
    }
    let place = Place::stored("damaged-new");
    place.put("base/base/1/14", &pages(2, &[]));
    place.run("read base kept =base/1/14 =1 to").must(1, &["14: the base had no such file"]);
}

#[test]
fn a_block_is_read() {
    let place = Place::stored("read");
    for (block, kind) in [(0, "nothing"), (1, "a patch"), (3, "a full page")] {
        let line = format!("read base kept =base/1/11 ={block} to");
        place.run(&line).must(0, &[&format!("block {block}: holds {kind} and was read")]);
        let wanted = place.bytes("new/base/1/11")[block * 8192..(block + 1) * 8192].to_vec();
        assert!(place.bytes("to") == wanted);
    }
    // The same file, spelled in another way.
    place.run("read base kept =base//1/11/ =1 to").must(0, &["a patch"]);
    place.run("read base kept =base/1/10 =0 to").must(2, &["base/1/10: no segment of this file"]);
    place.run("write base kept =base/1/10 =0 new/base/1/14 =0").must(2, &["base/1/10: no segment"]);
    place.run("sweep kept =base/1/10").must(2, &["base/1/10: no segment of this file is kept"]);
    place.run("read base kept =base/1/11 =4 to").must(2, &["base/1/11: block 4: the store has 4"]);
}

#[test]
fn a_store_tells_what_it_holds() {
    let place = Place::stored("info");
    let ran = place.run("info kept");
    ran.must(
        0,
        &["state closed", "base files 7 ", "whole files 1 (100 B)", "gone 1", "segments 4"],
    );
    let row = ran.said.lines().find(|line| line.starts_with("base/1/11 ")).expect("its line");
    let fields: Vec<&str> = row.split_whitespace().collect();
    assert_eq!(fields[1..6], ["4", "4", "1", "1", "2"]);
    assert_eq!(fields.last(), Some(&"closed"));
    let ran = place.run("info kept =base/1/12");
    ran.must(0, &["base/1/12: closed", "n: 3 blocks", "m: - places", "PATCH: 1 blocks"]);
    let ran = place.run("blocks kept");
    ran.must(
        0,
        &["base/1/11 0 EMPTY place\n", "base/1/11 1 PATCH place\n", "base/1/12 0 PATCH -\n"],
    );
    place.change(PATCH, |bytes| bytes[slot(3)].fill(0));
    place.run("info kept").must(1, &["base/1/11: refused 10", "do not sweep"]);
    place.run("info kept =base/1/11").must(1, &["base/1/11: refused 10"]);
    place.run("blocks kept").must(1, &["11.patch: the SHA-256 is not the manifest's"]);
}

/// Readers go beside each other, and a writer alone.
#[test]
fn a_folder_in_use_is_refused() {
    let place = Place::stored("lock");
    let lock = mapped::Lock::shared(&place.at("kept")).expect("a lock");
    place.run("check base kept").must(0, &[]);
    let refused = ["kept: another program is at work on this folder: wait until it is done"];
    place.write(1, "new/base/1/14", 0, "").must(2, &refused);
    for line in ["close kept", "sweep kept =base/1/11 --stopped =1"] {
        place.run(line).must(2, &refused);
    }
    drop(lock);
    let lock = mapped::Lock::alone(&place.at("kept")).expect("a lock");
    for line in ["check base kept", "rebuild base kept again", "info kept", "blocks kept"] {
        place.run(line).must(2, &refused);
    }
    place.run("read base kept =base/1/11 =1 to").must(2, &refused);
    drop(lock);
    fs::create_dir(place.at("other")).expect("a folder");
    let lock = mapped::Lock::alone(&place.at("other")).expect("a lock");
    place.store("other").must(2, &["other: another program is at work on this folder"]);
    drop(lock);
    place.store("other").must(0, &[]);
}

/// What a stopped save of the manifest leaves is in nobody's way.
#[test]
fn a_manifest_that_was_being_written_is_cleared_up() {
    let place = Place::stored("half");
    File::create(place.at("kept/manifest.new")).expect("a file");
    place.run("check base kept").must(1, &["manifest.new: left where writing the manifest"]);
    place.run("close kept").must(0, &[]);
    place.run("check base kept").must(0, &[]);
}

/// A full page on a block that has no place for it: the full area is made, or becomes longer. What is
/// there then is what would have been stored.
#[test]
fn a_full_area_grows() {
    let place = Place::with_folders("grow");
    place.put("base/base/1/18", &pages(4, &[]));
    place.put("new/base/1/18", &pages(4, &[(0, 300), (3, 9)]));
    place.store("kept").must(0, &[]);
    place.put("new/base/1/18", &pages(4, &[(0, 300), (2, 300), (3, 9)]));
    place.put("new/base/1/12", &pages(3, &[(0, 5), (1, 300)]));
    place.store("wanted").must(0, &[]);
    for (file, block) in [("18", 2), ("12", 1)] {
        let line = format!("write base kept =base/1/{file} ={block} new/base/1/{file} ={block}");
        place.run(&line).must(0, &["held nothing, takes a full page; written"]);
        place.run("check base kept").must(0, &["live"]);
    }
    // What a stop leaves of an area that was being made is in nobody's way.
    place.put("kept/pages/base/1/12.full.new", b"");
    place.run("close kept").must(0, &["2 segments closed"]);
    place.run("check base kept").must(0, &[]);
    place.run("compare kept wanted").must(0, &["0 differ"]);
    place.run("rebuild base kept again").must(0, &[]);
    place.run("compare new again").must(0, &[]);
}

/// Nothing is made within a folder that must stay as it is.
#[test]
fn folders_within_others_are_refused() {
    let place = Place::stored("within");
    let before = [place.files("base"), place.files("new"), place.files("kept")];
    for kept in ["base/kept", "new/kept", "new/base/more/kept"] {
        place.store(kept).must(2, &["/kept: this is within "]);
    }
    for folder in ["base/again", "kept/again", "kept/pages/again"] {
        place.run(&format!("rebuild base kept {folder}")).must(2, &["/again: this is within "]);
    }
    for to in ["base/base/1/11", "kept/to"] {
        let line = format!("read base kept =base/1/11 =1 {to}");
        place.run(&line).must(2, &[&format!("{to}: this is within ")]);
    }
    assert!([place.files("base"), place.files("new"), place.files("kept")] == before);
}
