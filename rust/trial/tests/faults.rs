//! One damage at a time, done to a sound store: the program names it and gives no page.

mod common;

use std::fs;

use common::{pages, place_of, slot, Place};
use thonxiliko::PAGE_SIZE;

const PATCH: &str = "kept/pages/base/1/11.patch";
const FULL: &str = "kept/pages/base/1/11.full";
const BASE: &str = "base/base/1/11";

const NOT_AS_CLOSED: &str = "the area is not the one that was closed, a slot may be lost: restore";

/// A test for each: a damage, the status that `check` and `rebuild` must end with, and what both must say.
macro_rules! faults {
    ($($name:ident { $damage:expr, $status:expr, $wanted:expr })*) => {
        $(
            #[test]
            fn $name() {
                must_be_found(stringify!($name), $damage, $status, $wanted);
            }
        )*
    };
}

// The areas.
faults! {
    a_full_ref_slot_zeroed {
        |place| place.change(PATCH, |bytes| bytes[slot(3)].fill(0)),
        1,
        &["base/1/11: refused 10", "(block 3)", NOT_AS_CLOSED, "do not sweep", "faults found: 2"]
    }

    a_patch_slot_zeroed {
        |place| place.change(PATCH, |bytes| bytes[slot(1)].fill(0)),
        1,
        &["pages/base/1/11.patch: the SHA-256 is not the manifest's", NOT_AS_CLOSED, "found: 1"]
    }

    a_full_page_zeroed {
        |place| place.change(FULL, |bytes| bytes[place_of(3)].fill(0)),
        1,
        &["pages/base/1/11.full: the SHA-256 is not the manifest's", NOT_AS_CLOSED, "found: 1"]
    }

    a_byte_of_a_payload_flipped {
        |place| place.change(PATCH, |bytes| bytes[slot(1)][9] ^= 1),
        1,
        &["pages/base/1/11.patch: the SHA-256 is not the manifest's", "faults found: 1"]
    }

    a_payload_that_is_not_sound {
        |place| place.change(PATCH, |bytes| bytes[slot(1)][2] = 41),
        1,
        &["base/1/11: refused 7", "(block 1, offset 40)", NOT_AS_CLOSED]
    }

    two_patch_slots_swapped_between_files {
        |place| {
            let other = place.bytes("kept/pages/base/1/12.patch")[slot(0)].to_vec();
            place.change(PATCH, |bytes| bytes[slot(1)].copy_from_slice(&other));
        },
        1,
        &["pages/base/1/11.patch: the SHA-256"]
    }

    a_lost_patch_file {
        |place| place.remove(PATCH),
        1,
        &["pages/base/1/11.patch: the area file is not there: restore both from a copy"]
    }

    a_lost_full_file {
        |place| place.remove(FULL),
        1,
        &["pages/base/1/11.full: the area file is not there: restore both from a copy"]
    }

    both_area_files_lost {
        |place| {
            place.remove(PATCH);
            place.remove(FULL);
        },
        1,
        &["pages/base/1/11.patch: ", "pages/base/1/11.full: ", "faults found: 2"]
    }

    a_full_file_where_there_was_none {
        |place| place.put("kept/pages/base/1/12.full", &place.bytes(FULL)[..4096]),
        1,
        &["pages/base/1/12.full: the manifest names no full area for this segment"]
    }

    a_patch_area_cut_by_one_slot {
        |place| place.change(PATCH, |bytes| bytes.truncate(slot(3).start)),
        1,
        &["pages/base/1/11.patch: the area file has 2048 bytes and must have 2560"]
    }

    a_patch_area_longer_by_one_slot {
        |place| place.change(PATCH, |bytes| bytes.resize(slot(4).end, 0)),
        1,
        &["pages/base/1/11.patch: the area file has 3072 bytes and must have 2560"]
    }

    a_full_area_cut_by_one_page {
        |place| place.change(FULL, |bytes| bytes.truncate(place_of(3).start)),
        1,
        &["pages/base/1/11.full: the area file has 28672 bytes and must have 36864"]
    }

    a_full_area_longer_by_one_page {
        |place| place.change(FULL, |bytes| bytes.resize(place_of(4).end, 0)),
        1,
        &["pages/base/1/11.full: the area file has 45056 bytes and must have 36864"]
    }

    an_empty_patch_file {
        |place| place.put(PATCH, &[]),
        1,
        &["pages/base/1/11.patch: the area file has 0 bytes"]
    }

    the_areas_of_two_segments_swapped {
        |place| {
            for ending in ["patch", "full"] {
                let [one, other] = ["11", "17"].map(|n| format!("kept/pages/base/1/{n}.{ending}"));
                place.rename(&one, "aside");
                place.rename(&other, &one);
                place.rename("aside", &other);
            }
        },
        1,
        &["pages/base/1/11.full: the SHA-256", "pages/base/1/17.full: the SHA-256"]
    }

    yesterdays_areas_under_todays_manifest {
        |place| {
            place.put("new/base/1/11", &pages(4, &[(1, 21), (2, 301), (3, 301)]));
            place.store("yesterday").must(0, &[]);
            for ending in ["patch", "full"] {
                let path = format!("pages/base/1/11.{ending}");
                place.put(&format!("kept/{path}"), &place.bytes(&format!("yesterday/{path}")));
            }
        },
        1,
        &["pages/base/1/11.patch: the SHA-256", "pages/base/1/11.full: the SHA-256", "found: 2"]
    }

    another_header {
        |place| place.change(PATCH, |bytes| bytes[8] = 3),
        1,
        &["pages/base/1/11.patch: the SHA-256", "base/1/11: refused 4"]
    }

    an_area_that_is_a_link {
        |place| {
            place.rename(PATCH, "elsewhere");
            std::os::unix::fs::symlink(place.at("elsewhere"), place.at(PATCH)).expect("a link");
        },
        1,
        &["pages/base/1/11.patch: the manifest names no such file"]
    }
}

// The base, the files kept whole, and the manifest.
faults! {
    a_base_file_lost {
        |place| place.remove(BASE),
        1,
        &["base/base/1/11: the base file is not there: restore it from a copy", "found: 1"]
    }

    an_unchanged_base_file_lost {
        |place| place.remove("base/base/1/10"),
        1,
        &["base/base/1/10: the base file is not there", "faults found: 1"]
    }

    a_base_file_cut_short {
        |place| place.change(BASE, |bytes| bytes.truncate(PAGE_SIZE)),
        1,
        &["base/base/1/11: the base file has 8192 bytes and had 32768", "faults found: 1"]
    }

    a_base_file_with_another_byte {
        |place| place.change(BASE, |bytes| bytes[PAGE_SIZE + 7000] ^= 1),
        1,
        &["base/base/1/11: the base file has other bytes than it had", "faults found: 1"]
    }

    an_unchanged_base_file_with_another_byte {
        |place| place.change("base/PG_VERSION", |bytes| bytes[1] ^= 1),
        1,
        &["base/PG_VERSION: the base file has other bytes than it had"]
    }

    a_base_file_beyond {
        |place| place.put("base/base/1/14", &pages(2, &[])),
        1,
        &["base/base/1/14: the base had no such file when this was stored", "faults found: 1"]
    }

    a_base_file_that_is_a_folder {
        |place| {
            place.remove(BASE);
            fs::create_dir(place.at(BASE)).expect("a folder");
        },
        1,
        &["base/base/1/11: the base file is not there"]
    }

    a_whole_file_lost {
        |place| place.remove("kept/whole/global/pg_control"),
        1,
        &["whole/global/pg_control: the file that was kept whole is not there", "found: 1"]
    }

    a_whole_file_changed {
        |place| place.change("kept/whole/global/pg_control", |bytes| bytes[50] ^= 1),
        1,
        &["whole/global/pg_control: the file that was kept whole has other bytes", "found: 1"]
    }

    a_stray_file_among_the_pages {
        |place| place.put("kept/pages/base/1/18.patch", &place.bytes(PATCH)),
        1,
        &["pages/base/1/18.patch: the manifest names no such file: take it away", "found: 1"]
    }

    a_stray_file_beside_the_manifest {
        |place| place.put("kept/gone", b"base/1/10\n"),
        1,
        &["kept/gone: the manifest names no such file"]
    }

    a_manifest_that_was_being_written {
        |place| place.put("kept/manifest.new", b"thonxiliko-trial 1\n"),
        1,
        &["kept/manifest.new: left where writing the manifest was stopped: take it away"]
    }

    no_manifest {
        |place| place.remove("kept/manifest"),
        1,
        &["kept/manifest: there is no manifest"]
    }

    a_manifest_cut_short {
        |place| place.change("kept/manifest", |bytes| bytes.truncate(bytes.len() - 100)),
        1,
        &["kept/manifest: the manifest is damaged", "restore it from a copy"]
    }

    a_manifest_with_another_byte {
        |place| place.change("kept/manifest", |bytes| bytes[200] ^= 1),
        1,
        &["kept/manifest: the manifest is damaged", "restore it from a copy"]
    }

    a_line_less_in_the_manifest {
        |place| {
            place.change("kept/manifest", |bytes| {
                let text = String::from_utf8_lossy(bytes).into_owned();
                let lines = text.split_inclusive('\n').filter(|line| !line.starts_with("gone "));
                *bytes = lines.collect::<String>().into_bytes();
            })
        },
        1,
        &["kept/manifest: the manifest is damaged"]
    }

    a_manifest_of_another_version {
        |place| place.change("kept/manifest", |bytes| bytes[17] = b'2'),
        2,
        &["kept/manifest: the manifest is of another version: use the program that made it"]
    }

    another_base {
        |place| {
            place.rename("base", "aside");
            place.put("base/base/1/11", &place.bytes("aside/base/1/11"));
        },
        1,
        &["base/base/1/10: the base file is not there", "base/PG_VERSION: ", "faults found: 6"]
    }
}

/// Does a damage to a sound store. Nothing may be rebuilt of it.
fn must_be_found(name: &str, damage: fn(&Place), status: i32, wanted: &[&str]) {
    let place = Place::stored(name);
    place.run("check base kept").must(0, &["no faults found"]);
    damage(&place);
    let before = place.files("kept");
    place.run("check base kept").must(status, wanted);
    place.run("rebuild base kept again").must(status, wanted);
    place.must_have_no("again");
    // A folder that is there stays as it is.
    fs::create_dir(place.at("again")).expect("a folder");
    place.run("rebuild base kept again").must(status, wanted);
    assert!(place.files("again").is_empty() && place.files("kept") == before);
    place.must_have_nothing_half_made();
}

/// A fault ends neither check nor count.
#[test]
fn all_faults_are_listed() {
    let place = Place::stored("all");
    place.remove(BASE);
    place.change(PATCH, |bytes| bytes[slot(3)].fill(0));
    place.remove("kept/pages/base/1/12.patch");
    place.remove("kept/whole/global/pg_control");
    place.put("kept/stray", b"");
    for line in ["check base kept", "rebuild base kept again"] {
        let ran = place.run(line);
        ran.must(1, &["base/base/1/11: ", "11.patch: ", "(block 3)", "12.patch: ", "pg_control: "]);
        ran.must(1, &["kept/stray: ", "faults found: 6\n"]);
        assert_eq!(
            ran.said.matches("trial: /").count() + ran.said.matches("trial: base").count(),
            6
        );
    }
    place.must_have_no("again");
}

/// The sums are those of `sha256sum`, and everything is named in the manifest.
#[test]
fn the_manifest_is_what_it_says() {
    let place = Place::stored("manifest");
    let text = String::from_utf8(place.bytes("kept/manifest")).expect("text");
    let lines: Vec<&str> = text.lines().collect();
    assert_eq!(lines[..2], ["thonxiliko-trial 1", "state closed"]);
    let count = |word: &str| lines.iter().filter(|line| line.starts_with(word)).count();
    let counts = ["base ", "segment ", "whole ", "gone ", "folder ", "end "].map(count);
    assert_eq!(counts, [7, 4, 1, 1, 3, 1]);
    assert!(text.contains("\ngone base/1/15\n") && text.contains("\nfolder base/1\n"));
    assert!(text.contains("\nsegment 4 4 ") && text.contains("\nsegment 2 2 "));
    let without_full = lines.iter().find(|line| line.starts_with("segment 3 - "));
    assert!(without_full.expect("segment 12").ends_with(" - base/1/12"));
    // What sha256sum says of 100 bytes of 2.
    let sum = "a602b7a20e4bfa29f01e08439a888cf02df13fcf45f8257ad5c392bcc5996f92";
    assert!(text.contains(&format!("\nwhole 100 {sum} global/pg_control\n")));
}
