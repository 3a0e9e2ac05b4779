//! Processes that are killed at any moment of a write. Then the store is closed and as before, or live; and
//! after sweep, check and close it is the one before the write or the one after it.

mod common;

use std::time::Duration;

use common::{pages, Place};

/// What `check` may find after a kill: a page without a slot, and files that did not get their names.
fn must_be_of_a_stop(said: &str) {
    let expected = ["base/1/11: refused 10", "/manifest.new: ", "/11.full.new: ", "faults found: "];
    for line in said.lines().filter(|line| line.starts_with("trial: ")) {
        assert!(expected.iter().any(|text| line.contains(text)), "{line}");
    }
}

/// One write to block 1, which is killed. A full page for it comes from 14, a patch from the base.
fn kill_a_write(number: u64, (from, page): (&str, u64)) {
    let place = Place::with_folders(&format!("kill-{number}"));
    place.put("new/base/1/11", &pages(4, &[(1, 20)])); // without a full area
    place.store("kept").must(0, &[]);
    let line = format!("write base kept =base/1/11 =1 {from} ={page}");
    place.run_and_kill(&line, Duration::from_micros(250 * number));

    let closed = place.bytes("kept/manifest").windows(13).any(|text| text == b"\nstate closed");
    let ran = place.run("check base kept");
    must_be_of_a_stop(&ran.said);
    assert!(!(closed && ran.said.contains("refused")), "{}", ran.said);
    place.run("sweep kept =base/1/11 --stopped =1").must(0, &[]);
    place.run("check base kept").must(0, &[]);
    place.run("close kept").must(0, &[]);
    place.run("rebuild base kept again").must(0, &[]);

    let (old, again) = (place.bytes("new/base/1/11"), place.bytes("again/base/1/11"));
    let written = place.bytes(from)[page as usize * 8192..][..8192].to_vec();
    let new = [&old[..8192], &written[..], &old[2 * 8192..]].concat();
    assert!(again == old || (again == new && !closed), "after {number}");
}

#[test]
fn a_write_is_killed_at_any_moment() {
    for number in 0..40 {
        kill_a_write(
            number,
            if number % 2 == 0 { ("new/base/1/14", 0) } else { ("base/base/1/11", 1) },
        );
    }
}
