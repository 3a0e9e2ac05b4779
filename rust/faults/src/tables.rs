//! The tables, as they stand in `docs/TRUST.md`.

use std::fmt::Write;

use thonxiliko::Kind;

use crate::cases::{Case, Given, Others, Page};
use crate::flips::{Counts, Part, Table, PARTS};
use crate::maps::{self, Bit};

fn name(part: Part) -> &'static str {
    match part {
        Part::PatchHeader => "patch header",
        Part::EmptySlot => "EMPTY slots",
        Part::PatchHead => "PATCH slots: the first 8 bytes",
        Part::Payload => "PATCH slots: payload",
        Part::PatchTail => "PATCH slots: zeros after it",
        Part::FullSlot => "FULL_REF slots",
        Part::FullHeader => "full header",
        Part::FullPage => "full pages",
        Part::ZeroPlace => "places of other blocks",
    }
}

pub fn thousands(number: u64) -> String {
    let digits = number.to_string();
    let mut text = String::new();
    for (at, digit) in digits.chars().enumerate() {
        if at > 0 && (digits.len() - at) % 3 == 0 {
            text.push(',');
        }
        text.push(digit);
    }
    text
}

fn sum(table: &Table, wanted: impl Fn(Part) -> bool) -> Counts {
    let mut all = Counts::default();
    for part in PARTS {
        if wanted(part) {
            all.add(&table[part as usize]);
        }
    }
    all
}

/// What came of each flipped bit, a part a row.
pub fn flips(table: &Table) -> String {
    let mut text = String::new();
    let mut line = |name: &str, counts: &Counts| {
        let cells = [
            counts.bits,
            counts.header,
            counts.version,
            counts.slot,
            counts.payload,
            counts.no_full_page,
            counts.stray_right,
            counts.stray_wrong,
            counts.other_page,
            counts.same_page,
            counts.taken,
        ];
        let cells: Vec<String> = cells.iter().copied().map(thousands).collect();
        let _ = writeln!(text, "| {name} | {} |", cells.join(" | "));
    };
    for part in PARTS.iter().copied().filter(|part| part.in_patch_area()) {
        line(name(part), &table[part as usize]);
    }
    line("**patch area**", &sum(table, Part::in_patch_area));
    for part in PARTS.iter().copied().filter(|part| !part.in_patch_area()) {
        line(name(part), &table[part as usize]);
    }
    line("**full area**", &sum(table, |part| !part.in_patch_area()));
    let head = "| Bit in | bits | 3 | 4 | 6 | 7 | 8 | 10, Read right | 10, Read wrong | \
                another page | same page | fits |";
    format!("{head}\n|---|--:|--:|--:|--:|--:|--:|--:|--:|--:|--:|--:|\n{text}")
}

/// The patch area, its slots that are not EMPTY and its payloads in a sentence each, and what the offset of
/// a payload that breaks says of the damage.
pub fn in_words(table: &Table) -> String {
    let used = [Part::PatchHead, Part::Payload, Part::PatchTail, Part::FullSlot];
    let say = |what: &str, counts: Counts| {
        let [bits, noticed] = [counts.bits, counts.refused_by_build()].map(thousands);
        let other = thousands(counts.other_page);
        format!("Of {bits} bits of {what} Build noticed {noticed}; {other} gave another page in silence.\n")
    };
    say("the patch area", sum(table, Part::in_patch_area))
        + &say("its slots in use", sum(table, |part| used.contains(&part)))
        + &say("its payloads", sum(table, |part| part == Part::Payload))
        + &offsets(&table[Part::Payload as usize])
}

fn offsets(payloads: &Counts) -> String {
    let noticed = thousands(payloads.payload);
    let [named, before] = [payloads.named, payloads.payload - payloads.named].map(thousands);
    format!("Of these {noticed} bits {named} lay in the entry that the offset names, {before} before it.\n")
}

fn page(page: Page) -> String {
    match page {
        Page::Written => "the page".to_string(),
        Page::Base => "its base page".to_string(),
        Page::LentBase => "the base page lent".to_string(),
        Page::Earlier => "the page before the last write".to_string(),
        Page::OfBlock(other) => format!("the page of block {other}"),
        Page::Zeros => "zeros".to_string(),
        Page::Never => "a page that never was".to_string(),
    }
}

fn given(given: &Given) -> (String, &'static str) {
    match given {
        Given::Refused(number) => (format!("refused {number}"), "-"),
        Given::Page { kind, page: what, taken } => {
            let text = format!("kind {}, {}", kind.number(), page(*what));
            (text, if *taken { "fits" } else { "does not fit" })
        }
    }
}

fn others(others: Others) -> String {
    match others {
        Others::Refused(number) => format!("refused {number}"),
        Others::Written => "their pages".to_string(),
    }
}

fn build((number, block): (u32, Option<u64>)) -> String {
    match (number, block) {
        (0, _) => "done".to_string(),
        (number, Some(block)) => format!("{number} at block {block}"),
        (number, None) => number.to_string(),
    }
}

/// The blocks of a case that give the same, together.
fn alike(reads: &[(usize, Given)]) -> Vec<(String, Given)> {
    let mut groups: Vec<(String, Given)> = Vec::new();
    for (block, came) in reads {
        match groups.iter_mut().find(|(_, other)| other == came) {
            Some((blocks, _)) => *blocks += &format!(", {block}"),
            None => groups.push((block.to_string(), *came)),
        }
    }
    groups
}

/// A row for each case; more, if the blocks that it is about give different things.
pub fn cases(cases: &[Case]) -> String {
    let mut text = String::from(
        "| What happened | Build | Block | Read | PostgreSQL's checksum | Other blocks |\n\
         |---|---|---|---|---|---|\n",
    );
    for case in cases {
        for (at, (blocks, came)) in alike(&case.reads).into_iter().enumerate() {
            let (read, fits) = given(&came);
            let (what, built, rest) = match at {
                0 => (case.what, build(case.build), others(case.others)),
                _ => ("", String::new(), String::new()),
            };
            let _ = writeln!(text, "| {what} | {built} | {blocks} | {read} | {fits} | {rest} |");
        }
    }
    text
}

/// What came of each flipped bit where the block was read by the map, a part a row.
pub fn mapped_flips(table: &[maps::Counts]) -> String {
    let mut text = String::from(
        "| Bit in | bits | 3 | 4 | 6 | 7 | 8 | 11 | another page | same page | fits |\n\
         |---|--:|--:|--:|--:|--:|--:|--:|--:|--:|--:|\n",
    );
    for counts in table {
        let what = match counts.bit {
            Bit::Area(part) => name(part),
            Bit::Pair(Kind::Empty) => "the map: pairs of EMPTY blocks",
            Bit::Pair(Kind::Patch) => "the map: pairs of PATCH blocks",
            Bit::Pair(Kind::Full) => "the map: pairs of full blocks",
        };
        let refused = [3, 4, 6, 7, 8, 11].map(|number: usize| counts.refused[number]);
        let rest = [counts.other_page, counts.same_page, counts.taken];
        let cells = [&[counts.bits][..], &refused, &rest].concat();
        let cells: Vec<String> = cells.into_iter().map(thousands).collect();
        let _ = writeln!(text, "| {what} | {} |", cells.join(" | "));
    }
    text
}

/// A row for each case of a map that is not its store's any more.
pub fn mapped_cases(cases: &[maps::Case]) -> String {
    let mut text = String::from(
        "| What happened | Block | Read | Read by the map | PostgreSQL's checksum |\n\
         |---|--:|---|---|---|\n",
    );
    for case in cases {
        let ((by_slot, _), (by_map, fits)) = (given(&case.by_slot), given(&case.by_map));
        let _ =
            writeln!(text, "| {} | {} | {by_slot} | {by_map} | {fits} |", case.what, case.block);
    }
    text
}

/// The blocks of the store by kind.
pub fn kinds(kinds: &[Kind], pages: usize) -> String {
    let of = |wanted: Kind| -> String {
        let blocks = kinds.iter().enumerate().filter(|(_, kind)| **kind == wanted);
        blocks.map(|(block, _)| block.to_string()).collect::<Vec<_>>().join(", ")
    };
    format!(
        "n = {}, m = {pages}. EMPTY: blocks {}. PATCH: {}. FULL_REF: {}.\n",
        kinds.len(),
        of(Kind::Empty),
        of(Kind::Patch),
        of(Kind::Full)
    )
}
