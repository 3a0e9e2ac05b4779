//! Inputs with their outcomes written by hand from the rules: P1 to P12, both sides of each edge, the
//! order of refusals, long jumps that are long and those that are not, where payloads break, the steps
//! of a reader, what Compare decides and what comes of a decision that is carried out, what one that is
//! stopped has stored, what a lent map becomes and what it makes of a read, what a cut leaves, the highest
//! block, what a sweep clears, and the shortcuts that give a wrong page.

use crate::call::{
    Answer, Call, Input, Outcome, BEGINNING, FULL_HEADER, PAGE, PATCH_HEADER, PAYLOAD, SLOT,
};
use crate::generate::Decision;

mod stops;

#[derive(Clone)]
pub struct Case {
    pub name: String,
    pub input: Input,
    pub expected: Outcome,
}

/// Bytes that a call puts into one of its buffers; all other bytes stay.
#[derive(Clone)]
struct Put {
    buffer: usize,
    at: usize,
    bytes: Vec<u8>,
}

fn put(buffer: usize, at: usize, bytes: &[u8]) -> Put {
    Put { buffer, at, bytes: bytes.to_vec() }
}

fn case(name: &str, input: Input, answer: &[i128], puts: &[Put]) -> Case {
    let mut buffers = input.buffers.clone();
    for put in puts {
        buffers[put.buffer][put.at..put.at + put.bytes.len()].copy_from_slice(&put.bytes);
    }
    let expected = Outcome { answer: Answer::of(answer), buffers };
    Case { name: name.to_string(), input, expected }
}

fn zeros() -> Vec<u8> {
    vec![0; PAGE]
}

/// A page of zeros but for these bytes.
fn page(changes: &[(usize, u8)]) -> Vec<u8> {
    let mut page = zeros();
    for (at, value) in changes {
        page[*at] = *value;
    }
    page
}

/// Ones in a run and at one more position.
fn ones(run: std::ops::RangeInclusive<usize>, more: Option<usize>) -> Vec<u8> {
    let mut page = zeros();
    page[run].fill(1);
    if let Some(at) = more {
        page[at] = 1;
    }
    page
}

const FILLER: u8 = 0xEE;

fn filler(length: usize) -> Vec<u8> {
    vec![FILLER; length]
}

// Areas, written out byte by byte.

fn patch_area(n: usize) -> Vec<u8> {
    let mut area = vec![0; PATCH_HEADER + SLOT * n];
    area[..8].copy_from_slice(b"PBKPATCH");
    area[8] = 2;
    area[13] = 0x20; // 8192 = 0x2000
    area[17] = 0x02; // 512 = 0x0200
    area
}

fn full_area(m: usize) -> Vec<u8> {
    let mut area = vec![0; FULL_HEADER + PAGE * m];
    area[..7].copy_from_slice(b"PBKFULL");
    area[8] = 1;
    area[13] = 0x20;
    area
}

fn slot(bytes: &[u8]) -> Vec<u8> {
    let mut slot = vec![0; SLOT];
    slot[..bytes.len()].copy_from_slice(bytes);
    slot
}

fn patch_slot(payload: &[u8]) -> Vec<u8> {
    let mut bytes = vec![1, 1, payload.len() as u8, (payload.len() >> 8) as u8, 0, 0, 0, 0];
    bytes.extend_from_slice(payload);
    slot(&bytes)
}

fn with(mut area: Vec<u8>, at: usize, bytes: &[u8]) -> Vec<u8> {
    area[at..at + bytes.len()].copy_from_slice(bytes);
    area
}

fn compare(base: Vec<u8>, page: Vec<u8>, payload: Vec<u8>) -> Input {
    Input::new(Call::Compare, vec![base, page, payload])
}

fn apply(base: Vec<u8>, payload: &[u8], page: Vec<u8>) -> Input {
    Input::new(Call::Apply, vec![base, payload.to_vec(), page])
}

fn judge(slot: Vec<u8>) -> Input {
    Input::new(Call::Judge, vec![slot])
}

fn show(patch: Vec<u8>, block: u64) -> Input {
    Input::new(Call::Show, vec![patch]).at_block(block)
}

fn read(patch: Vec<u8>, full: Vec<u8>, block: u64, base: Vec<u8>) -> Input {
    Input::new(Call::Read, vec![patch, full, base, filler(PAGE)]).at_block(block)
}

// Decisions of each kind, with the page that was compared.

fn decision(kind: u32, payload: &[u8], page: &[u8]) -> Decision {
    Decision { kind, payload: payload.to_vec(), page: page.to_vec() }
}

fn same(page: &[u8]) -> Decision {
    decision(0, &[], page)
}

fn patched(payload: &[u8], page: &[u8]) -> Decision {
    decision(1, payload, page)
}

fn large(page: &[u8]) -> Decision {
    decision(2, &[], page)
}

/// Byte 0 of zeros becomes 7.
fn p1() -> Decision {
    patched(&[0, 7], &page(&[(0, 7)]))
}

fn carry_out([patch, full]: [Vec<u8>; 2], block: u64, decision: &Decision) -> Input {
    decision.input(Call::CarryOut, vec![patch, full], block)
}

fn carry_out_mapped(
    [patch, full]: [Vec<u8>; 2],
    map: &[u8],
    block: u64,
    decision: &Decision,
) -> Input {
    decision.input(Call::CarryOutMapped, vec![patch, full, map.to_vec()], block)
}

/// A page that is written by the pair: what Compare answers over the base, into a buffer full of other
/// bytes, and the decision that is carried out next.
fn decide(
    cases: &mut Vec<Case>,
    name: &str,
    [base, page]: [&[u8]; 2],
    answer: [i128; 5],
    payload: &[u8],
) -> Decision {
    let input = compare(base.to_vec(), page.to_vec(), filler(PAYLOAD));
    cases.push(case(&format!("{name}: decided"), input, &answer, &[put(2, 0, payload)]));
    decision(answer[1] as u32, payload, page)
}

fn read_mapped([patch, full]: [Vec<u8>; 2], map: &[u8], block: u64, base: Vec<u8>) -> Input {
    let buffers = vec![patch, full, map.to_vec(), base, filler(PAGE)];
    Input::new(Call::ReadMapped, buffers).at_block(block)
}

fn cut([patch, full]: [Vec<u8>; 2], k: u64) -> Input {
    Input::new(Call::Cut, vec![patch, full]).at_block(k)
}

fn cut_mapped([patch, full]: [Vec<u8>; 2], map: &[u8], k: u64) -> Input {
    Input::new(Call::CutMapped, vec![patch, full, map.to_vec()]).at_block(k)
}

fn highest(patch: Vec<u8>) -> Input {
    Input::new(Call::Highest, vec![patch])
}

fn sweep([patch, full]: [Vec<u8>; 2]) -> Input {
    Input::new(Call::Sweep, vec![patch, full])
}

fn build(patch: Vec<u8>, full: Vec<u8>, map: Vec<u8>) -> Input {
    Input::new(Call::Build, vec![patch, full, map])
}

fn look_up(map: &[u8], n: u64, block: u64) -> Input {
    Input::new(Call::LookUp, vec![map.to_vec()]).told(n).at_block(block)
}

fn tally(map: &[u8], n: u64) -> Input {
    Input::new(Call::Tally, vec![map.to_vec()]).told(n)
}

fn format(patch: Vec<u8>, full: Vec<u8>) -> Input {
    Input::new(Call::Format, vec![patch, full])
}

/// P1 to P6: the changes over zeros, the stream, its entries and last position.
struct Example {
    name: &'static str,
    changes: &'static [(usize, u8)],
    payload: &'static [u8],
    entries: i128,
    last: i128,
}

const EXAMPLES: [Example; 6] = [
    Example { name: "P1", changes: &[(0, 7)], payload: &[0x00, 0x07], entries: 1, last: 0 },
    Example { name: "P2", changes: &[(254, 1)], payload: &[0xFE, 0x01], entries: 1, last: 254 },
    Example {
        name: "P3",
        changes: &[(255, 1)],
        payload: &[0xFF, 0xFF, 0x00, 0x01],
        entries: 1,
        last: 255,
    },
    Example {
        name: "P4",
        changes: &[(8191, 1)],
        payload: &[0xFF, 0xFF, 0x1F, 0x01],
        entries: 1,
        last: 8191,
    },
    Example {
        name: "P5",
        changes: &[(0, 1), (255, 1)],
        payload: &[0x00, 0x01, 0xFE, 0x01],
        entries: 2,
        last: 255,
    },
    Example {
        name: "P6",
        changes: &[(0, 1), (256, 1)],
        payload: &[0x00, 0x01, 0xFF, 0xFF, 0x00, 0x01],
        entries: 2,
        last: 256,
    },
];

/// P1 to P6 in every call that they say something about, with both forms of a base of zeros.
fn examples(cases: &mut Vec<Case>) {
    for example in &EXAMPLES {
        for base in [Vec::new(), zeros()] {
            example_over(cases, example, base);
        }
        let length = example.payload.len() as i128;
        cases.push(case(
            &format!("{} judged", example.name),
            judge(patch_slot(example.payload)),
            &[0, 1, length],
            &[],
        ));
        cases.push(case(
            &format!("{} shown", example.name),
            show(with(patch_area(2), 1024, &patch_slot(example.payload)), 1),
            &[1032, length],
            &[],
        ));
    }
}

fn example_over(cases: &mut Vec<Case>, example: &Example, base: Vec<u8>) {
    let Example { name, changes, payload, entries, last } = *example;
    let length = payload.len() as i128;
    let modified = page(changes);
    let name = |what: &str| format!("{name} {what}, base of {}", base.len());
    cases.push(case(
        &name("compared"),
        compare(base.clone(), modified.clone(), filler(510)),
        &[0, 1, length, entries, last],
        &[put(2, 0, payload)],
    ));
    cases.push(case(
        &name("applied"),
        apply(base.clone(), payload, filler(PAGE)),
        &[0, entries, last],
        &[put(2, 0, &modified)],
    ));
    cases.push(case(
        &name("carried out"),
        carry_out([patch_area(2), full_area(2)], 1, &patched(payload, &modified)),
        &[0, 1, length],
        &[put(0, 1024, &patch_slot(payload))],
    ));
    let stored = with(patch_area(2), 1024, &patch_slot(payload));
    cases.push(case(
        &name("read"),
        read(stored, full_area(2), 1, base.clone()),
        &[0, 1],
        &[put(3, 0, &modified)],
    ));
}

/// P7 to P12.
fn more_examples(cases: &mut Vec<Case>) {
    breaking(cases, "P7", &[0xFF, 0x00, 0x20, 0x01], 0);
    breaking(cases, "P8", &[0xFF, 0xFF, 0x1F, 0x01, 0x00, 0x02], 4);
    breaking(cases, "P9", &[0x00], 0);
    breaking(cases, "P10", &[], 0);
    let equal = vec![0x33; PAGE];
    cases.push(case("P11", compare(Vec::new(), zeros(), filler(504)), &[0, 0, 0, 0, -1], &[]));
    cases.push(case(
        "P11 over a base of 33s",
        compare(equal.clone(), equal, filler(504)),
        &[0, 0, 0, 0, -1],
        &[],
    ));
    breaking(cases, "P12", &[0xFF, 0x00, 0x00, 0x05], 0);
}

/// A payload that is not sound, and the offset at which it breaks: applied and, if it fits a slot, read,
/// read by a map and built. Carried out it is refused without an offset; for other kinds than PATCH it is
/// not looked at.
fn breaking(cases: &mut Vec<Case>, name: &str, payload: &[u8], offset: i128) {
    let input = apply(Vec::new(), payload, filler(PAGE));
    cases.push(case(&format!("{name} applied"), input, &[7, 0, 0, offset], &[]));
    let areas = || [patch_area(2), full_area(2)];
    let of_kind = |kind: u32| decision(kind, payload, &filler(PAGE));
    let input = carry_out(areas(), 1, &of_kind(1));
    cases.push(case(&format!("{name} carried out"), input, &[7], &[]));
    let input = carry_out_mapped(areas(), &[0xFF], 1, &of_kind(1));
    cases.push(case(&format!("{name} carried out with a map"), input, &[7], &[]));
    let input = carry_out_mapped(areas(), &[0xFF], 1, &of_kind(0));
    cases.push(case(&format!("{name} beside EMPTY"), input, &[0, 0, 0], &[put(2, 0, &[0xF3])]));
    let input = carry_out(areas(), 1, &of_kind(2));
    let puts = [put(0, 1024, &[2]), put(1, 12_288, &filler(PAGE))];
    cases.push(case(&format!("{name} beside FULL_REF"), input, &[0, 2, 0], &puts));
    if (1..=PAYLOAD).contains(&payload.len()) {
        let area = with(patch_area(3), 1024, &patch_slot(payload));
        let input = read(area.clone(), Vec::new(), 1, Vec::new());
        cases.push(case(&format!("{name} read"), input, &[7, 0, offset], &[]));
        let input = read_mapped([area.clone(), Vec::new()], &[0x08], 1, Vec::new());
        cases.push(case(&format!("{name} read by a map"), input, &[7, 0, offset], &[]));
        let input = build(area, Vec::new(), filler(1));
        cases.push(case(&format!("{name} built"), input, &[7, 1, offset], &[]));
    }
}

/// A sound payload and the bytes that it changes in zeros, in the same calls.
fn landing(cases: &mut Vec<Case>, name: &str, payload: &[u8], changes: &[(usize, u8)]) {
    let (entries, last) = (changes.len() as i128, changes[changes.len() - 1].0 as i128);
    let modified = page(changes);
    let input = apply(Vec::new(), payload, filler(PAGE));
    cases.push(case(
        &format!("{name} applied"),
        input,
        &[0, entries, last],
        &[put(2, 0, &modified)],
    ));
    // With no page beside it: any sound payload is taken.
    let taken = put(0, 1024, &patch_slot(payload));
    let (areas, answer) = (|| [patch_area(3), Vec::new()], [0, 1, payload.len() as i128]);
    let input = carry_out(areas(), 1, &patched(payload, &[]));
    cases.push(case(&format!("{name} carried out"), input, &answer, std::slice::from_ref(&taken)));
    let input = carry_out_mapped(areas(), &[0xFF], 1, &patched(payload, &modified));
    let puts = [taken, put(2, 0, &[0xFB])];
    cases.push(case(&format!("{name} carried out with a map"), input, &answer, &puts));
    let area = with(patch_area(3), 1024, &patch_slot(payload));
    let input = read(area.clone(), Vec::new(), 1, Vec::new());
    cases.push(case(&format!("{name} read"), input, &[0, 1], &[put(3, 0, &modified)]));
    let input = read_mapped([area.clone(), Vec::new()], &[0x08], 1, Vec::new());
    cases.push(case(&format!("{name} read by a map"), input, &[0, 1], &[put(4, 0, &modified)]));
    let input = build(area, Vec::new(), filler(1));
    cases.push(case(&format!("{name} built"), input, &[0, 0], &[put(2, 0, &[0x08])]));
}

/// The long code is for jumps of 255 and more: both sides of that edge, in each entry.
fn long_jumps(cases: &mut Vec<Case>) {
    let short: [(&str, &[u8], i128); 12] = [
        ("a long jump of 1", &[0xFF, 0x01, 0x00, 0x05], 0),
        ("a long jump of 127", &[0xFF, 0x7F, 0x00, 0x05], 0),
        ("a long jump of 128", &[0xFF, 0x80, 0x00, 0x05], 0),
        ("a long jump of 253", &[0xFF, 0xFD, 0x00, 0x05], 0),
        ("a long jump of 254", &[0xFF, 0xFE, 0x00, 0x05], 0),
        ("a long jump of 0 after an entry", &[0x00, 0x01, 0xFF, 0x00, 0x00, 0x05], 2),
        ("a long jump of 254 after an entry", &[0x00, 0x01, 0xFF, 0xFE, 0x00, 0x05], 2),
        ("254 after 255", &[0xFF, 0xFF, 0x00, 0x01, 0xFF, 0xFE, 0x00, 0x05], 4),
        ("254 in a third entry", &[0, 1, 0xFF, 0xFF, 0x00, 0x01, 0xFF, 0xFE, 0x00, 0x05], 6),
        ("a long jump of 0 past the page", &[0xFF, 0xFF, 0x1F, 0x01, 0xFF, 0x00, 0x00, 0x05], 4),
        ("a long jump of 0, then cut off", &[0x00, 0x01, 0xFF, 0x00, 0x00, 0x05, 0x00], 2),
        ("a long jump of 0, then past the page", &[0xFF, 0, 0, 5, 0xFF, 0x00, 0x20, 0x01], 0),
    ];
    for (name, payload, offset) in short {
        breaking(cases, name, payload, offset);
    }
    let last = |jump: u8| with(vec![0; PAYLOAD], 500, &[0xFF, jump, 0x00, 0x05]);
    breaking(cases, "254 in the last entry that fits", &last(0xFE), 500);
    breaking(cases, "505 bytes with 254", &with(vec![0; 505], 2, &[0xFF, 0xFE]), 0);

    landing(cases, "a long jump of 255", &[0xFF, 0xFF, 0x00, 0x05], &[(255, 5)]);
    // Its low byte alone is 0.
    landing(cases, "a long jump of 256", &[0xFF, 0x00, 0x01, 0x05], &[(256, 5)]);
    landing(cases, "a long jump of 510", &[0xFF, 0xFE, 0x01, 0x05], &[(510, 5)]);
    landing(cases, "a long jump of 511", &[0xFF, 0xFF, 0x01, 0x05], &[(511, 5)]);
    let after_one = [0x00, 0x01, 0xFF, 0x00, 0x01, 0x05];
    landing(cases, "256 after an entry", &after_one, &[(0, 1), (257, 5)]);
    let twice = [0xFF, 0xFF, 0x00, 0x01, 0xFF, 0xFF, 0x00, 0x02];
    landing(cases, "255 twice", &twice, &[(255, 1), (511, 2)]);
    let both_codes = [0xFE, 0x01, 0xFF, 0xFF, 0x00, 0x02];
    landing(cases, "a short 254, then 255", &both_codes, &[(254, 1), (510, 2)]);
    // 250 entries on zeros that stay zeros, then 255 further.
    let name = "255 in the last entry that fits";
    let puts = [put(2, 0, &page(&[(505, 5)]))];
    cases.push(case(name, apply(vec![], &last(0xFF), filler(PAGE)), &[0, 251, 505], &puts));
}

/// The entry that is cut off or leaves the page first, wherever it stands. Long jumps that are not long
/// have cases of their own.
fn breaks(cases: &mut Vec<Case>) {
    let short: [(&str, &[u8], i128); 14] = [
        ("FF alone", &[0xFF], 0),
        ("a long code without its high byte", &[0xFF, 0x00], 0),
        ("a long code without a value", &[0xFF, 0x00, 0x00], 0),
        ("a long code of 255 without a value", &[0xFF, 0xFF, 0x00], 0),
        ("a second jump without a value", &[0x00, 0x07, 0x00], 2),
        ("a second FF alone", &[0x00, 0x07, 0xFF], 2),
        ("a second long code without a value", &[0x00, 0x01, 0xFF, 0xFF, 0x00], 2),
        ("a jump after a long code", &[0xFF, 0xFF, 0x00, 0x01, 0xFE], 4),
        ("a third entry cut off", &[0, 1, 0xFF, 0xFF, 0, 1, 0xFF, 0], 6),
        ("a jump of 65,535", &[0xFF, 0xFF, 0xFF, 0x01], 0),
        ("a jump of 65,535 after an entry", &[0x00, 0x07, 0xFF, 0xFF, 0xFF, 0x01], 2),
        ("two past the page by the short code", &[0xFF, 0xFE, 0x1F, 0x01, 0x01, 0x02], 4),
        ("out of the page, then cut off", &[0xFF, 0x00, 0x20, 0x01, 0x00], 0),
        ("out of the page twice", &[0, 7, 0xFF, 0x00, 0x20, 0x01, 0xFF, 0x00, 0x20, 0x01], 2),
    ];
    for (name, payload, offset) in short {
        breaking(cases, name, payload, offset);
    }
    breaking(cases, "251 entries and a jump", &[0; 503], 502);
    // Too long, and an entry that breaks early, at the last place, or not at all.
    breaking(cases, "505 bytes", &[0; 505], 0);
    breaking(cases, "506 bytes of whole entries", &[0; 506], 0);
    breaking(cases, "505 bytes that break early", &with(vec![0; 505], 2, &[0xFF, 0x00, 0x20]), 0);
    breaking(cases, "506 bytes that break late", &with(vec![0; 506], 502, &[0xFF, 0, 0x20]), 0);

    // With any other refusal the offset is 0, though the payload breaks at 2.
    let broken: &[u8] = &[0x00, 0x07, 0x00];
    let area = with(patch_area(1), 512, &patch_slot(broken));
    let unsound = with(area.clone(), 512 + 4, &[1]);
    cases.push(case("1 has no offset", apply(vec![1], broken, filler(PAGE)), &[1], &[]));
    cases.push(case("5 has no offset", read(area.clone(), vec![], 1, vec![]), &[5], &[]));
    cases.push(case("6 has no offset", read(unsound.clone(), vec![], 0, vec![]), &[6], &[]));
    cases.push(case("Build: 6 has no offset", build(unsound, vec![], filler(1)), &[6], &[]));
    cases.push(case("Build: 9 has no offset", build(area.clone(), vec![], vec![]), &[9], &[]));
    let input = build(with(area, 8, &[1]), vec![], filler(1));
    cases.push(case("Build: 4 has no offset", input, &[4], &[]));
}

/// Steps of a reader. Each line is a place and position, and the answer.
fn steps(cases: &mut Vec<Case>) {
    let mut from = |name: &str, payload: &[u8], stands: (u64, i32), answer: [i128; 5]| {
        let name = format!("reader: {name}, from {stands:?}");
        cases.push(case(&name, Input::step(payload, stands), &answer, &[]));
    };
    let p5: &[u8] = &[0x00, 0x01, 0xFE, 0x01];
    from("P5", p5, BEGINNING, [0, 1, 2, 0, 1]);
    from("P5", p5, (2, 0), [0, 1, 4, 255, 1]);
    from("P5", p5, (4, 255), [0, 0, 4, 255, 0]);
    let p8: &[u8] = &[0xFF, 0xFF, 0x1F, 0x01, 0x00, 0x02];
    from("P8", p8, BEGINNING, [0, 1, 4, 8191, 1]);
    from("P8", p8, (4, 8191), [7, 0, 4, 8191, 0]);
    // Another position before it, and it stays in the page.
    from("P8", p8, (4, 8190), [0, 1, 6, 8191, 2]);
    from("P7", &[0xFF, 0x00, 0x20, 0x01], BEGINNING, [7, 0, 0, -1, 0]);
    from("P9", &[0x00], BEGINNING, [7, 0, 0, -1, 0]);
    from("P10", &[], BEGINNING, [7, 0, 0, -1, 0]);
    from("P12", &[0xFF, 0x00, 0x00, 0x05], BEGINNING, [7, 0, 0, -1, 0]);
    // 254 by the long code at 1 and 255 at 5. At 1 the first entry's value stands for the code byte.
    let long: &[u8] = &[0x00, 0xFF, 0xFE, 0x00, 0x00, 0xFF, 0xFF, 0x00, 0x09];
    from("254 by the long code", long, (1, 0), [7, 0, 1, 0, 0]);
    from("254 by the long code", long, (1, 8191), [7, 0, 1, 8191, 0]);
    from("255 by the long code", long, (5, 0), [0, 1, 9, 256, 9]);
    from("255 by the long code", long, (5, 7935), [0, 1, 9, 8191, 9]);
    from("255 by the long code", long, (5, 7936), [7, 0, 5, 7936, 0]);
    from("256 by the long code", &[0xFF, 0x00, 0x01, 0x05], BEGINNING, [0, 1, 4, 256, 5]);
    from("510 by the long code", &[0xFF, 0xFE, 0x01, 0x05], BEGINNING, [0, 1, 4, 510, 5]);
    from("a value of 255", &[0x03, 0xFF], (0, 10), [0, 1, 2, 14, 255]);

    // Inside an entry its other bytes are taken for one.
    from("inside an entry", p5, (1, 0), [0, 1, 3, 2, 0xFE]);
    from("at the last byte", p5, (3, 0), [7, 0, 3, 0, 0]);
    // An empty or overlong payload comes before the end and the position.
    for stands in [BEGINNING, (2, 5), (505, 8192), (u64::MAX, i32::MIN)] {
        let answer = [7, 0, stands.0.into(), stands.1.into(), 0];
        from("nothing", &[], stands, answer);
        from("505 bytes", &[0; 505], stands, answer);
        from("506 bytes", &[0; 506], stands, answer);
    }
    // The end comes before the position, the position before the entry.
    for stands in [(4, -1), (5, 8192), (1 << 32, -2), (u64::MAX, i32::MAX)] {
        from("past the end", p5, stands, [0, 0, stands.0.into(), stands.1.into(), 0]);
    }
    for position in [8192, -2, i32::MIN, i32::MAX] {
        from("a position outside", p5, (0, position), [7, 0, 0, position.into(), 0]);
    }
    from("to the last byte of the page", p5, (0, 8190), [0, 1, 2, 8191, 1]);
    from("out of the page", p5, (0, 8191), [7, 0, 0, 8191, 0]);
    // The longest payload, to its last entry and past it.
    from("504 bytes", &[0; 504], (502, 250), [0, 1, 504, 251, 0]);
    from("504 bytes", &[0; 504], (504, 251), [0, 0, 504, 251, 0]);
    from("503 bytes", &[0; 503], (502, 250), [7, 0, 502, 250, 0]);
}

/// Where a stream stops fitting into a slot.
fn stream_edges(cases: &mut Vec<Case>) {
    // Jump 0 and value 1, over and over.
    let run = |entries: usize| [0x00, 0x01].repeat(entries);
    let far = |entries: usize| {
        let mut stream = run(entries);
        stream.extend_from_slice(&[0xFF, 0xFF, 0x00, 0x01]);
        stream
    };
    let edges = [
        ("bytes 0 to 251", ones(0..=251, None), [0, 1, 504, 252, 251], run(252)),
        ("bytes 0 to 252", ones(0..=252, None), [0, 2, 506, 253, 252], vec![]),
        ("bytes 0 to 249 and 505", ones(0..=249, Some(505)), [0, 1, 504, 251, 505], far(250)),
        ("bytes 0 to 250 and 506", ones(0..=250, Some(506)), [0, 2, 506, 252, 506], vec![]),
        ("every byte", vec![1; PAGE], [0, 2, 16_384, 8_192, 8_191], vec![]),
        ("bytes 0 to 250 and 505", ones(0..=250, Some(505)), [0, 1, 504, 252, 505], {
            let mut stream = run(251);
            stream.extend_from_slice(&[0xFE, 0x01]);
            stream
        }),
    ];
    for (name, modified, answer, stream) in edges {
        let input = compare(Vec::new(), modified.clone(), filler(600));
        cases.push(case(&format!("{name}: compared"), input, &answer, &[put(2, 0, &stream)]));

        // The stream's length is Compare's answer alone.
        let (kind, length) = (answer[1], stream.len() as i128);
        let decision = decision(kind as u32, &stream, &modified);
        let input = carry_out([patch_area(1), full_area(1)], 0, &decision);
        let puts = if kind == 1 {
            vec![put(0, 512, &patch_slot(&stream))]
        } else {
            vec![put(0, 512, &[2]), put(1, 4096, &modified)]
        };
        cases.push(case(&format!("{name}: carried out"), input, &[0, kind, length], &puts));

        for (form, full) in [("absent", Vec::new()), ("without pages", full_area(0))] {
            let input = carry_out([patch_area(1), full], 0, &decision);
            let name = format!("{name}: carried out, full area {form}");
            if kind == 1 {
                let puts = [put(0, 512, &patch_slot(&stream))];
                cases.push(case(&name, input, &[0, 1, length], &puts));
            } else {
                cases.push(case(&name, input, &[8], &[]));
            }
        }
    }
}

/// The most differences that always fit, and one more.
fn spread_edges(cases: &mut Vec<Case>) {
    // 31 entries with the long code at positions 255, 511, ..., 7935, then a run.
    let spread = |run: usize| {
        let mut page = zeros();
        (1..=31).for_each(|entry| page[256 * entry - 1] = 1);
        page[7936..7936 + run].fill(1);
        page
    };
    let mut stream = [0xFF, 0xFF, 0x00, 0x01].repeat(31);
    stream.extend([0x00, 0x01].repeat(190));
    cases.push(case(
        "221 differences, 31 of them far apart",
        compare(Vec::new(), spread(190), filler(504)),
        &[0, 1, 504, 221, 8125],
        &[put(2, 0, &stream)],
    ));
    cases.push(case(
        "222 differences, 31 of them far apart",
        compare(Vec::new(), spread(191), filler(504)),
        &[0, 2, 506, 222, 8126],
        &[],
    ));
}

fn no_blocks(cases: &mut Vec<Case>) {
    for full in [Vec::new(), full_area(0)] {
        let with_full = full.len();
        let input = build(patch_area(0), full.clone(), Vec::new());
        cases.push(case(&format!("n = 0: built, full area of {with_full}"), input, &[0], &[]));
        let input = build(patch_area(0), full.clone(), filler(2));
        cases.push(case("n = 0: built into a longer map", input, &[0], &[]));
        for block in [0, 1, u64::MAX] {
            let input = read(patch_area(0), full.clone(), block, Vec::new());
            cases.push(case(&format!("n = 0: block {block} read"), input, &[5], &[]));
        }
        let areas = || [patch_area(0), full.clone()];
        for kind in 0..4 {
            let input = carry_out(areas(), 0, &decision(kind, &[0, 7], &zeros()));
            cases.push(case(&format!("n = 0: kind {kind} carried out"), input, &[5], &[]));
        }
        cases.push(case("n = 0: cut at 0", cut(areas(), 0), &[0], &[]));
        cases.push(case("n = 0: cut at 1", cut(areas(), 1), &[5], &[]));
        cases.push(case("n = 0: cut at 0, no map", cut_mapped(areas(), &[], 0), &[0], &[]));
        cases.push(case("n = 0: cut at 0, any map", cut_mapped(areas(), &[0xFF], 0), &[0], &[]));
        cases.push(case("n = 0: cut at 1, no map", cut_mapped(areas(), &[], 1), &[5], &[]));
        cases.push(case("n = 0: swept", sweep(areas()), &[0], &[]));
    }
    cases.push(case("n = 0: highest", highest(patch_area(0)), &[0, 0], &[]));
    let input = build(patch_area(0), full_area(1), Vec::new());
    cases.push(case("n = 0 with one page", input, &[2], &[]));
}

fn slots(cases: &mut Vec<Case>) {
    let full_payload = patch_slot(&[0x00; PAYLOAD]);
    let length = |low: u8, high: u8| with(full_payload.clone(), 2, &[low, high]);
    let sound: [(&str, Vec<u8>, [i128; 3]); 5] = [
        ("an EMPTY slot", slot(&[]), [0, 0, 0]),
        ("a FULL_REF slot", slot(&[2]), [0, 2, 0]),
        ("a payload of 504 bytes", length(0xF8, 0x01), [0, 1, 504]),
        ("a payload of 1 byte", slot(&[1, 1, 1, 0, 0, 0, 0, 0, 9]), [0, 1, 1]),
        ("zeros in a payload", slot(&[1, 1, 6, 0]), [0, 1, 6]),
    ];
    for (name, bytes, answer) in sound {
        cases.push(case(name, judge(bytes), &answer, &[]));
    }
    let unsound: [(&str, Vec<u8>); 14] = [
        ("a payload of 505 bytes", length(0xF9, 0x01)),
        ("a payload of 0 bytes", slot(&[1, 1, 0, 0])),
        ("a payload of 65,535 bytes", length(0xFF, 0xFF)),
        ("EMPTY with flags", slot(&[0, 1])),
        ("EMPTY with its last byte set", with(slot(&[]), 511, &[1])),
        ("FULL_REF with flags", slot(&[2, 1])),
        ("FULL_REF with a length", slot(&[2, 0, 1])),
        ("FULL_REF with its last byte set", with(slot(&[2]), 511, &[1])),
        ("kind 3", slot(&[3])),
        ("kind 255", slot(&[255])),
        ("PATCH with flags 0", slot(&[1, 0, 1, 0, 0, 0, 0, 0, 9])),
        ("PATCH with flags 3", slot(&[1, 3, 1, 0, 0, 0, 0, 0, 9])),
        ("PATCH with flags 129", slot(&[1, 129, 1, 0, 0, 0, 0, 0, 9])),
        ("PATCH with a byte after its payload", slot(&[1, 1, 1, 0, 0, 0, 0, 0, 9, 9])),
    ];
    for (name, bytes) in unsound {
        cases.push(case(name, judge(bytes), &[6], &[]));
    }
    for at in 4..8 {
        let bytes = with(patch_slot(&[0, 7]), at, &[1]);
        cases.push(case(&format!("PATCH with byte {at} set"), judge(bytes), &[6], &[]));
    }
    let bytes = with(patch_slot(&[0, 7]), 511, &[1]);
    cases.push(case("PATCH with its last byte set", judge(bytes), &[6], &[]));
    for length in [0, 1, 511, 513, 1024] {
        let input = judge(vec![3; length]);
        cases.push(case(&format!("a slot of {length} bytes"), input, &[2], &[]));
    }
}

/// The six steps of the headers, and which of two faults wins.
fn headers(cases: &mut Vec<Case>) {
    let bad_patch = |at: usize| with(patch_area(1), at, &[0x55]);
    let bad_full = |at: usize| with(full_area(1), at, &[0x55]);
    let mut both = |name: &str, patch: Vec<u8>, full: Vec<u8>, number: i128| {
        let input = read(patch.clone(), full.clone(), 0, Vec::new());
        cases.push(case(&format!("{name}: read"), input, &[number], &[]));
        let areas = || [patch.clone(), full.clone()];
        for decision in [same(&zeros()), p1(), large(&[6; PAGE]), decision(3, &[], &[])] {
            let input = carry_out(areas(), 0, &decision);
            let name = format!("{name}: kind {} carried out", decision.kind);
            cases.push(case(&name, input, &[number], &[]));
        }
        let input = read_mapped(areas(), &[0], 0, Vec::new());
        cases.push(case(&format!("{name}: read by a map"), input, &[number], &[]));
        let input = carry_out_mapped(areas(), &[0xFF], 0, &p1());
        cases.push(case(&format!("{name}: carried out with a map"), input, &[number], &[]));
        cases.push(case(&format!("{name}: cut"), cut(areas(), 0), &[number], &[]));
        let input = cut_mapped(areas(), &[0xFF], 0);
        cases.push(case(&format!("{name}: cut with a map"), input, &[number], &[]));
        cases.push(case(&format!("{name}: swept"), sweep(areas()), &[number], &[]));
        let input = build(patch, full, filler(1));
        cases.push(case(&format!("{name}: built"), input, &[number], &[]));
    };
    for at in [0, 7, 10, 11, 12, 13, 15, 16, 17, 19, 20, 511] {
        both(&format!("patch header byte {at}"), bad_patch(at), full_area(1), 3);
    }
    for at in [8, 9] {
        both(&format!("patch header byte {at}"), bad_patch(at), full_area(1), 4);
    }
    for at in [0, 6, 7, 10, 11, 12, 13, 15, 16, 19, 20, 4095] {
        both(&format!("full header byte {at}"), patch_area(1), bad_full(at), 3);
    }
    for at in [8, 9] {
        both(&format!("full header byte {at}"), patch_area(1), bad_full(at), 4);
    }
    both("patch version before full magic", bad_patch(8), bad_full(0), 4);
    both("patch flags before full version", bad_patch(10), bad_full(8), 3);
    both("patch magic before patch version", with(bad_patch(8), 0, &[0]), full_area(1), 3);
    both("patch version before patch flags", with(bad_patch(8), 10, &[1]), full_area(1), 4);
    both("full magic before full version", patch_area(1), with(bad_full(8), 7, &[1]), 3);
    both("full version before full rest", patch_area(1), with(bad_full(8), 4095, &[1]), 4);
    both("version 1 of the patch area", with(patch_area(1), 8, &[1]), full_area(1), 4);
    both("version 258", with(patch_area(1), 8, &[2, 1]), full_area(1), 4);
    both("a header of a full area without pages", patch_area(1), with(full_area(0), 20, &[1]), 3);
}

fn show_cases(cases: &mut Vec<Case>) {
    let shown = with(patch_area(3), 512 + 512 * 2, &patch_slot(&[9, 9, 9]));
    cases.push(case("an unsound payload is shown", show(shown.clone(), 2), &[1544, 3], &[]));
    cases.push(case("an EMPTY slot is not shown", show(shown.clone(), 1), &[0, 0], &[]));
    cases.push(case("no block 3", show(shown.clone(), 3), &[0, 0], &[]));
    cases.push(case("block 2^55 + 2", show(shown.clone(), (1 << 55) + 2), &[0, 0], &[]));
    let bad = with(shown.clone(), 8, &[3]);
    cases.push(case("a wrong version is not shown", show(bad, 2), &[0, 0], &[]));
    let bad = with(shown.clone(), 511, &[3]);
    cases.push(case("a wrong header is not shown", show(bad, 2), &[0, 0], &[]));
    let bad = with(shown.clone(), 1536 + 511, &[3]);
    cases.push(case("an unsound slot is not shown", show(bad, 2), &[0, 0], &[]));
    let bad = with(shown.clone(), 1536, &slot(&[2]));
    cases.push(case("a FULL_REF slot is not shown", show(bad, 2), &[0, 0], &[]));
    let mut long = shown;
    long.push(0);
    cases.push(case("an area one byte too long", show(long, 2), &[0, 0], &[]));
}

/// Lengths of pages, and that they come before everything else.
fn page_lengths(cases: &mut Vec<Case>) {
    for length in [1, 8191, 8193] {
        let odd = vec![1; length];
        let name = |what: &str| format!("{what} of {length} bytes");
        cases.push(case(
            &name("compared base"),
            compare(odd.clone(), zeros(), filler(504)),
            &[1],
            &[],
        ));
        cases.push(case(&name("compared page"), compare(zeros(), odd.clone(), vec![]), &[1], &[]));
        cases.push(case(&name("applied base"), apply(odd.clone(), &[0], filler(PAGE)), &[1], &[]));
        cases.push(case(&name("applied page"), apply(zeros(), &[0, 1], odd.clone()), &[1], &[]));
        // A wrong page wins over wrong areas.
        let input = read(vec![], vec![1], 9, odd.clone());
        cases.push(case(&name("read base"), input, &[1], &[]));
        let input = carry_out([vec![], vec![1]], 9, &large(&odd));
        cases.push(case(&name("full page"), input, &[1], &[]));
        let input = carry_out([patch_area(1), full_area(1)], 0, &large(&odd));
        cases.push(case(&name("full page on a sound store"), input, &[1], &[]));
        let input = read_mapped([vec![], vec![1]], &[], 9, odd.clone());
        cases.push(case(&name("base read by a map"), input, &[1], &[]));
        let input = carry_out_mapped([patch_area(1), full_area(1)], &[0xFF], 0, &large(&odd));
        cases.push(case(&name("full page with a map"), input, &[1], &[]));
        let input = carry_out_mapped([vec![], vec![1]], &[], 9, &large(&odd));
        cases.push(case(&name("full page with no map"), input, &[1], &[]));
    }
    cases.push(case("compared page of 0 bytes", compare(zeros(), vec![], filler(504)), &[1], &[]));
    let input = Input::new(Call::Read, vec![patch_area(1), vec![], vec![], vec![]]);
    cases.push(case("read page of 0 bytes", input, &[1], &[]));
}

fn payload_lengths(cases: &mut Vec<Case>) {
    for payload in [0, 1, 503] {
        let buffer = filler(payload);
        let name = format!("payload buffer of {payload} bytes");
        cases.push(case(&name, compare(vec![], zeros(), buffer.clone()), &[9], &[]));
        cases.push(case(&name, compare(vec![], page(&[(0, 7)]), buffer.clone()), &[9], &[]));
        cases.push(case(&name, compare(vec![], vec![1; PAGE], buffer), &[9], &[]));
    }

    // Payloads of other lengths are among those that break.
    cases.push(case(
        "504 bytes applied",
        apply(vec![], &[0; 504], filler(PAGE)),
        &[0, 252, 251],
        &[put(2, 0, &zeros())],
    ));
}

/// Lengths of areas, and that they come before headers and blocks.
fn area_lengths(cases: &mut Vec<Case>) {
    for patch in [0, 1, 511, 513, 1023, 1025] {
        let areas = [("absent", vec![]), ("present", full_area(0))];
        for (form, full) in areas {
            let name = format!("patch area of {patch} bytes, full area {form}");
            let area = vec![0x44; patch];
            cases.push(case(&name, format(area.clone(), full.clone()), &[2], &[]));
            cases.push(case(&name, build(area.clone(), full.clone(), vec![]), &[2], &[]));
            cases.push(case(&name, read(area.clone(), full.clone(), 0, vec![]), &[2], &[]));
            let areas = [area.clone(), full.clone()];
            cases.push(case(&name, read_mapped(areas.clone(), &[], 0, vec![]), &[2], &[]));
            cases.push(case(&name, cut(areas.clone(), 0), &[2], &[]));
            cases.push(case(&name, cut_mapped(areas.clone(), &[], 9), &[2], &[]));
            cases.push(case(&name, highest(area), &[2], &[]));
            cases.push(case(&name, sweep(areas.clone()), &[2], &[]));
            decisions_on(cases, &name, &areas, 2);
        }
    }
    for full in [1, 4095, 4097, 8192, 12_287, 12_289, 20_480] {
        let name = format!("one block and a full area of {full} bytes");
        let area = vec![0x44; full];
        // The patch header is wrong too; lengths come first.
        let patch = vec![0; 1024];
        cases.push(case(&name, format(patch.clone(), area.clone()), &[2], &[]));
        cases.push(case(&name, build(patch.clone(), area.clone(), vec![]), &[2], &[]));
        cases.push(case(&name, read(patch.clone(), area.clone(), 0, vec![]), &[2], &[]));
        let areas = [patch.clone(), area.clone()];
        cases.push(case(&name, read_mapped(areas.clone(), &[], 0, vec![]), &[2], &[]));
        cases.push(case(&name, cut(areas.clone(), 0), &[2], &[]));
        cases.push(case(&name, cut_mapped(areas.clone(), &[], 9), &[2], &[]));
        cases.push(case(&name, sweep(areas.clone()), &[2], &[]));
        decisions_on(cases, &name, &areas, 2);
    }
}

/// Decisions of each kind, and of one that there is not, on areas that are refused for themselves. The
/// payload is not sound, the block is not there and the map is too short.
fn decisions_on(cases: &mut Vec<Case>, name: &str, areas: &[Vec<u8>; 2], number: i128) {
    for kind in 0..4 {
        let decision = decision(kind, &[0], &zeros());
        let name = format!("{name}: kind {kind}");
        cases.push(case(&name, carry_out(areas.clone(), 9, &decision), &[number], &[]));
        let input = carry_out_mapped(areas.clone(), &[], 9, &decision);
        cases.push(case(&name, input, &[number], &[]));
    }
}

fn formats(cases: &mut Vec<Case>) {
    let formatted = |n, m| [put(0, 0, &patch_area(n)), put(1, 0, &full_area(m))];
    cases.push(case(
        "two blocks, one page",
        format(filler(1536), filler(12_288)),
        &[0],
        &formatted(2, 1),
    ));
    cases.push(case(
        "no block, no page, both headers",
        format(filler(512), filler(4096)),
        &[0],
        &formatted(0, 0),
    ));
    cases.push(case(
        "two blocks, full area absent",
        format(filler(1536), vec![]),
        &[0],
        &[put(0, 0, &patch_area(2))],
    ));
}

// Two blocks: EMPTY and FULL_REF, or both EMPTY over a full area with a page for block 1.

fn full_ref() -> Vec<u8> {
    with(patch_area(2), 1024, &slot(&[2]))
}

fn stored() -> Vec<u8> {
    vec![0x99; PAGE]
}

fn full() -> Vec<u8> {
    with(full_area(2), 12_288, &stored())
}

fn a_base() -> Vec<u8> {
    vec![0x42; PAGE]
}

/// The slot of block 0 is not sound.
fn broken_neighbour() -> Vec<u8> {
    with(full_ref(), 512, &slot(&[7, 7]))
}

fn reading(cases: &mut Vec<Case>) {
    let input = read(patch_area(2), full(), 1, a_base());
    let name = "EMPTY reads as its base, stray page or not";
    cases.push(case(name, input, &[0, 0], &[put(3, 0, &a_base())]));
    let input = read(patch_area(2), vec![], 1, vec![]);
    cases.push(case("EMPTY over no base reads as zeros", input, &[0, 0], &[put(3, 0, &zeros())]));
    let input = read(full_ref(), full(), 1, a_base());
    cases.push(case("FULL_REF reads as its page", input, &[0, 2], &[put(3, 0, &stored())]));
    for missing in [vec![], full_area(0), full_area(1)] {
        let name = format!("FULL_REF with a full area of {}", missing.len());
        cases.push(case(&name, read(full_ref(), missing.clone(), 1, vec![]), &[8], &[]));
        cases.push(case(&name, build(full_ref(), missing, filler(1)), &[8, 1], &[]));
    }
}

/// A block that is not there, and one whose neighbour is broken.
fn other_blocks(cases: &mut Vec<Case>) {
    let input = read(broken_neighbour(), full(), 1, vec![]);
    cases.push(case("a broken neighbour does not matter", input, &[0, 2], &[put(3, 0, &stored())]));
    let input = read(broken_neighbour(), full(), 0, vec![]);
    cases.push(case("a broken slot does", input, &[6], &[]));
    cases.push(case("block n", read(full_ref(), full(), 2, vec![]), &[5], &[]));
    for block in [1 << 55, 1 << 51, u64::MAX, u64::MAX - 511] {
        let input = read(full_ref(), full(), block, vec![]);
        cases.push(case(&format!("block {block} read"), input, &[5], &[]));
        for kind in [0, 1, 2, 3, u32::MAX] {
            let input = carry_out([full_ref(), full()], block, &decision(kind, &[0], &zeros()));
            cases.push(case(&format!("kind {kind} on block {block}"), input, &[5], &[]));
        }
    }
}

/// Where the shortcuts that give a wrong page would show.
fn shortcuts(cases: &mut Vec<Case>) {
    // The second small change keeps the first: both are compared with the base.
    let first = with(patch_area(1), 512, &patch_slot(&[0, 7]));
    let name = "a second small change";
    let second = page(&[(0, 7), (1, 8)]);
    let decision = decide(cases, name, [&[], &second], [0, 1, 4, 2, 1], &[0, 7, 0, 8]);
    cases.push(case(
        name,
        carry_out([first, vec![]], 0, &decision),
        &[0, 1, 4],
        &[put(0, 512, &patch_slot(&[0, 7, 0, 8]))],
    ));
    // Stray bytes in the place go although the old slot was not FULL_REF.
    let name = "a patch clears a stray page";
    let decision = decide(cases, name, [&[], &page(&[(0, 7)])], [0, 1, 2, 1, 0], &[0, 7]);
    cases.push(case(
        name,
        carry_out([patch_area(2), full()], 1, &decision),
        &[0, 1, 2],
        &[put(0, 1024, &patch_slot(&[0, 7])), put(1, 12_288, &zeros())],
    ));
    let name = "the base's page clears a stray page";
    let decision = decide(cases, name, [&a_base(), &a_base()], [0, 0, 0, 0, -1], &[]);
    cases.push(case(
        name,
        carry_out([patch_area(2), full()], 1, &decision),
        &[0, 0, 0],
        &[put(1, 12_288, &zeros())],
    ));
    // A shorter payload leaves no tail of a longer one.
    let long = with(patch_area(1), 512, &patch_slot(&[1; PAYLOAD]));
    cases.push(case(
        "a short patch over a long one",
        carry_out([long, vec![]], 0, &p1()),
        &[0, 1, 2],
        &[put(0, 512, &patch_slot(&[0, 7]))],
    ));
    // A broken last entry leaves the page alone.
    let input = apply(a_base(), &[0, 1, 0, 2, 0], filler(PAGE));
    cases.push(case("a broken last entry", input, &[7, 0, 0, 4], &[]));
}

/// Pages written by the pair.
fn writing(cases: &mut Vec<Case>) {
    let sixes = [6; PAGE];
    let name = "an unsound old slot is written over";
    let decision = decide(cases, name, [&[], &sixes], [0, 2, 16_384, 8_192, 8_191], &[]);
    cases.push(case(
        name,
        carry_out([broken_neighbour(), full()], 0, &decision),
        &[0, 2, 0],
        &[put(0, 512, &slot(&[2])), put(1, 4096, &sixes)],
    ));
    cases.push(case(
        "a full page again",
        carry_out([full_ref(), full()], 1, &decision),
        &[0, 2, 0],
        &[put(1, 12_288, &sixes)],
    ));
    let name = "back to the base";
    let decision = decide(cases, name, [&a_base(), &a_base()], [0, 0, 0, 0, -1], &[]);
    cases.push(case(
        name,
        carry_out([full_ref(), full()], 1, &decision),
        &[0, 0, 0],
        &[put(0, 1024, &slot(&[])), put(1, 12_288, &zeros())],
    ));
    cases.push(case(
        "a patch on a block without a place touches the slot alone",
        carry_out([full_ref(), full_area(1)], 1, &p1()),
        &[0, 1, 2],
        &[put(0, 1024, &patch_slot(&[0, 7]))],
    ));
}

/// Two blocks and two places, all of it in use: a payload of 504 bytes in each slot, a page in each place.
fn used() -> [Vec<u8>; 2] {
    let slots = patch_slot(&[1; PAYLOAD]).repeat(2);
    [with(patch_area(2), 512, &slots), with(full_area(2), 4096, &[0x90; 2 * PAGE])]
}

/// What is looked at for each kind, and what is not.
fn decisions(cases: &mut Vec<Case>) {
    let empty = [put(0, 1024, &slot(&[])), put(1, 12_288, &zeros())];
    let patch = [put(0, 1024, &patch_slot(&[0, 7])), put(1, 12_288, &zeros())];
    for length in [0, 1, 512, 8191, 8192, 8193, 16_384] {
        let page = vec![6; length];
        let name = |kind: u32| format!("kind {kind} with a page of {length} bytes");
        let by = |kind: u32| carry_out(used(), 1, &decision(kind, &[0, 7], &page));
        cases.push(case(&name(0), by(0), &[0, 0, 0], &empty));
        cases.push(case(&name(1), by(1), &[0, 1, 2], &patch));
        cases.push(case(&name(3), by(3), &[6], &[]));
        if length == PAGE {
            let full_page = [put(0, 1024, &slot(&[2])), put(1, 12_288, &page)];
            cases.push(case(&name(2), by(2), &[0, 2, 0], &full_page));
        } else {
            cases.push(case(&name(2), by(2), &[1], &[]));
        }
    }
    // 256, 257 and 258 cut to 8 bits would be 0, 1 and 2, and so on.
    for kind in [3, 4, 255, 256, 257, 258, 65_536, 65_537, 65_538, 1 << 31, (1 << 31) + 1] {
        for payload in [&[][..], &[0, 7], &[0], &[1; 1000]] {
            let name = format!("kind {kind} with a payload of {}", payload.len());
            let input = carry_out(used(), 1, &decision(kind, payload, &[6; PAGE]));
            cases.push(case(&name, input, &[6], &[]));
            let input = carry_out_mapped(used(), &[0xFF], 0, &decision(kind, payload, &[]));
            cases.push(case(&name, input, &[6], &[]));
        }
    }
    for kind in [u32::MAX, u32::MAX - 1, u32::MAX - 253] {
        let input = carry_out(used(), 0, &decision(kind, &[0, 7], &[6; PAGE]));
        cases.push(case(&format!("kind {kind}"), input, &[6], &[]));
    }
    // The longest payload.
    let input = carry_out(used(), 1, &patched(&[0; PAYLOAD], &[]));
    let puts = [put(0, 1024, &patch_slot(&[0; PAYLOAD])), put(1, 12_288, &zeros())];
    cases.push(case("504 bytes carried out", input, &[0, 1, 504], &puts));
}

/// Decisions that a caller did not mean, and that no call can tell from others.
fn traps(cases: &mut Vec<Case>) {
    // Compare's buffer lent whole: `00 07` and zeros are 252 entries, which the slot then has.
    let name = "a buffer that is lent whole";
    let changed = with(a_base(), 0, &[7]);
    let own = decide(cases, name, [&a_base(), &changed], [0, 1, 2, 1, 0], &[0, 7]);
    let whole = with(vec![0; PAYLOAD], 0, &own.payload);
    let input = carry_out([patch_area(2), vec![]], 1, &patched(&whole, &changed));
    cases.push(case(name, input, &[0, 1, 504], &[put(0, 1024, &patch_slot(&whole))]));
    let stored = with(patch_area(2), 1024, &patch_slot(&whole));
    let reads = with(with(a_base(), 0, &[0; 252]), 0, &[7]);
    let input = read(stored, vec![], 1, a_base());
    cases.push(case("251 bytes of it are lost", input, &[0, 1], &[put(3, 0, &reads)]));
    // Full of FF it is no sound payload, which is luck.
    let noise = with(vec![0xFF; PAYLOAD], 0, &own.payload);
    let input = carry_out([patch_area(2), vec![]], 1, &patched(&noise, &changed));
    cases.push(case("a whole buffer of FF", input, &[7], &[]));

    // A refused Compare has kind 0: carried out, it makes the block EMPTY.
    let name = "a refused Compare that is carried out";
    let short = &changed[1..];
    let refused = decide(cases, name, [&a_base(), short], [1, 0, 0, 0, 0], &[]);
    let puts = [put(0, 1024, &slot(&[])), put(1, 12_288, &zeros())];
    cases.push(case(name, carry_out([full_ref(), full()], 1, &refused), &[0, 0, 0], &puts));
}

/// For blocks 0 to 5: the byte of the map that a decision changes, and what it becomes for EMPTY, PATCH
/// and FULL_REF where it was 00, and where it was FF.
const KEPT: [(usize, [u8; 3], [u8; 3]); 6] = [
    (0, [0x00, 0x02, 0x01], [0xFC, 0xFE, 0xFD]),
    (0, [0x00, 0x08, 0x04], [0xF3, 0xFB, 0xF7]),
    (0, [0x00, 0x20, 0x10], [0xCF, 0xEF, 0xDF]),
    (0, [0x00, 0x80, 0x40], [0x3F, 0xBF, 0x7F]),
    (1, [0x00, 0x02, 0x01], [0xFC, 0xFE, 0xFD]),
    (1, [0x00, 0x08, 0x04], [0xF3, 0xFB, 0xF7]),
];

/// What a decision makes of a lent map: its own pair, and nothing else of it.
fn kept_maps(cases: &mut Vec<Case>) {
    let areas = || [patch_area(6), full_area(6)];
    for (block, (byte, over_00, over_ff)) in KEPT.into_iter().enumerate() {
        let (slot_at, place_at) = (512 + 512 * block, 4096 + 8192 * block);
        // A third byte, which is no block's, stays.
        for (old, new) in [(0x00, over_00), (0xFF, over_ff)] {
            let mut with_pair =
                |name: &str, decision: &Decision, answer: &[i128], new: u8, puts: Vec<Put>| {
                    let name = format!("{name} kept in block {block} over a map of {old:02X}");
                    let input = carry_out_mapped(areas(), &[old; 3], block as u64, decision);
                    let puts = [puts, vec![put(2, byte, &[new])]].concat();
                    cases.push(case(&name, input, answer, &puts));
                };
            with_pair("EMPTY", &same(&zeros()), &[0, 0, 0], new[0], vec![]);
            let slot_put = put(0, slot_at, &patch_slot(&[0, 7]));
            with_pair("PATCH", &p1(), &[0, 1, 2], new[1], vec![slot_put]);
            let puts = vec![put(0, slot_at, &[2]), put(1, place_at, &[6; PAGE])];
            with_pair("FULL_REF", &large(&[6; PAGE]), &[0, 2, 0], new[2], puts);
        }
    }
    // What was there does not matter, in the areas either.
    cases.push(case(
        "a patch over a stray page and a pair of 3",
        carry_out_mapped([patch_area(2), full()], &[0x0C], 1, &p1()),
        &[0, 1, 2],
        &[put(0, 1024, &patch_slot(&[0, 7])), put(1, 12_288, &zeros()), put(2, 0, &[0x08])],
    ));
    cases.push(case(
        "back to the base, with a map",
        carry_out_mapped([full_ref(), full()], &[0x04], 1, &same(&a_base())),
        &[0, 0, 0],
        &[put(0, 1024, &slot(&[])), put(1, 12_288, &zeros()), put(2, 0, &[0x00])],
    ));
    cases.push(case(
        "a patch on a block without a place, with a map",
        carry_out_mapped([patch_area(2), vec![]], &[0xF3], 1, &p1()),
        &[0, 1, 2],
        &[put(0, 1024, &patch_slot(&[0, 7])), put(2, 0, &[0xFB])],
    ));
    cases.push(case(
        "an unsound old slot, with a map",
        carry_out_mapped([broken_neighbour(), full()], &[0xFF], 0, &same(&[])),
        &[0, 0, 0],
        &[put(0, 512, &slot(&[])), put(2, 0, &[0xFC])],
    ));
}

/// Refused decisions, which leave the map.
fn refused_maps(cases: &mut Vec<Case>) {
    let areas = |n: usize| [patch_area(n), vec![]];
    let (empty, full_page) = (same(&zeros()), large(&[1; PAGE]));
    let short_page = large(&[1; PAGE - 1]);
    let (kind_3, unsound) = (decision(3, &[0, 7], &[1; PAGE]), patched(&[0], &zeros()));
    for map in [0x00, 0xFF, 0x2D] {
        let mut leaves = |name: &str, input: Input, number: i128| {
            cases.push(case(&format!("{name} leaves a map of {map:02X}"), input, &[number], &[]));
        };
        leaves("8", carry_out_mapped(areas(4), &[map], 3, &full_page), 8);
        leaves("7", carry_out_mapped(areas(4), &[map], 3, &unsound), 7);
        leaves("6", carry_out_mapped(areas(4), &[map], 3, &kind_3), 6);
        leaves("5", carry_out_mapped(areas(3), &[map], 3, &empty), 5);
        leaves("5 before 8", carry_out_mapped(areas(4), &[map], 4, &full_page), 5);
        leaves("5 before 7", carry_out_mapped(areas(4), &[map], 4, &unsound), 5);
        leaves("5 before 6", carry_out_mapped(areas(4), &[map], 4, &kind_3), 5);
        leaves("9", carry_out_mapped(areas(5), &[map], 0, &empty), 9);
        leaves("9 before 6", carry_out_mapped(areas(5), &[map], 0, &kind_3), 9);
        leaves("9 before 7", carry_out_mapped(areas(5), &[map], 0, &unsound), 9);
        leaves("9 before 8", carry_out_mapped(areas(5), &[map], 0, &full_page), 9);
        let bad = || with(patch_area(5), 0, &[0]);
        leaves("9 before 3", carry_out_mapped([bad(), vec![]], &[map], 9, &empty), 9);
        leaves("2 before 9", carry_out_mapped([bad(), vec![1]], &[map], 9, &empty), 2);
        let two = [bad(), vec![]];
        leaves("3 before 5", carry_out_mapped(two, &[map; 2], 9, &full_page), 3);
        leaves("1 before 9", carry_out_mapped(areas(5), &[map], 0, &short_page), 1);
        leaves("1 before 2", carry_out_mapped([bad(), vec![1]], &[map], 9, &short_page), 1);
    }
    for n in [1, 4] {
        let input = carry_out_mapped(areas(n), &[], 0, &empty);
        cases.push(case(&format!("no map for {n} blocks"), input, &[9], &[]));
    }
    let input = carry_out_mapped(areas(0), &[], 0, &empty);
    cases.push(case("n = 0 wants no map", input, &[5], &[]));
}

/// Four blocks, EMPTY, PATCH, FULL_REF and an unsound slot, and a full area with these places.
fn four(places: usize) -> [Vec<u8>; 2] {
    let patch = with(patch_area(4), 1024, &patch_slot(&[0, 7]));
    let patch = with(patch, 1536, &slot(&[2]));
    let patch = with(patch, 2048, &slot(&[3]));
    let mut full = full_area(places);
    for (block, byte) in [0x77, 0x00, 0x99, 0x33].into_iter().enumerate().take(places) {
        full[4096 + 8192 * block..][..PAGE].fill(byte);
    }
    [patch, full]
}

/// What the map says is done, whatever the slot is, but for pair 2.
fn reads_by_map(cases: &mut Vec<Case>) {
    let patched = with(a_base(), 0, &[7]);
    let by = |map: u8, block: u64| read_mapped(four(3), &[map], block, a_base());
    let pages: [(&str, u8, u64, i128, Vec<u8>); 11] = [
        ("0 over EMPTY", 0x18, 0, 0, a_base()),
        ("2 over PATCH", 0x18, 1, 1, patched.clone()),
        ("1 over FULL_REF", 0x18, 2, 2, vec![0x99; PAGE]),
        ("0 over an unsound slot", 0x18, 3, 0, a_base()),
        ("0 over PATCH", 0x00, 1, 0, a_base()),
        ("0 over FULL_REF", 0x00, 2, 0, a_base()),
        ("1 over EMPTY", 0x01, 0, 2, vec![0x77; PAGE]),
        ("1 over PATCH", 0x04, 1, 2, zeros()),
        ("2 among 3s", 0xFB, 1, 1, patched),
        ("0 among 3s", 0xFC, 0, 0, a_base()),
        ("1 among 3s", 0xDF, 2, 2, vec![0x99; PAGE]),
    ];
    for (name, map, block, kind, page) in pages {
        cases.push(case(&format!("pair {name}"), by(map, block), &[0, kind], &[put(4, 0, &page)]));
    }
    let refusals: [(&str, u8, u64, i128); 8] = [
        ("2 over EMPTY", 0x02, 0, 6),
        ("2 over FULL_REF", 0x20, 2, 6),
        ("2 over an unsound slot", 0x80, 3, 6),
        ("1 not below m, over an unsound slot", 0x40, 3, 8),
        ("3 over EMPTY", 0x03, 0, 11),
        ("3 over PATCH", 0x0C, 1, 11),
        ("3 over FULL_REF", 0x30, 2, 11),
        ("3 over an unsound slot", 0xC0, 3, 11),
    ];
    for (name, map, block, number) in refusals {
        cases.push(case(&format!("pair {name}"), by(map, block), &[number], &[]));
    }
    let input = read_mapped(four(4), &[0x40], 3, vec![]);
    let place = [put(4, 0, &[0x33; PAGE])];
    cases.push(case("pair 1 over an unsound slot with a place", input, &[0, 2], &place));
    let input = read_mapped(four(3), &[0x00], 1, vec![]);
    cases.push(case("pair 0 over no base", input, &[0, 0], &[put(4, 0, &zeros())]));
    for full in [vec![], full_area(0)] {
        let name = format!("pair 1 with a full area of {}", full.len());
        let [patch, _] = four(0);
        let input = read_mapped([patch, full], &[0x10], 2, vec![]);
        cases.push(case(&name, input, &[8], &[]));
    }
    // A payload that breaks counts for pair 2 alone.
    let broken = with(patch_area(2), 1024, &patch_slot(&[0, 7, 0]));
    let by = |pair: u8| read_mapped([broken.clone(), full()], &[pair << 2], 1, a_base());
    cases.push(case("pair 2 over a broken payload", by(2), &[7, 0, 2], &[]));
    cases.push(case("pair 0 over it", by(0), &[0, 0], &[put(4, 0, &a_base())]));
    cases.push(case("pair 1 over it", by(1), &[0, 2], &[put(4, 0, &stored())]));
    cases.push(case("pair 3 over it", by(3), &[11], &[]));
}

/// What comes before a pair, and what of a map is not looked at.
fn refused_reads_by_map(cases: &mut Vec<Case>) {
    let areas = |n: usize| [patch_area(n), vec![]];
    let bad = || [with(patch_area(5), 8, &[1]), vec![]];
    let input = read_mapped(areas(5), &[0xFF], 0, vec![]);
    cases.push(case("a map too short by one, 9 before 11", input, &[9], &[]));
    cases.push(case("9 before 4", read_mapped(bad(), &[0xFF], 9, vec![]), &[9], &[]));
    cases.push(case("4 before 5", read_mapped(bad(), &[0xFF; 2], 9, vec![]), &[4], &[]));
    let input = read_mapped(areas(3), &[0xFF], 3, vec![]);
    cases.push(case("5 before 11, block n", input, &[5], &[]));
    for block in [4, 1 << 55, u64::MAX] {
        let input = read_mapped(areas(4), &[0xFF; 9], block, vec![]);
        cases.push(case(&format!("5 before 11, block {block}"), input, &[5], &[]));
        let input = carry_out_mapped(areas(4), &[0xFF; 9], block, &same(&zeros()));
        cases.push(case(&format!("EMPTY on block {block} with a map"), input, &[5], &[]));
    }
    cases.push(case("n = 0 read by no map", read_mapped(areas(0), &[], 0, vec![]), &[5], &[]));
    let input = read_mapped(areas(3), &[0xC0, 0xFF], 2, vec![]);
    let name = "unused pairs and later bytes are not looked at";
    cases.push(case(name, input, &[0, 0], &[put(4, 0, &zeros())]));
}

/// Six blocks and five places, all in use: PATCH, FULL_REF, EMPTY over a stray page, an unsound slot, a
/// payload that breaks, and FULL_REF without a place. A cut looks at none of it.
fn six() -> [Vec<u8>; 2] {
    let slots = [
        patch_slot(&[0, 7]),
        slot(&[2]),
        slot(&[]),
        vec![0x3C; SLOT],
        patch_slot(&[0, 7, 0]),
        slot(&[2]),
    ];
    let patch = with(patch_area(6), 512, &slots.concat());
    let mut full = full_area(5);
    for block in 0..5 {
        full[4096 + 8192 * block..][..PAGE].fill(0x90 + block as u8);
    }
    [patch, full]
}

/// For K from 0 to 6: what a map of FF FF FF, and one of 59 9A 27, becomes. The last two pairs of the
/// second byte and the third byte are no block's.
const CUT_MAPS: [([u8; 2], [u8; 2]); 7] = [
    ([0x00, 0xF0], [0x00, 0x90]),
    ([0x03, 0xF0], [0x01, 0x90]),
    ([0x0F, 0xF0], [0x09, 0x90]),
    ([0x3F, 0xF0], [0x19, 0x90]),
    ([0xFF, 0xF0], [0x59, 0x90]),
    ([0xFF, 0xF3], [0x59, 0x92]),
    ([0xFF, 0xFF], [0x59, 0x9A]),
];

/// What a cut leaves: every byte below K, both headers, and of the map all that is no block's from K on.
fn cuts(cases: &mut Vec<Case>) {
    for (k, (of_ff, of_pairs)) in CUT_MAPS.into_iter().enumerate() {
        let (slots, places) = (512 + 512 * k, 4096 + 8192 * k.min(5));
        let zeros =
            [put(0, slots, &vec![0; 3584 - slots]), put(1, places, &vec![0; 45_056 - places])];
        let at = k as u64;
        cases.push(case(&format!("cut at {k}"), cut(six(), at), &[0], &zeros));
        for (map, after) in [([0xFF, 0xFF, 0xFF], of_ff), ([0x59, 0x9A, 0x27], of_pairs)] {
            let puts = [&zeros[..], &[put(2, 0, &after)]].concat();
            let input = cut_mapped(six(), &map, at);
            cases.push(case(&format!("cut at {k} with a map {map:02X?}"), input, &[0], &puts));
            let input = cut_mapped(six(), &map[..2], at);
            cases.push(case(&format!("cut at {k} with a map of two bytes"), input, &[0], &puts));
        }
        // Without a place, and without a full area.
        for full in [full_area(0), vec![]] {
            let name = format!("cut at {k}, full area of {}", full.len());
            let [patch, _] = six();
            cases.push(case(&name, cut([patch, full], at), &[0], &zeros[..1]));
        }
    }
    let input = cut_mapped([patch_area(4), vec![]], &[0xE4, 0xE4], 2);
    cases.push(case("four blocks cut at 2", input, &[0], &[put(2, 0, &[0x04])]));
    let input = cut_mapped([patch_area(1), vec![]], &[0xFF], 0);
    cases.push(case("one block cut at 0", input, &[0], &[put(2, 0, &[0xFC])]));
}

/// Refused cuts, which leave everything.
fn refused_cuts(cases: &mut Vec<Case>) {
    let bad = || with(six()[0].clone(), 8, &[1]);
    // 2^55 slots and 2^51 pages would wrap to where the first ones are.
    for k in [7, 8, 1 << 32, 1 << 51, 1 << 55, u64::MAX - 1, u64::MAX] {
        cases.push(case(&format!("cut at {k}"), cut(six(), k), &[5], &[]));
        let input = cut_mapped(six(), &[0xFF; 3], k);
        cases.push(case(&format!("cut at {k} with a map"), input, &[5], &[]));
        cases.push(case("cut: 4 before 5", cut([bad(), six()[1].clone()], k), &[4], &[]));
    }
    for k in [0, 3, 6, 7, u64::MAX] {
        for map in [&[0xFF][..], &[]] {
            let name = |what: &str| format!("cut at {k}, a map of {}: {what}", map.len());
            let [patch, full] = six();
            let input = cut_mapped([patch, full.clone()], map, k);
            cases.push(case(&name("9"), input, &[9], &[]));
            let input = cut_mapped([bad(), full.clone()], map, k);
            cases.push(case(&name("9 before 4"), input, &[9], &[]));
            let input = cut_mapped([bad(), [full, vec![0]].concat()], map, k);
            cases.push(case(&name("2 before 9"), input, &[2], &[]));
        }
    }
    for n in [1, 4] {
        let input = cut_mapped([patch_area(n), vec![]], &[], n as u64);
        cases.push(case(&format!("no map for {n} blocks, K = n"), input, &[9], &[]));
    }
    let input = cut_mapped([patch_area(5), vec![]], &[0xFF], 5);
    cases.push(case("one byte for five blocks, K = n", input, &[9], &[]));
}

/// One more than the highest block that is not EMPTY.
fn highest_blocks(cases: &mut Vec<Case>) {
    let with_slot =
        |patch: Vec<u8>, block: usize, bytes: &[u8]| with(patch, 512 + 512 * block, &slot(bytes));
    let area = || patch_area(5);
    cases.push(case("highest of five EMPTY", highest(area()), &[0, 0], &[]));
    for block in 0..5 {
        let blocks = block as i128 + 1;
        let mut of = |name: &str, patch: Vec<u8>, answer: [i128; 2]| {
            let name = format!("highest: {name} at block {block}");
            cases.push(case(&name, highest(patch), &answer, &[]));
        };
        let patched = with(area(), 512 + 512 * block, &patch_slot(&[0, 7]));
        of("PATCH", patched.clone(), [0, blocks]);
        of("FULL_REF", with_slot(area(), block, &[2]), [0, blocks]);
        let broken = with(area(), 512 + 512 * block, &patch_slot(&[9, 9, 9]));
        of("a payload that breaks", broken, [0, blocks]);
        of("kind 3", with_slot(area(), block, &[3]), [6, 0]);
        of("a stray last byte", with(area(), 512 + 512 * block + 511, &[1]), [6, 0]);
        // Beside a sound slot in use, above it and below.
        let second = (block + 2) % 5;
        let both = with_slot(patched.clone(), second, &[2]);
        of("PATCH, and one more", both, [0, blocks.max(second as i128 + 1)]);
        of("PATCH, one more unsound", with_slot(patched, second, &[1]), [6, 0]);
    }
    let [patch, _] = six();
    cases.push(case("highest: an unsound slot below", highest(patch.clone()), &[6], &[]));
    let sound = with_slot(patch, 3, &[0; SLOT]);
    cases.push(case("highest: FULL_REF without a place", highest(sound), &[0, 6], &[]));

    // The length, then the header, then the slots.
    let unsound = with_slot(area(), 2, &[3]);
    let long = [unsound.clone(), vec![0]].concat();
    cases.push(case("highest: 2 before 6", highest(long.clone()), &[2], &[]));
    cases.push(case("highest: 2 before 3", highest(with(long, 0, &[0])), &[2], &[]));
    for (at, number) in
        [(0, 3), (7, 3), (8, 4), (9, 4), (10, 3), (12, 3), (16, 3), (20, 3), (511, 3)]
    {
        let input = highest(with(unsound.clone(), at, &[0x55]));
        cases.push(case(&format!("highest: header byte {at} before 6"), input, &[number], &[]));
    }
    let input = highest(with(with(unsound, 8, &[1]), 10, &[1]));
    cases.push(case("highest: version before flags", input, &[4], &[]));
}

/// What Build makes and refuses.
fn built_maps(cases: &mut Vec<Case>) {
    let patch = with(patch_area(5), 1024, &patch_slot(&[0, 7]));
    let patch = with(patch, 512 + 512 * 4, &slot(&[2]));
    let full = with(full_area(5), 4096 + 8192 * 4, &[1; 100]);
    cases.push(case(
        "five blocks",
        build(patch.clone(), full.clone(), filler(4)),
        &[0, 0],
        &[put(2, 0, &[0b0000_1000, 0b01])],
    ));
    cases.push(case("a map too short", build(patch.clone(), full.clone(), filler(1)), &[9], &[]));
    let input = build(with(patch.clone(), 0, &[0]), full.clone(), filler(1));
    cases.push(case("a map too short before a wrong header", input, &[9], &[]));
    for at in [0, 1, 4095, 8190, 8191] {
        let stray = with(full.clone(), 4096 + 8192 * 2 + at, &[1]);
        let input = build(patch.clone(), stray, filler(2));
        cases.push(case(&format!("a stray byte {at}"), input, &[10, 2], &[]));
    }
    let stray = with(full.clone(), 4096 + 8192, &[1]);
    let input = build(patch.clone(), stray, filler(2));
    cases.push(case("a stray byte under a patch", input, &[10, 1], &[]));
}

/// The first block at fault decides, then 6, 8, 7, 10 within it.
fn first_faults(cases: &mut Vec<Case>) {
    let bad_slot_1 = with(patch_area(2), 1024, &slot(&[3]));
    let stray_0 = with(full_area(2), 4096, &[1]);
    let stray_1 = with(full_area(2), 12_288, &[1]);
    let input = build(bad_slot_1.clone(), stray_0, filler(1));
    cases.push(case("10 at block 0 before 6 at block 1", input, &[10, 0], &[]));
    let input = build(bad_slot_1, stray_1.clone(), filler(1));
    cases.push(case("6 before 10 at one block", input, &[6, 1], &[]));
    let bad_payload_1 = with(patch_area(2), 1024, &patch_slot(&[0, 7, 0]));
    let input = build(bad_payload_1.clone(), stray_1, filler(1));
    cases.push(case("7 before 10 at one block", input, &[7, 1, 2], &[]));
    let both = with(bad_payload_1.clone(), 512, &patch_slot(&[0, 7, 0, 8, 0]));
    let input = build(both, vec![], filler(1));
    cases.push(case("7 at block 0 before 7 at block 1", input, &[7, 0, 4], &[]));
    let missing_0 = with(bad_payload_1, 512, &slot(&[2]));
    let input = build(missing_0, vec![], filler(1));
    cases.push(case("8 at block 0 before 7 at block 1", input, &[8, 0], &[]));
}

fn look_ups(cases: &mut Vec<Case>) {
    let map = [0b1110_0100]; // pairs 0, 1, 2, 3
    for (block, answer) in [(0, [0, 0]), (1, [0, 1]), (2, [0, 2]), (3, [11, 0]), (4, [5, 0])] {
        cases.push(case(&format!("pair {block}"), look_up(&map, 4, block), &answer, &[]));
    }
    cases.push(case("an unused pair of 3", look_up(&map, 3, 2), &[0, 2], &[]));
    cases.push(case("block n is 5, not 11", look_up(&map, 3, 3), &[5], &[]));
    cases.push(case("an empty map and block n", look_up(&[], 5, 5), &[9], &[]));
    cases.push(case("a map too short for n", look_up(&[0], 5, 0), &[9], &[]));
    cases.push(case("n over 131,072, empty map", look_up(&[], 131_073, 0), &[2], &[]));
    cases.push(case("n of 2^64 - 1", look_up(&[], u64::MAX, 0), &[2], &[]));
    cases.push(case("n = 0", look_up(&[], 0, 0), &[5], &[]));
    cases.push(case("n = 131,072", look_up(&[0x55; 32_768], 131_072, 131_071), &[0, 1], &[]));
}

fn tallies(cases: &mut Vec<Case>) {
    // Document 01's table: PATCH pairs plus 8 times full pairs, or 255 where some pair is 3.
    let file = include_str!("../../../tests/tally_table.inc");
    let (_, table) = file.split_once("*/").expect("a comment first");
    let entries = table.split(',').map(str::trim).filter(|entry| !entry.is_empty());
    let entries: Vec<i128> = entries.map(|entry| entry.parse().expect("a number")).collect();
    assert_eq!(entries.len(), 256);
    for (byte, entry) in (0..=255).zip(entries) {
        let answer = if entry == 255 { [11, 0, 0] } else { [0, entry % 8, entry / 8] };
        cases.push(case(&format!("tally of {byte:02X}"), tally(&[byte], 4), &answer, &[]));
    }
    cases.push(case("tally of nothing", tally(&[], 0), &[0, 0, 0], &[]));
    cases.push(case("tally of nothing in a longer map", tally(&[0xFF], 0), &[0, 0, 0], &[]));
    cases.push(case("later bytes", tally(&[0x09, 0xFF], 4), &[0, 1, 1], &[]));
    for (pair, byte) in [(1, 0x10), (2, 0x20), (3, 0x30)] {
        let name = format!("an unused pair of {pair}");
        cases.push(case(&name, tally(&[byte | 0x09], 2), &[11], &[]));
    }
    cases.push(case("3 as the last pair", tally(&[0xAA, 0x03], 5), &[11], &[]));
    cases.push(case("one byte too short", tally(&[0xFF], 5), &[9], &[]));
    cases.push(case("tally of 131,073", tally(&[], 131_073), &[2], &[]));
    let input = tally(&[0xAA; 32_768], 131_072);
    cases.push(case("tally of 131,072 patches", input, &[0, 131_072, 0], &[]));
    let input = tally(&[0x55; 32_768], 131_072);
    cases.push(case("tally of 131,072 full pages", input, &[0, 0, 131_072], &[]));
}

/// Several faults at once: the order line of the rules.
fn orders(cases: &mut Vec<Case>) {
    let broken = with(patch_area(1), 512, &slot(&[9]));
    let bad_header = with(broken.clone(), 0, &[0]);
    let short = filler(PAGE - 1);
    let input = Input::new(Call::Read, vec![vec![], vec![1], vec![1], short]).at_block(9);
    cases.push(case("read: 1 before 2", input, &[1], &[]));
    cases.push(case("read: 2 before 3", read(bad_header.clone(), vec![1], 9, vec![]), &[2], &[]));
    cases.push(case("read: 3 before 5", read(bad_header.clone(), vec![], 9, vec![]), &[3], &[]));
    cases.push(case("read: 5 before 6", read(broken.clone(), vec![], 1, vec![]), &[5], &[]));
    cases.push(case("read: 6", read(broken.clone(), vec![], 0, vec![]), &[6], &[]));
    let of_kind = |kind: u32| decision(kind, &[0], &[1; PAGE]);
    for (kind, last) in [(1, 7), (2, 8), (3, 6)] {
        let mut refused = |name: &str, patch: &[u8], full: &[u8], block: u64, number: i128| {
            let input = carry_out([patch.to_vec(), full.to_vec()], block, &of_kind(kind));
            let name = format!("kind {kind} carried out: {name}");
            cases.push(case(&name, input, &[number], &[]));
        };
        refused("2 before 3", &bad_header, &[1], 9, 2);
        refused("3 before 5", &bad_header, &[], 9, 3);
        refused("5 before what is decided", &broken, &[], 1, 5);
        refused("what is decided, and the old slot is no fault", &broken, &[], 0, last);
    }
    let input = carry_out([bad_header.clone(), vec![1]], 9, &large(&[1; PAGE - 1]));
    cases.push(case("a full page carried out: 1 before 2", input, &[1], &[]));
    let input = carry_out([bad_header.clone(), vec![1]], 9, &patched(&[0], &[1; PAGE - 1]));
    cases.push(case("a patch carried out: 2, and never 1", input, &[2], &[]));
    let input = build(bad_header, vec![1], vec![]);
    cases.push(case("build: 2 before 9", input, &[2], &[]));
    cases.push(case("compare: 1 before 9", compare(vec![1], zeros(), vec![]), &[1], &[]));
    cases.push(case("apply: 1 before 7", apply(vec![1], &[], filler(PAGE)), &[1], &[]));
}

/// All cases.
pub fn all() -> Vec<Case> {
    let mut cases = Vec::new();
    examples(&mut cases);
    more_examples(&mut cases);
    long_jumps(&mut cases);
    breaks(&mut cases);
    steps(&mut cases);
    stream_edges(&mut cases);
    spread_edges(&mut cases);
    no_blocks(&mut cases);
    slots(&mut cases);
    headers(&mut cases);
    show_cases(&mut cases);
    page_lengths(&mut cases);
    payload_lengths(&mut cases);
    area_lengths(&mut cases);
    formats(&mut cases);
    reading(&mut cases);
    other_blocks(&mut cases);
    shortcuts(&mut cases);
    writing(&mut cases);
    decisions(&mut cases);
    traps(&mut cases);
    kept_maps(&mut cases);
    refused_maps(&mut cases);
    reads_by_map(&mut cases);
    refused_reads_by_map(&mut cases);
    cuts(&mut cases);
    refused_cuts(&mut cases);
    highest_blocks(&mut cases);
    stops::stops(&mut cases);
    stops::reads_after_stops(&mut cases);
    stops::sweeps(&mut cases);
    stops::sweeps_of_bytes(&mut cases);
    stops::refused_sweeps(&mut cases);
    built_maps(&mut cases);
    first_faults(&mut cases);
    look_ups(&mut cases);
    tallies(&mut cases);
    orders(&mut cases);
    stops::refused_whatever_is_told(&mut cases);
    cases
}
