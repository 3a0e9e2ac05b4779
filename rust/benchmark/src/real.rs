//! Real pages: Compare and Apply against their limits and plain Rust, and what a user could pick instead.

use std::path::Path;

use benchmark::peers::{self, Peer, ROOM};
use benchmark::sets::{self, Page, Set};
use benchmark::sorted::{kept_by, Sorted};
use thonxiliko::{compare, PAGE_SIZE, PAYLOAD_SIZE};

use crate::limits::{self, opaque};
use crate::timing::Times;
use crate::turns::{least_times, Least, Row, Runner};
use crate::{cells, HEAD};

const METHOD: &str = "\
Times are in nanoseconds a page. All pages of a set are visited in turn, each once in a pass, so that none
is known by heart; a time is that of the least of several whole passes, by the number of pages. Pages are
fetched before they are timed, two pairs at a go, and with these the contenders take turns: the library,
its limits, plain Rust, and the peers. What the clock itself takes is taken off. \"limits\" is memcmp of the
same bases with their like for Compare, memcpy of them for Apply, \"plain Rust\" the independent implementation.
";

const KEPT: &str = "\
Encode is Compare, or the peer's delta made into a buffer; decode is Apply, or the page made again from base
and delta; a page that is kept whole is copied. Kept are a slot of 512 bytes for a patch and 8,192 bytes more
for a full page, as the layout has it; of a peer the delta's bytes alone, or 8,192 where it is no shorter.
";

const UNREST: &str = "\
The least pass of a contender by the sum of the least times of its batches says how much other work it met: the
more, the slower those look that take long. The most of all contenders is";

const CALLS: [&str; 3] = ["Compare, changed pages", "Compare, equal pages", "Apply, PATCH pages"];

/// With fewer pages than this a processor may know them all by heart.
const FEW: usize = 256;

fn row<'s>(pages: &'s [Page], wanted: &[usize]) -> Row<'s> {
    wanted.iter().map(|at| pages[*at].bytes()).collect()
}

fn slices(kept: &[Vec<u8>]) -> Row<'_> {
    kept.iter().map(Vec::as_slice).collect()
}

fn bases<'s>(sorted: &Sorted<'s>, wanted: &[usize]) -> Row<'s> {
    row(&sorted.set.bases, wanted)
}

fn pages<'s>(sorted: &Sorted<'s>, wanted: &[usize]) -> Row<'s> {
    row(&sorted.set.pages, wanted)
}

fn mean_bytes(kept: &[Vec<u8>]) -> f64 {
    kept.iter().map(Vec::len).sum::<usize>() as f64 / kept.len() as f64
}

/// Compare, memcmp and plain Rust. memcmp looks at all of a page only where it meets its like.
fn compare_runners<'r>(
    bases: &'r Row<'r>,
    pages: &'r Row<'r>,
    likes: &'r Row<'r>,
) -> Vec<Runner<'r>> {
    let [mut payload, mut plain] = [vec![0; PAYLOAD_SIZE], vec![0; PAYLOAD_SIZE]];
    vec![
        Runner::new([bases, pages], move |[base, page]| {
            let _ = opaque(compare(base, page, &mut payload));
        }),
        Runner::new([bases, likes], |[base, like]| limits::compare(base, like)),
        Runner::new([bases, pages], move |[base, page]| {
            opaque(independent::compare(base, page, &mut plain));
        }),
    ]
}

/// Apply, memcpy and plain Rust.
fn apply_runners<'r>(bases: &'r Row<'r>, payloads: &'r Row<'r>) -> Vec<Runner<'r>> {
    let [mut page, mut copy, mut plain] = [Page::zeros(), Page::zeros(), Page::zeros()];
    vec![
        Runner::new([bases, payloads], move |[base, payload]| {
            let _ = opaque(thonxiliko::apply(base, payload, page.bytes_mut()));
        }),
        Runner::new([bases], move |[base]| limits::copy(copy.bytes_mut(), base)),
        Runner::new([bases, payloads], move |[base, payload]| {
            opaque(independent::apply(base, payload, plain.bytes_mut()));
        }),
    ]
}

fn encoder<'r>(peer: &'r mut dyn Peer, bases: &'r Row<'r>, pages: &'r Row<'r>) -> Runner<'r> {
    let mut delta = vec![0; ROOM];
    Runner::new([bases, pages], move |[base, page]| {
        opaque(peer.encode(base, page, &mut delta));
    })
}

/// Makes each page from its base and what is kept, or copies it where it is kept whole.
fn decoder<'r>(
    bases: &'r Row<'r>,
    kept: &'r Row<'r>,
    mut decode: impl FnMut(&[u8], &[u8], &mut [u8]) + 'r,
) -> Runner<'r> {
    let mut page = Page::zeros();
    Runner::new([bases, kept], move |[base, kept]| match kept.len() {
        PAGE_SIZE => limits::copy(page.bytes_mut(), kept),
        _ => decode(base, kept, page.bytes_mut()),
    })
}

struct CallRow {
    call: &'static str,
    set: String,
    pages: usize,
    times: Times,
}

/// One way to keep the changed pages of a set.
struct KeptRow {
    set: String,
    by: &'static str,
    encode: f64,
    decode: f64,
    bytes: f64,
}

#[derive(Default)]
struct Measured {
    calls: Vec<CallRow>,
    kept: Vec<KeptRow>,
    /// The most that was met.
    unrest: f64,
}

impl Measured {
    fn of(sorted: &[Sorted]) -> Result<Measured, String> {
        let mut measured = Measured::default();
        for sorted in sorted {
            measured.changed_pages(sorted)?;
            measured.equal_pages(sorted);
            measured.patches(sorted);
        }
        // One call after the other, the sets in their order.
        measured.calls.sort_by_key(|row| CALLS.iter().position(|call| *call == row.call));
        Ok(measured)
    }

    fn least_times(&mut self, runners: Vec<Runner>) -> Vec<f64> {
        let Least { times, unrest } = least_times(runners);
        self.unrest = self.unrest.max(unrest);
        times
    }

    fn call(&mut self, call: &'static str, sorted: &Sorted, pages: usize, least: &[f64]) {
        let times = Times { library: least[0], limits: least[1], independent: least[2] };
        self.calls.push(CallRow { call, set: sorted.set.name.clone(), pages, times });
    }

    fn equal_pages(&mut self, sorted: &Sorted) {
        if !sorted.equal.is_empty() {
            let (bases, pages) = (bases(sorted, &sorted.equal), pages(sorted, &sorted.equal));
            let least = self.least_times(compare_runners(&bases, &pages, &pages));
            self.call(CALLS[1], sorted, sorted.equal.len(), &least);
        }
    }

    fn patches(&mut self, sorted: &Sorted) {
        if !sorted.patched.is_empty() {
            let (bases, payloads) = (bases(sorted, &sorted.patched), slices(&sorted.payloads));
            let least = self.least_times(apply_runners(&bases, &payloads));
            self.call(CALLS[2], sorted, sorted.patched.len(), &least);
        }
    }

    /// Compare and each peer's encoding in the same passes, then each decoding.
    fn changed_pages(&mut self, sorted: &Sorted) -> Result<(), String> {
        if sorted.changed.is_empty() {
            return Ok(());
        }
        let mut peers = peers::all();
        let kept = peers.iter_mut().map(|peer| kept_by(peer.as_mut(), sorted));
        let kept = kept.collect::<Result<Vec<_>, String>>()?;
        let encode = self.encode(sorted, &mut peers);
        let decode = self.decode(sorted, &mut peers, &kept);
        let mut ways = vec![("ours", sorted.bytes_kept())];
        ways.extend(peers.iter().zip(&kept).map(|(peer, kept)| (peer.name(), mean_bytes(kept))));
        for (((by, bytes), encode), decode) in ways.into_iter().zip(encode).zip(decode) {
            let set = sorted.set.name.clone();
            self.kept.push(KeptRow { set, by, encode, decode, bytes });
        }
        Ok(())
    }

    /// Times of Compare and of each peer.
    fn encode(&mut self, sorted: &Sorted, peers: &mut [Box<dyn Peer>]) -> Vec<f64> {
        let (bases, pages) = (bases(sorted, &sorted.changed), pages(sorted, &sorted.changed));
        let likes = sorted.set.bases.clone();
        let likes = row(&likes, &sorted.changed);
        let mut runners = compare_runners(&bases, &pages, &likes);
        runners.extend(peers.iter_mut().map(|peer| encoder(peer.as_mut(), &bases, &pages)));
        let mut least = self.least_times(runners);
        self.call(CALLS[0], sorted, sorted.changed.len(), &least);
        // memcmp and plain Rust keep nothing.
        least.drain(1..3);
        least
    }

    /// Times of our decoding and of each peer's.
    fn decode(
        &mut self,
        sorted: &Sorted,
        peers: &mut [Box<dyn Peer>],
        kept: &[Vec<Vec<u8>>],
    ) -> Vec<f64> {
        let bases = bases(sorted, &sorted.changed);
        let ours = slices(&sorted.kept);
        let theirs: Vec<Row> = kept.iter().map(|kept| slices(kept)).collect();
        let apply = |base: &[u8], payload: &[u8], page: &mut [u8]| {
            let _ = opaque(thonxiliko::apply(base, payload, page));
        };
        let mut runners = vec![decoder(&bases, &ours, apply)];
        for (peer, kept) in peers.iter_mut().zip(&theirs) {
            let decode = move |base: &[u8], delta: &[u8], page: &mut [u8]| {
                opaque(peer.decode(base, delta, page));
            };
            runners.push(decoder(&bases, kept, decode));
        }
        self.least_times(runners)
    }
}

fn print_sets(sorted: &[Sorted]) {
    println!("| Set | pairs | equal | PATCH | full | entries a PATCH |");
    println!("|---|--:|--:|--:|--:|--:|");
    for sorted in sorted {
        let pairs = sorted.set.pages.len();
        let share = |count: usize| 100.0 * count as f64 / pairs as f64;
        let (equal, patched) = (sorted.equal.len(), sorted.patched.len());
        let shares = [equal, patched, sorted.full()].map(|count| format!("{:.1} %", share(count)));
        let entries = sorted.entries as f64 / patched.max(1) as f64;
        println!("| {} | {pairs} | {} | {entries:.0} |", sorted.set.name, shares.join(" | "));
    }
    for sorted in sorted.iter().filter(|sorted| sorted.changed.len() < FEW) {
        let (name, changed) = (&sorted.set.name, sorted.changed.len());
        println!(
            "\nOf {name} only {changed} pages are changed: a processor may know them by heart."
        );
    }
}

fn print_calls(rows: &[CallRow]) {
    println!("| Call | Set | pages | {HEAD}");
    println!("|---|---|--:|--:|--:|--:|---|--:|--:|");
    for CallRow { call, set, pages, times } in rows {
        println!("| {call} | {set} | {pages} | {}", cells(times));
    }
}

fn print_kept(rows: &[KeptRow]) {
    println!("| Set | Kept by | encode | decode | bytes a page | encode / ours | decode / ours | bytes / ours |");
    println!("|---|---|--:|--:|--:|--:|--:|--:|");
    let mut ours = (0.0, 0.0, 0.0);
    for KeptRow { set, by, encode, decode, bytes } in rows {
        // Ours comes first in each set.
        if *by == "ours" {
            ours = (*encode, *decode, *bytes);
        }
        println!(
            "| {set} | {by} | {encode:.0} | {decode:.0} | {bytes:.0} | {:.2} | {:.2} | {:.2} |",
            encode / ours.0,
            decode / ours.1,
            bytes / ours.2
        );
    }
    for package in peers::missing() {
        println!("\nThe peers of {package} are missing: it is not installed.");
    }
}

/// Measures the shipped pages, and the sets of a folder.
pub fn print(folder: Option<&Path>) -> Result<(), String> {
    let mut sets = vec![Set::shipped()?];
    if let Some(folder) = folder {
        sets.extend(sets::of_folder(folder)?);
    }
    let sorted = sets.iter().map(Sorted::of).collect::<Result<Vec<Sorted>, String>>()?;
    println!("### The sets of pages\n");
    print_sets(&sorted);
    let measured = Measured::of(&sorted)?;
    println!("\n### Calls on real pages\n\n{METHOD}");
    print_calls(&measured.calls);
    println!("\n### What a user could pick instead, on the changed pages\n\n{KEPT}");
    print_kept(&measured.kept);
    println!("\n{UNREST} {:.2} here.", measured.unrest);
    Ok(())
}
