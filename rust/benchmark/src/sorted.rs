//! What is kept of the pages of a set: by us, and by a peer.

use thonxiliko::{compare, Difference, PAGE_SIZE, PAYLOAD_SIZE, SLOT_SIZE};

use crate::peers::{Peer, ROOM};
use crate::sets::Set;

/// The pairs of a set by what Compare makes of them.
pub struct Sorted<'s> {
    pub set: &'s Set,
    pub equal: Vec<usize>,
    pub changed: Vec<usize>,
    /// The changed ones that fit a slot, the payload of each, and the entries of all payloads.
    pub patched: Vec<usize>,
    pub payloads: Vec<Vec<u8>>,
    pub entries: usize,
    /// What is kept of each changed one: its payload, or its page.
    pub kept: Vec<Vec<u8>>,
}

impl<'s> Sorted<'s> {
    pub fn of(set: &'s Set) -> Result<Sorted<'s>, String> {
        let (equal, changed, patched) = (Vec::new(), Vec::new(), Vec::new());
        let (payloads, kept) = (Vec::new(), Vec::new());
        let mut sorted = Sorted { set, equal, changed, patched, payloads, entries: 0, kept };
        for at in 0..set.pages.len() {
            sorted.sort(at).map_err(|what| format!("{}, pair {at}: {what}", set.name))?;
        }
        Ok(sorted)
    }

    fn sort(&mut self, at: usize) -> Result<(), String> {
        let (base, page) = self.set.pair(at);
        let mut buffer = [0; PAYLOAD_SIZE];
        let made = compare(base, page, &mut buffer).map_err(|refusal| refusal.to_string())?;
        let (compared, payload) = (made.compared(), made.payload());
        check(base, page, compared.difference, payload)?;
        match compared.difference {
            Difference::Same => {
                self.equal.push(at);
                return Ok(());
            }
            Difference::Patch => {
                self.patched.push(at);
                self.payloads.push(payload.to_vec());
                self.entries += compared.entries;
                self.kept.push(payload.to_vec());
            }
            Difference::Large => self.kept.push(page.to_vec()),
        }
        self.changed.push(at);
        Ok(())
    }

    /// How many pages are kept whole.
    pub fn full(&self) -> usize {
        self.changed.len() - self.patched.len()
    }

    /// Bytes that the layout keeps of a changed page: its slot, and the page where it is kept whole.
    pub fn bytes_kept(&self) -> f64 {
        let bytes = SLOT_SIZE * self.changed.len() + PAGE_SIZE * self.full();
        bytes as f64 / self.changed.len() as f64
    }
}

/// Compare's answer is plain Rust's, and its payload gives the page back.
fn check(base: &[u8], page: &[u8], difference: Difference, payload: &[u8]) -> Result<(), String> {
    let mut plain = [0; PAYLOAD_SIZE];
    let kind = independent::compare(base, page, &mut plain).kind;
    if kind != difference.number() || plain[..payload.len()] != *payload {
        return Err("plain Rust decides otherwise".to_string());
    }
    let mut again = [0; PAGE_SIZE];
    let patch = difference == Difference::Patch;
    if patch && (thonxiliko::apply(base, payload, &mut again).is_err() || again != page) {
        return Err("its payload does not give the page".to_string());
    }
    Ok(())
}

/// What a peer keeps of each changed page: the delta, or the page where the delta is no shorter. Each delta
/// must give its page.
pub fn kept_by(peer: &mut dyn Peer, sorted: &Sorted) -> Result<Vec<Vec<u8>>, String> {
    let mut buffer = vec![0; ROOM];
    let mut kept = Vec::new();
    for at in &sorted.changed {
        let (base, page) = sorted.set.pair(*at);
        let mut again = [0; PAGE_SIZE];
        match peer.encode(base, page, &mut buffer).map(|length| &buffer[..length]) {
            Some(delta) if peer.decode(base, delta, &mut again) && again == page => {
                kept.push(if delta.len() < PAGE_SIZE { delta } else { page }.to_vec());
            }
            _ => return Err(format!("{}, pair {at}: lost by {}", sorted.set.name, peer.name())),
        }
    }
    Ok(kept)
}

#[cfg(test)]
mod tests {
    use super::*;
    use crate::sets::Page;

    /// Pages of zeros that differ from their bases in so many bytes.
    fn set(differences: &[usize]) -> Set {
        let page = |count: &usize| {
            let mut page = Page::zeros();
            page.bytes_mut()[..*count].fill(5);
            page
        };
        let bases = vec![Page::zeros(); differences.len()];
        Set { name: "made".to_string(), bases, pages: differences.iter().map(page).collect() }
    }

    #[test]
    fn pairs_are_sorted_by_what_is_kept() {
        let set = set(&[0, 1, 252, 253, 0]);
        let sorted = Sorted::of(&set).expect("a set");
        assert_eq!((sorted.equal, sorted.changed.clone()), (vec![0, 4], vec![1, 2, 3]));
        assert_eq!((&sorted.patched, sorted.entries), (&vec![1, 2], 253));
        assert_eq!(sorted.payloads[0], [0, 5]);
        let lengths: Vec<usize> = sorted.kept.iter().map(Vec::len).collect();
        assert_eq!(lengths, [2, 504, PAGE_SIZE]);
    }

    #[test]
    fn a_patch_takes_a_slot_and_a_full_page_a_slot_and_the_page() {
        for (differences, bytes) in
            [(vec![1, 0], 512.0), (vec![300], 8_704.0), (vec![1, 300], 4_608.0)]
        {
            assert_eq!(Sorted::of(&set(&differences)).expect("a set").bytes_kept(), bytes);
        }
    }

    /// Keeps a page as it is, with something after it, and gives it back but for what it loses.
    struct Whole {
        more: usize,
        loses: usize,
    }

    impl Peer for Whole {
        fn name(&self) -> &'static str {
            "whole"
        }

        fn encode(&mut self, _: &[u8], page: &[u8], delta: &mut [u8]) -> Option<usize> {
            delta[..PAGE_SIZE].copy_from_slice(page);
            Some(PAGE_SIZE + self.more)
        }

        fn decode(&mut self, _: &[u8], delta: &[u8], page: &mut [u8]) -> bool {
            page[self.loses..].copy_from_slice(&delta[self.loses..PAGE_SIZE]);
            true
        }
    }

    #[test]
    fn a_delta_that_is_no_shorter_is_kept_as_the_page() {
        let set = set(&[0, 1]);
        let sorted = Sorted::of(&set).expect("a set");
        let kept = kept_by(&mut Whole { more: 9, loses: 0 }, &sorted).expect("all pages");
        assert_eq!(kept, [set.pages[1].bytes()]);
    }

    #[test]
    fn a_peer_that_loses_a_byte_is_refused_by_name() {
        let set = set(&[0, 1]);
        let sorted = Sorted::of(&set).expect("a set");
        let refused = kept_by(&mut Whole { more: 0, loses: 1 }, &sorted).expect_err("refused");
        assert_eq!(refused, "made, pair 1: lost by whole");
    }
}
