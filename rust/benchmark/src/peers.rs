//! What a user could pick instead: the delta of a page over its base by libraries that Debian has. Each is
//! built where its header is installed (`build.rs`). xdelta3 is none: Debian has it as a program only.

#[cfg(feature = "lz4")]
mod lz4;
#[cfg(feature = "zstd")]
mod zstd;

use thonxiliko::PAGE_SIZE;

/// Bytes of the buffer for a delta: more than any of these libraries makes of a page.
pub const ROOM: usize = 2 * PAGE_SIZE;

/// A way to keep a page as a delta over its base.
pub trait Peer {
    fn name(&self) -> &'static str;

    /// Makes the delta, and gives its bytes; none where the library fails.
    fn encode(&mut self, base: &[u8], page: &[u8], delta: &mut [u8]) -> Option<usize>;

    /// Makes the page again; false where the library fails or the page is not filled.
    fn decode(&mut self, base: &[u8], delta: &[u8], page: &mut [u8]) -> bool;
}

/// Those that were built.
#[allow(clippy::vec_init_then_push)] // which ones is known to the compiler only
pub fn all() -> Vec<Box<dyn Peer>> {
    #[allow(unused_mut)]
    let mut peers: Vec<Box<dyn Peer>> = Vec::new();
    #[cfg(feature = "lz4")]
    peers.push(Box::new(lz4::WithBase::new()));
    #[cfg(feature = "lz4")]
    peers.push(Box::new(lz4::OfXor::new()));
    #[cfg(feature = "zstd")]
    peers.push(Box::new(zstd::WithBase::new()));
    peers
}

/// The packages of those that were not.
pub fn missing() -> Vec<&'static str> {
    let all = [("liblz4-dev", cfg!(feature = "lz4")), ("libzstd-dev", cfg!(feature = "zstd"))];
    all.iter().filter(|(_, built)| !built).map(|(package, _)| *package).collect()
}

#[cfg(test)]
mod tests {
    use super::*;
    use differential::rng::Rng;

    /// A page over a base of its own: with few bytes changed, with many, or with all.
    fn drawn(number: u64) -> (Vec<u8>, Vec<u8>) {
        let mut rng = Rng::for_case(37, "peers", number);
        let base = rng.bytes(PAGE_SIZE);
        let mut page = base.clone();
        match number % 3 {
            0 => page = rng.bytes(PAGE_SIZE),
            density => {
                for _ in 0..rng.between(0, 300 * density as usize) {
                    page[rng.below(PAGE_SIZE)] = rng.byte();
                }
            }
        }
        (base, page)
    }

    #[test]
    fn every_peer_gives_the_page_back() {
        let mut delta = vec![0; ROOM];
        for peer in &mut all() {
            for (base, page) in (0..60).map(drawn) {
                let length = peer.encode(&base, &page, &mut delta).expect("a delta");
                let mut again = vec![0; PAGE_SIZE];
                assert!(peer.decode(&base, &delta[..length], &mut again), "{}", peer.name());
                assert!(again == page, "{}", peer.name());
            }
        }
    }

    /// The base counts: the delta of a page of noise over itself is short.
    #[test]
    fn every_peer_uses_the_base() {
        // In memory of its own: a prefix over which the page itself lies is none.
        let (base, page) = (Rng::new(41).bytes(PAGE_SIZE), Rng::new(41).bytes(PAGE_SIZE));
        for peer in &mut all() {
            let length = peer.encode(&base, &page, &mut [0; ROOM]).expect("a delta");
            assert!(length < 100, "{}: {length}", peer.name());
        }
    }

    #[test]
    fn a_delta_cut_short_is_noticed() {
        for peer in &mut all() {
            let (base, page) = drawn(2);
            let mut delta = vec![0; ROOM];
            let length = peer.encode(&base, &page, &mut delta).expect("a delta");
            let mut again = vec![0; PAGE_SIZE];
            assert!(!peer.decode(&base, &delta[..length - 1], &mut again), "{}", peer.name());
        }
    }

    #[test]
    fn a_peer_is_built_or_said_to_be_missing() {
        assert_eq!(all().len() == 3, missing().is_empty());
        assert_eq!(all().is_empty(), missing().len() == 2);
    }
}
