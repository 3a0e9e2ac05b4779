//! SHA-256, as FIPS 180-4 has it. `sha256sum` gives the same.

use std::fmt;

/// The bytes that are taken in at a go.
const BLOCK: usize = 64;

/// The first 32 bits behind the point of the cube roots of the first 64 primes.
const ROUNDS: [u32; 64] = [
    0x428a2f98, 0x71374491, 0xb5c0fbcf, 0xe9b5dba5, 0x3956c25b, 0x59f111f1, 0x923f82a4, 0xab1c5ed5,
    0xd807aa98, 0x12835b01, 0x243185be, 0x550c7dc3, 0x72be5d74, 0x80deb1fe, 0x9bdc06a7, 0xc19bf174,
    0xe49b69c1, 0xefbe4786, 0x0fc19dc6, 0x240ca1cc, 0x2de92c6f, 0x4a7484aa, 0x5cb0a9dc, 0x76f988da,
    0x983e5152, 0xa831c66d, 0xb00327c8, 0xbf597fc7, 0xc6e00bf3, 0xd5a79147, 0x06ca6351, 0x14292967,
    0x27b70a85, 0x2e1b2138, 0x4d2c6dfc, 0x53380d13, 0x650a7354, 0x766a0abb, 0x81c2c92e, 0x92722c85,
    0xa2bfe8a1, 0xa81a664b, 0xc24b8b70, 0xc76c51a3, 0xd192e819, 0xd6990624, 0xf40e3585, 0x106aa070,
    0x19a4c116, 0x1e376c08, 0x2748774c, 0x34b0bcb5, 0x391c0cb3, 0x4ed8aa4a, 0x5b9cca4f, 0x682e6ff3,
    0x748f82ee, 0x78a5636f, 0x84c87814, 0x8cc70208, 0x90befffa, 0xa4506ceb, 0xbef9a3f7, 0xc67178f2,
];

/// The same of the square roots of the first 8 primes.
const START: [u32; 8] = [
    0x6a09e667, 0xbb67ae85, 0x3c6ef372, 0xa54ff53a, 0x510e527f, 0x9b05688c, 0x1f83d9ab, 0x5be0cd19,
];

/// What comes out.
#[derive(Clone, Copy, Debug, PartialEq, Eq)]
pub struct Digest([u8; 32]);

impl Digest {
    /// Of bytes that are there as a whole.
    pub fn of(bytes: &[u8]) -> Digest {
        let mut sum = Sha256::new();
        sum.take(bytes);
        sum.digest()
    }

    /// Takes 64 small hexadecimal digits, and no other spelling.
    pub fn from_hex(text: &str) -> Option<Digest> {
        let mut bytes = [0; 32];
        let sound = |byte: u8| matches!(byte, b'0'..=b'9' | b'a'..=b'f');
        if text.len() != 64 || !text.bytes().all(sound) {
            return None;
        }
        for (at, byte) in bytes.iter_mut().enumerate() {
            *byte = u8::from_str_radix(&text[2 * at..2 * at + 2], 16).ok()?;
        }
        Some(Digest(bytes))
    }
}

impl fmt::Display for Digest {
    fn fmt(&self, f: &mut fmt::Formatter<'_>) -> fmt::Result {
        self.0.iter().try_for_each(|byte| write!(f, "{byte:02x}"))
    }
}

/// A sum that is being made, of bytes that come piece by piece.
pub struct Sha256 {
    state: [u32; 8],
    /// What came since the last whole block.
    rest: [u8; BLOCK],
    length: u64,
}

impl Sha256 {
    pub fn new() -> Sha256 {
        Sha256 { state: START, rest: [0; BLOCK], length: 0 }
    }

    /// Takes more bytes in. Whole blocks are not copied.
    pub fn take(&mut self, mut bytes: &[u8]) {
        let held = (self.length % BLOCK as u64) as usize;
        self.length += bytes.len() as u64;
        if held > 0 {
            let more = bytes.len().min(BLOCK - held);
            self.rest[held..held + more].copy_from_slice(&bytes[..more]);
            bytes = &bytes[more..];
            if held + more < BLOCK {
                return;
            }
            mix(&mut self.state, &self.rest);
        }
        let blocks = bytes.chunks_exact(BLOCK);
        let rest = blocks.remainder();
        blocks.for_each(|block| mix(&mut self.state, block));
        self.rest[..rest.len()].copy_from_slice(rest);
    }

    pub fn digest(mut self) -> Digest {
        let bits = self.length * 8;
        let held = (self.length % BLOCK as u64) as usize;
        // A one bit, zeros, and the number of bits in the last 8 bytes of a block.
        let mut end = [0; BLOCK + 8];
        end[0] = 0x80;
        let zeros = (2 * BLOCK - 9 - held) % BLOCK;
        end[1 + zeros..9 + zeros].copy_from_slice(&bits.to_be_bytes());
        self.take(&end[..9 + zeros]);
        let mut bytes = [0; 32];
        for (four, word) in bytes.chunks_exact_mut(4).zip(self.state) {
            four.copy_from_slice(&word.to_be_bytes());
        }
        Digest(bytes)
    }
}

/// The 64 words of a block: its own 16, and 48 that follow from them.
fn schedule(block: &[u8]) -> [u32; 64] {
    let mut words = [0u32; 64];
    for (word, four) in words.iter_mut().zip(block.chunks_exact(4)) {
        *word = u32::from_be_bytes([four[0], four[1], four[2], four[3]]);
    }
    for at in 16..64 {
        let (early, late) = (words[at - 15], words[at - 2]);
        let small = early.rotate_right(7) ^ early.rotate_right(18) ^ (early >> 3);
        let large = late.rotate_right(17) ^ late.rotate_right(19) ^ (late >> 10);
        words[at] =
            words[at - 16].wrapping_add(small).wrapping_add(words[at - 7]).wrapping_add(large);
    }
    words
}

/// Takes one block of 64 bytes into the state.
fn mix(state: &mut [u32; 8], block: &[u8]) {
    let words = schedule(block);
    let [mut a, mut b, mut c, mut d, mut e, mut f, mut g, mut h] = *state;
    for (word, round) in words.iter().zip(ROUNDS) {
        let turned = e.rotate_right(6) ^ e.rotate_right(11) ^ e.rotate_right(25);
        let chosen = (e & f) ^ (!e & g);
        let one =
            h.wrapping_add(turned).wrapping_add(chosen).wrapping_add(round).wrapping_add(*word);
        let turned = a.rotate_right(2) ^ a.rotate_right(13) ^ a.rotate_right(22);
        let two = turned.wrapping_add((a & b) ^ (a & c) ^ (b & c));
        (h, g, f, e) = (g, f, e, d.wrapping_add(one));
        (d, c, b, a) = (c, b, a, one.wrapping_add(two));
    }
    for (old, new) in state.iter_mut().zip([a, b, c, d, e, f, g, h]) {
        *old = old.wrapping_add(new);
    }
}

#[cfg(test)]
mod tests {
    use super::*;

    /// The vectors that NIST publishes.
    #[test]
    fn the_published_vectors() {
        let long = "abcdbcdecdefdefgefghfghighijhijkijkljklmklmnlmnomnopnopq";
        let a = "a".repeat(1_000_000);
        for (text, digest) in [
            ("", "e3b0c44298fc1c149afbf4c8996fb92427ae41e4649b934ca495991b7852b855"),
            ("abc", "ba7816bf8f01cfea414140de5dae2223b00361a396177a9cb410ff61f20015ad"),
            (long, "248d6a61d20638b8e5c026930c3e6039a33ce45964ff2167f6ecedd419db06c1"),
            (&a, "cdc76e5c9914fb9281a1c7e284d73e67f1809a48a497200e046d39ccc7112cd0"),
        ] {
            assert_eq!(Digest::of(text.as_bytes()).to_string(), digest);
            assert_eq!(Digest::from_hex(digest), Some(Digest::of(text.as_bytes())));
        }
    }

    /// Every length up to three blocks, in two pieces of every size.
    #[test]
    fn pieces_do_not_matter() {
        let bytes: Vec<u8> = (0..192).map(|at| (at * 7) as u8).collect();
        for length in 0..=bytes.len() {
            let whole = Digest::of(&bytes[..length]);
            for first in 0..=length {
                let mut sum = Sha256::new();
                sum.take(&bytes[..first]);
                sum.take(&bytes[first..length]);
                assert_eq!(sum.digest(), whole, "{first} of {length}");
            }
        }
    }

    #[test]
    fn other_spellings_are_refused() {
        let digest = Digest::of(b"").to_string();
        for wrong in [&digest[1..], &digest.to_uppercase(), &format!("+{}", &digest[1..])] {
            assert_eq!(Digest::from_hex(wrong), None);
        }
    }
}
