//! PostgreSQL's page checksum, as its `checksum_impl.h` has it: what a server with data checksums holds
//! every page against that it reads.

use thonxiliko::PAGE_SIZE;

/// Where a page keeps its checksum.
const PLACE: std::ops::Range<usize> = 8..10;
const SUMS: usize = 32;
const PRIME: u32 = 16_777_619;

const START: [u32; SUMS] = [
    0x5B1F36E9, 0xB8525960, 0x02AB50AA, 0x1DE66D2A, 0x79FF467A, 0x9BB9F8A3, 0x217E7CD2, 0x83E13D2C,
    0xF8D4474F, 0xE39EB970, 0x42C6AE16, 0x993216FA, 0x7B093B5D, 0x98DAFF3C, 0xF718902A, 0x0B1C9CDB,
    0xE58F764B, 0x187636BC, 0x5D7B3BB1, 0xE73DE7DE, 0x92BEC979, 0xCCA6C0B2, 0x304A0979, 0x85AA43D4,
    0x783125BB, 0x6CA8EAA2, 0xE407EAC6, 0x4B5CFC3E, 0x9FBF8C76, 0x15CA20BE, 0xF2CA9FD3, 0x959BD756,
];

fn mix(sum: u32, value: u32) -> u32 {
    let mixed = sum ^ value;
    mixed.wrapping_mul(PRIME) ^ (mixed >> 17)
}

/// The checksum of a page at a block of its relation. The two bytes where it is kept count as zeros.
pub fn of(page: &[u8], block: u32) -> u16 {
    assert_eq!(page.len(), PAGE_SIZE);
    let mut page = page.to_vec();
    page[PLACE].fill(0);
    let mut sums = START;
    for row in page.chunks_exact(4 * SUMS) {
        for (sum, word) in sums.iter_mut().zip(row.chunks_exact(4)) {
            *sum = mix(*sum, u32::from_le_bytes([word[0], word[1], word[2], word[3]]));
        }
    }
    let last = |sum: &u32| mix(mix(*sum, 0), 0);
    let folded = sums.iter().fold(0, |all, sum| all ^ last(sum));
    ((folded ^ block) % 65_535 + 1) as u16
}

/// Puts the checksum into a page, as the server does before it writes the page.
pub fn set(page: &mut [u8], block: u32) {
    let sum = of(page, block);
    page[PLACE].copy_from_slice(&sum.to_le_bytes());
}

/// Whether the server takes the page: the checksum in it fits, or it is all zeros, which is a page that
/// was never used and has none.
pub fn taken(page: &[u8], block: u32) -> bool {
    page.iter().all(|byte| *byte == 0) || page[PLACE] == of(page, block).to_le_bytes()
}
