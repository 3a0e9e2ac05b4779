//! A run of writes and cuts, drawn from a seed: every process that is told the seed has the same run.

use thonxiliko::{
    carry_out, compare, cut, full_area_len, patch_area_len, Kind, Refusal, Stores, PAGE_SIZE,
    PAYLOAD_SIZE,
};

/// What comes after the first steps, which are the same in every run.
const LATER_STEPS: usize = 6;

/// Areas of some blocks, of which the first have places, and what is done to them.
pub struct Run {
    pub blocks: u64,
    pub places: u64,
    pub steps: Vec<Step>,
}

pub enum Step {
    Write(Write),
    Cut(u64),
}

/// A page that is to be a block's, over the base that the block has by then.
pub struct Write {
    pub block: u64,
    base: Vec<u8>,
    page: Vec<u8>,
    /// Made in two calls, told one store and then all, as it is done to be safe on files.
    twice: bool,
}

/// What a page is to differ in from its base.
#[derive(Clone, Copy)]
enum Sort {
    Nothing,
    Little,
    Much,
    /// A page of zeros, which takes a full page over a base of noise.
    Zeros,
}

impl Run {
    /// In every run one block with a place gets a full page, a patch, a full page and nothing, so that
    /// each way to and from a full page is there.
    pub fn drawn(seed: u64) -> Run {
        let mut draws = Draws(seed);
        let blocks = 2 + draws.below(5);
        let places = 1 + draws.below(blocks);
        let mut bases: Vec<Vec<u8>> = (0..blocks).map(|_| draws.base()).collect();
        let busy = draws.below(places);
        let mut steps = Vec::new();
        for sort in [Sort::Much, Sort::Little, Sort::Much, Sort::Nothing] {
            steps.push(Step::Write(draws.write(busy, &bases[busy as usize], sort)));
        }
        for _ in 0..LATER_STEPS {
            if draws.below(5) == 0 {
                let k = draws.below(blocks + 1);
                steps.push(Step::Cut(k));
                for base in &mut bases[k as usize..] {
                    if draws.below(2) == 0 {
                        *base = draws.base(); // only what was cut may have another one
                    }
                }
            } else {
                let block = draws.below(blocks);
                let sort = draws.sort();
                steps.push(Step::Write(draws.write(block, &bases[block as usize], sort)));
            }
        }
        Run { blocks, places, steps }
    }

    pub fn patch_len(&self) -> usize {
        patch_area_len(self.blocks)
    }

    pub fn full_len(&self) -> usize {
        full_area_len(self.places)
    }
}

impl Step {
    /// Makes the whole step.
    pub fn make(&self, patch: &mut [u8], full: &mut [u8]) -> Result<(), Refusal> {
        match self {
            Step::Write(write) => {
                if write.twice {
                    write.carry_out(patch, full, Stores::One)?;
                }
                write.carry_out(patch, full, Stores::All)
            }
            Step::Cut(k) => cut(patch, full, *k),
        }
    }
}

impl Write {
    /// The kind that it stores.
    pub fn kind(&self) -> Kind {
        compare(&self.base, &self.page, &mut [0; PAYLOAD_SIZE]).expect("sound pages").kind()
    }

    /// Carries out what Compare decides. A full page without a place is refused and changes nothing: no
    /// fault of a run.
    pub fn carry_out(
        &self,
        patch: &mut [u8],
        full: &mut [u8],
        stores: Stores,
    ) -> Result<(), Refusal> {
        let mut payload = [0; PAYLOAD_SIZE];
        let decision = compare(&self.base, &self.page, &mut payload)?;
        match carry_out(patch, full, self.block, &decision, stores) {
            Ok(_) | Err(Refusal::NoFullPage) => Ok(()),
            Err(refusal) => Err(refusal),
        }
    }
}

/// Numbers drawn one after the other (SplitMix64).
struct Draws(u64);

impl Draws {
    fn draw(&mut self) -> u64 {
        self.0 = self.0.wrapping_add(0x9E37_79B9_7F4A_7C15);
        let mut mixed = self.0;
        mixed = (mixed ^ (mixed >> 30)).wrapping_mul(0xBF58_476D_1CE4_E5B9);
        mixed = (mixed ^ (mixed >> 27)).wrapping_mul(0x94D0_49BB_1331_11EB);
        mixed ^ (mixed >> 31)
    }

    /// A number below `bound`, which is not 0.
    fn below(&mut self, bound: u64) -> u64 {
        self.draw() % bound
    }

    fn sort(&mut self) -> Sort {
        let sorts =
            [Sort::Nothing, Sort::Little, Sort::Little, Sort::Much, Sort::Much, Sort::Zeros];
        sorts[self.below(sorts.len() as u64) as usize]
    }

    fn noise(&mut self) -> Vec<u8> {
        (0..PAGE_SIZE / 8).flat_map(|_| self.draw().to_le_bytes()).collect()
    }

    /// Noise, or no bytes, which stand for zeros.
    fn base(&mut self) -> Vec<u8> {
        match self.below(3) {
            0 => Vec::new(),
            _ => self.noise(),
        }
    }

    fn write(&mut self, block: u64, base: &[u8], sort: Sort) -> Write {
        let zeros = vec![0; PAGE_SIZE];
        let mut page = if base.is_empty() { zeros.clone() } else { base.to_vec() };
        match sort {
            Sort::Nothing => {}
            Sort::Little => {
                for _ in 0..=self.below(60) {
                    let at = self.below(PAGE_SIZE as u64) as usize;
                    page[at] ^= 1 + self.below(255) as u8;
                }
            }
            Sort::Much => page = self.noise(),
            Sort::Zeros => page = zeros,
        }
        Write { block, base: base.to_vec(), page, twice: self.below(2) == 0 }
    }
}
