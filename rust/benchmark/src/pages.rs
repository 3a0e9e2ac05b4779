//! Pages to compare, and what is known of them.

use std::collections::BTreeSet;

use differential::rng::Rng;
use faults::shipped;
use thonxiliko::{compare, Compared, Decision, Difference, PAGE_SIZE, PAYLOAD_SIZE};

/// A page, its base, and the stream if it fits a slot.
#[derive(Clone)]
pub struct Pages {
    pub name: String,
    pub base: Vec<u8>,
    pub page: Vec<u8>,
    pub compared: Compared,
    pub payload: Vec<u8>,
}

impl Pages {
    fn new(name: &str, base: Vec<u8>, page: Vec<u8>) -> Pages {
        let mut buffer = [0; PAYLOAD_SIZE];
        let decision = compare(&base, &page, &mut buffer).expect("sound lengths");
        let (compared, payload) = (decision.compared(), decision.payload().to_vec());
        Pages { name: name.to_string(), base, page, compared, payload }
    }

    /// What Compare decides, for as long as the program runs: a contender keeps it.
    pub fn decision(&self) -> Decision<'static> {
        let page = Box::leak(self.page.clone().into_boxed_slice());
        let buffer = Box::leak(Box::new([0; PAYLOAD_SIZE]));
        compare(&self.base, page, buffer).expect("sound lengths")
    }

    fn changed(name: &str, positions: impl Iterator<Item = usize>) -> Pages {
        let base = Rng::new(7).bytes(PAGE_SIZE);
        let mut page = base.clone();
        for position in positions {
            page[position] ^= 0x5A;
        }
        Pages::new(name, base, page)
    }

    pub fn spread(differences: usize) -> Pages {
        let name = match differences {
            1 => "1 difference".to_string(),
            _ => format!("{differences} differences, spread"),
        };
        let step = PAGE_SIZE / differences;
        Pages::changed(&name, (0..differences).map(|number| number * step + step / 2))
    }

    /// Near the page's beginning: further in, the first jump would take the long code, and 252
    /// differences would no longer fit.
    pub fn run(differences: usize) -> Pages {
        let name = format!("{differences} differences, one run");
        Pages::changed(&name, 100..100 + differences)
    }

    pub fn equal() -> Pages {
        Pages::changed("equal", std::iter::empty())
    }

    /// Every byte differs.
    pub fn large() -> Pages {
        Pages::changed("every byte differs", 0..PAGE_SIZE)
    }

    /// Those that fit a slot.
    pub fn patches() -> Vec<Pages> {
        let mut pages = vec![Pages::spread(1)];
        for differences in [20, 100, 252] {
            pages.push(Pages::spread(differences));
            pages.push(Pages::run(differences));
        }
        assert!(pages.iter().all(|pages| pages.compared.difference == Difference::Patch));
        pages
    }

    /// Real pages that fit a slot: those of the shipped ones that do.
    pub fn shipped() -> Vec<Pages> {
        let blocks = shipped::blocks(&shipped::folder()).expect("the shipped pages");
        let pages = blocks.into_iter().map(|block| Pages::new("shipped", block.base, block.page));
        pages.filter(|pages| !pages.payload.is_empty()).collect()
    }

    /// Pages with 1 to 200 differences anywhere, no two alike. All of them fit a slot.
    pub fn drawn(count: u64) -> Vec<Pages> {
        let page = |number| {
            let mut rng = Rng::for_case(11, "drawn", number);
            let differences = rng.between(1, 200);
            let positions: BTreeSet<usize> =
                (0..differences).map(|_| rng.below(PAGE_SIZE)).collect();
            Pages::changed("drawn", positions.into_iter())
        };
        (0..count).map(page).collect()
    }

    /// A page over a base of its own, drawn by a number: with none, with 1 to `most`, or with every byte
    /// changed.
    pub fn drawn_with(number: u64, most: usize) -> Pages {
        let mut rng = Rng::for_case(13, "drawn with", number);
        let base = rng.bytes(PAGE_SIZE);
        let mut page = base.clone();
        match most {
            0 => {}
            PAGE_SIZE => page.iter_mut().for_each(|byte| *byte ^= rng.nonzero_byte()),
            _ => {
                for _ in 0..rng.between(1, most) {
                    page[rng.below(PAGE_SIZE)] ^= rng.nonzero_byte();
                }
            }
        }
        Pages::new("drawn", base, page)
    }

    /// So many pages over bases of their own, no two alike, with just so many differences. Up to 100 they are
    /// anywhere; more of them are so near each other that all jumps are short.
    pub fn drawn_exactly(count: u64, differences: usize) -> Vec<Pages> {
        let name = match differences {
            1 => "1 difference, drawn".to_string(),
            _ => format!("{differences} differences, drawn"),
        };
        let page = |number| {
            let mut rng = Rng::for_case(23, &name, number);
            let base = rng.bytes(PAGE_SIZE);
            let mut page = base.clone();
            let mut positions = BTreeSet::new();
            let mut next = 0;
            while positions.len() < differences {
                let near = next + rng.below(PAGE_SIZE / 256);
                positions.insert(if differences > 100 { near } else { rng.below(PAGE_SIZE) });
                next = near + 1;
            }
            positions.iter().for_each(|position| page[*position] ^= rng.nonzero_byte());
            Pages::new(&name, base, page)
        };
        let pages: Vec<Pages> = (0..count).map(page).collect();
        assert!(pages.iter().all(|pages| pages.compared.entries == differences));
        assert!(pages.iter().all(|pages| pages.compared.difference == Difference::Patch));
        pages
    }

    /// Those that do not, from few differences to a page that is new throughout.
    pub fn larges() -> Vec<Pages> {
        let second = (0..PAGE_SIZE).step_by(2);
        let new: Vec<u8> = (0..PAGE_SIZE).map(|at| 1 + (at % 255) as u8).collect();
        let pages = vec![
            Pages::run(253),
            Pages::spread(1_000),
            Pages::changed("every second byte differs", second),
            Pages::large(),
            Pages::new("every byte new, base of length 0", Vec::new(), new),
        ];
        assert!(pages.iter().all(|pages| pages.compared.difference == Difference::Large));
        pages
    }

    pub fn all() -> Vec<Pages> {
        let zeros = Pages::new("equal, base of length 0", Vec::new(), vec![0; PAGE_SIZE]);
        let mut pages = vec![Pages::equal(), zeros];
        pages.extend(Pages::patches());
        pages.extend(Pages::larges());
        pages
    }
}
