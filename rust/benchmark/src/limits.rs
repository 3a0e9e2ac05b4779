//! The memory functions of the C library, by which the least time for so many bytes is measured.

use std::os::raw::{c_int, c_void};

extern "C" {
    fn memcmp(one: *const c_void, other: *const c_void, length: usize) -> c_int;
    fn memcpy(to: *mut c_void, from: *const c_void, length: usize) -> *mut c_void;
    fn memset(to: *mut c_void, byte: c_int, length: usize) -> *mut c_void;
}

/// Compares bytes with bytes. Equal ones must be given if all of them are to be looked at.
pub fn compare(one: &[u8], other: &[u8]) {
    assert_eq!(one.len(), other.len());
    // SAFETY: both slices have this length.
    let order = unsafe { memcmp(one.as_ptr().cast(), other.as_ptr().cast(), one.len()) };
    opaque(order);
}

pub fn copy(to: &mut [u8], from: &[u8]) {
    assert_eq!(to.len(), from.len());
    // SAFETY: both slices have this length, and one of them is borrowed mutably.
    unsafe { memcpy(to.as_mut_ptr().cast(), from.as_ptr().cast(), from.len()) };
    seen(to);
}

pub fn set(to: &mut [u8], byte: u8) {
    // SAFETY: the bytes of a slice borrowed mutably.
    unsafe { memset(to.as_mut_ptr().cast(), c_int::from(byte), to.len()) };
    seen(to);
}

/// For the compiler, all memory may have been read and changed here: nothing before it can be left
/// out, nothing after it is known beforehand.
fn seen(bytes: &[u8]) {
    // SAFETY: no instruction at all.
    unsafe {
        std::arch::asm!("/* {0} */", in(reg) bytes.as_ptr(), options(nostack, preserves_flags));
    }
}

/// Hands a value back of which the compiler knows nothing.
pub fn opaque<T>(value: T) -> T {
    let address: *const T = &value;
    // SAFETY: no instruction at all; the value is not moved or dropped.
    unsafe {
        std::arch::asm!("/* {0} */", in(reg) address, options(nostack, preserves_flags));
    }
    value
}

/// A stretch of memory, of which one or more take turns, as pages do.
#[derive(Clone, Copy, Debug, PartialEq, Eq)]
struct Stretch {
    length: usize,
    turns: usize,
}

impl Stretch {
    fn memory(self) -> Vec<Vec<u8>> {
        vec![vec![0; self.length]; self.turns]
    }
}

/// What the rules make a call touch: the stretches that are compared, copied and set. Calls that touch
/// the same have equal limits.
#[derive(Clone, Debug, Default, PartialEq, Eq)]
pub struct Limit {
    compared: Vec<Stretch>,
    copied: Vec<Stretch>,
    set: Vec<usize>,
}

impl Limit {
    pub fn compare(self, length: usize) -> Limit {
        self.compare_by_turns(length, 1)
    }

    /// So many stretches by turns, and what they are compared with.
    pub fn compare_by_turns(mut self, length: usize, turns: usize) -> Limit {
        self.compared.push(Stretch { length, turns });
        self
    }

    pub fn copy(self, length: usize) -> Limit {
        self.copy_by_turns(length, 1)
    }

    /// From so many stretches by turns to one place.
    pub fn copy_by_turns(mut self, length: usize, turns: usize) -> Limit {
        self.copied.push(Stretch { length, turns });
        self
    }

    pub fn set(mut self, length: usize) -> Limit {
        self.set.push(length);
        self
    }

    /// The work itself. Every stretch has memory of its own; what it is compared with or copied from
    /// is shared, as constants and pages of zeros are in a call, unless there are turns.
    pub fn work(&self) -> impl FnMut() {
        let shared = |stretches: &[Stretch]| -> Vec<u8> {
            vec![0; stretches.iter().map(|stretch| stretch.length).max().unwrap_or(0)]
        };
        let others = |stretches: &[Stretch]| -> Vec<Vec<Vec<u8>>> {
            let shared = shared(stretches);
            let of = |stretch: &Stretch| match stretch.turns {
                1 => Vec::new(),
                _ => stretch.memory(),
            };
            stretches.iter().map(of).chain([vec![shared]]).collect()
        };
        let (equal, source) = (others(&self.compared), others(&self.copied));
        let looked_at: Vec<Vec<Vec<u8>>> =
            self.compared.iter().map(|stretch| stretch.memory()).collect();
        let memory = |length: usize| vec![0; length];
        let mut filled: Vec<Vec<u8>> =
            self.copied.iter().map(|stretch| memory(stretch.length)).collect();
        let mut cleared: Vec<Vec<u8>> = self.set.iter().map(|length| memory(*length)).collect();
        let mut turn = 0;
        move || {
            turn += 1;
            for (pieces, others) in looked_at.iter().zip(&equal) {
                let bytes = &pieces[turn % pieces.len()];
                compare(bytes, &other(others, &equal, turn)[..bytes.len()]);
            }
            for (bytes, others) in filled.iter_mut().zip(&source) {
                let length = bytes.len();
                copy(bytes, &other(others, &source, turn)[..length]);
            }
            for bytes in &mut cleared {
                set(bytes, 0);
            }
        }
    }
}

/// The other side of a stretch: the one whose turn it is, or the shared one, which stands last.
fn other<'m>(others: &'m [Vec<u8>], all: &'m [Vec<Vec<u8>>], turn: usize) -> &'m [u8] {
    match others.len() {
        0 => &all[all.len() - 1][0],
        count => &others[turn % count],
    }
}
