//! Memory between two pages that nobody may touch.
//!
//! A buffer is placed flush with one of them, so that a call that reads or writes past that end is
//! killed on the spot; the other side is watched by a row of known bytes.

use std::fs::File;
use std::os::raw::{c_int, c_long, c_void};
use std::os::unix::io::AsRawFd;
use std::ptr;

extern "C" {
    fn mmap(
        addr: *mut c_void,
        length: usize,
        prot: c_int,
        flags: c_int,
        fd: c_int,
        offset: c_long,
    ) -> *mut c_void;
    fn mprotect(addr: *mut c_void, length: usize, prot: c_int) -> c_int;
    fn munmap(addr: *mut c_void, length: usize) -> c_int;
}

// The values of Linux on x86-64 and aarch64.
const PROT_NONE: c_int = 0;
const PROT_READ: c_int = 1;
const PROT_WRITE: c_int = 2;
const MAP_SHARED: c_int = 0x01;
const MAP_PRIVATE: c_int = 0x02;
const MAP_ANONYMOUS: c_int = 0x20;
const MAP_NORESERVE: c_int = 0x4000;

/// A multiple of every page size that Linux uses on these machines.
const GUARD: usize = 65_536;
const WATCHED: usize = 64;
const WATCH_BYTE: u8 = 0xC5;

/// Zeroed memory that takes no room until it is written, or a file's bytes as memory.
pub struct Mapping {
    start: *mut u8,
    length: usize,
}

impl Mapping {
    pub fn new(length: usize) -> Mapping {
        Mapping::made(length, MAP_PRIVATE | MAP_ANONYMOUS | MAP_NORESERVE, -1)
    }

    /// The first bytes of a file, which must have as many: what is written here goes to the file. The
    /// file must not be cut or written to by others as long as the mapping stands.
    pub fn of_file(file: &File, length: usize) -> Mapping {
        let has = file.metadata().expect("an open file").len();
        assert!(length as u64 <= has, "{length} bytes of a file of {has}");
        Mapping::made(length, MAP_SHARED, file.as_raw_fd())
    }

    fn made(length: usize, flags: c_int, file: c_int) -> Mapping {
        // SAFETY: a new mapping at an address of the system's choice; checked below.
        let start =
            unsafe { mmap(ptr::null_mut(), length, PROT_READ | PROT_WRITE, flags, file, 0) };
        assert!(start as isize != -1, "no mapping of {length} bytes");
        Mapping { start: start.cast(), length }
    }

    pub fn bytes(&mut self) -> &mut [u8] {
        // SAFETY: the mapping is readable and writable, of this length, and borrowed for the slice.
        unsafe { std::slice::from_raw_parts_mut(self.start, self.length) }
    }

    fn forbid(&mut self, at: usize, length: usize) {
        assert!(at + length <= self.length);
        // SAFETY: the range lies in the mapping, and no slice of it is alive.
        let failed = unsafe { mprotect(self.start.add(at).cast(), length, PROT_NONE) };
        assert!(failed == 0, "mprotect");
    }
}

impl Drop for Mapping {
    fn drop(&mut self) {
        // SAFETY: made by mmap with this length; no slice of it is alive.
        unsafe { munmap(self.start.cast(), self.length) };
    }
}

/// Which end of a buffer touches forbidden memory.
#[derive(Clone, Copy, Debug, PartialEq, Eq)]
pub enum Flush {
    Front,
    Back,
}

/// Room for one buffer between two forbidden stretches.
pub struct Room {
    mapping: Mapping,
    size: usize,
}

impl Room {
    pub fn new(size: usize) -> Room {
        let size = (size + WATCHED + GUARD - 1) / GUARD * GUARD;
        let mut mapping = Mapping::new(GUARD + size + GUARD);
        mapping.forbid(0, GUARD);
        mapping.forbid(GUARD + size, GUARD);
        Room { mapping, size }
    }

    /// The part that may be touched.
    fn inside(&mut self) -> &mut [u8] {
        // SAFETY: the stretch between both forbidden ones is readable and writable.
        unsafe { std::slice::from_raw_parts_mut(self.mapping.start.add(GUARD), self.size) }
    }

    /// Where the buffer and the watched bytes beside it start, counted inside.
    fn layout(&self, length: usize, flush: Flush) -> (usize, usize) {
        match flush {
            Flush::Front => (0, length),
            Flush::Back => (self.size - length, self.size - length - WATCHED),
        }
    }

    /// The bytes of a buffer of this length.
    pub fn bytes(&mut self, length: usize, flush: Flush) -> &mut [u8] {
        let (at, _) = self.layout(length, flush);
        &mut self.inside()[at..at + length]
    }

    fn watched(&mut self, length: usize, flush: Flush) -> &mut [u8] {
        let (_, watched) = self.layout(length, flush);
        &mut self.inside()[watched..watched + WATCHED]
    }

    /// Puts the known bytes beside a buffer of this length.
    pub fn watch(&mut self, length: usize, flush: Flush) {
        self.watched(length, flush).fill(WATCH_BYTE);
    }

    /// Whether they are still there.
    pub fn unharmed(&mut self, length: usize, flush: Flush) -> bool {
        self.watched(length, flush).iter().all(|byte| *byte == WATCH_BYTE)
    }

    /// Copies the bytes in and gives their address. For no bytes that is a forbidden one.
    pub fn put(&mut self, bytes: &[u8], flush: Flush) -> *mut u8 {
        let length = bytes.len();
        assert!(length + WATCHED <= self.size, "a buffer of {length} bytes");
        self.watch(length, flush);
        let place = self.bytes(length, flush);
        place.copy_from_slice(bytes);
        let start = place.as_mut_ptr();
        match flush {
            Flush::Front if bytes.is_empty() => self.mapping.start,
            _ => start,
        }
    }

    /// The bytes as they stand now, and whether those beside them are unharmed. Both are cleared, so
    /// that what lies around the next buffer does not depend on the one before.
    pub fn take(&mut self, length: usize, flush: Flush) -> (Vec<u8>, bool) {
        let unharmed = self.unharmed(length, flush);
        self.watched(length, flush).fill(0);
        let bytes = self.bytes(length, flush).to_vec();
        self.bytes(length, flush).fill(0);
        (bytes, unharmed)
    }
}

#[cfg(test)]
mod tests {
    use super::*;

    #[test]
    fn bytes_come_back_and_harm_beside_them_is_seen() {
        for flush in [Flush::Front, Flush::Back] {
            let mut room = Room::new(1000);
            room.put(&[1, 2, 3], flush);
            assert_eq!(room.take(3, flush), (vec![1, 2, 3], true));
            assert!(room.inside().iter().all(|byte| *byte == 0));
            let address = room.put(&[1, 2, 3], flush);
            let beside = match flush {
                Flush::Front => 3,
                Flush::Back => -1,
            };
            // SAFETY: a watched byte inside the room.
            unsafe { *address.offset(beside) = 0 };
            assert_eq!(room.take(3, flush), (vec![1, 2, 3], false));
        }
    }

    #[test]
    fn a_mapping_is_zero_and_can_be_written() {
        let mut mapping = Mapping::new(1 << 20);
        assert!(mapping.bytes().iter().all(|byte| *byte == 0));
        mapping.bytes()[12345] = 6;
        assert_eq!(mapping.bytes()[12345], 6);
    }
}
