//! Says what was going on if a call touches memory that it was not lent.
//!
//! The buffers lie flush with forbidden memory, so such a call ends in a signal. The text of what is
//! being done is kept ready, since a signal handler can do no more than write it out.

use std::os::raw::{c_int, c_void};
use std::sync::atomic::{AtomicU8, AtomicUsize, Ordering};

extern "C" {
    fn signal(number: c_int, handler: extern "C" fn(c_int)) -> *const c_void;
    fn write(descriptor: c_int, bytes: *const c_void, length: usize) -> isize;
    fn _exit(status: c_int) -> !;
}

const SIGBUS: c_int = 7;
const SIGSEGV: c_int = 11;
const ROOM: usize = 200;

#[allow(clippy::declare_interior_mutable_const)]
const ZERO: AtomicU8 = AtomicU8::new(0);
static TEXT: [AtomicU8; ROOM] = [ZERO; ROOM];
static LENGTH: AtomicUsize = AtomicUsize::new(0);

/// Keeps the command that would do this again, without `--trace`.
pub fn note(replay: &str) {
    let bytes = &replay.as_bytes()[..replay.len().min(ROOM)];
    for (kept, byte) in TEXT.iter().zip(bytes) {
        kept.store(*byte, Ordering::Relaxed);
    }
    LENGTH.store(bytes.len(), Ordering::Relaxed);
}

fn say(bytes: &[u8]) {
    // SAFETY: the bytes of a slice; a short write loses only words of a message.
    unsafe { write(2, bytes.as_ptr().cast(), bytes.len()) };
}

extern "C" fn crashed(_: c_int) {
    let mut text = [0; ROOM];
    for (byte, kept) in text.iter_mut().zip(&TEXT) {
        *byte = kept.load(Ordering::Relaxed);
    }
    say(b"\nCRASH  a call touched memory that it was not lent\n  replay, in rust/: ");
    say(&text[..LENGTH.load(Ordering::Relaxed)]);
    say(b" --trace\n");
    // SAFETY: ends the process at once.
    unsafe { _exit(1) }
}

/// From now on a forbidden access prints the kept command and ends the program with status 1.
pub fn watch() {
    for number in [SIGBUS, SIGSEGV] {
        // SAFETY: the handler only loads atomics, writes and exits.
        unsafe { signal(number, crashed) };
    }
}
