//! LZ4, over the base as a dictionary or over the difference of both pages.

use std::os::raw::{c_char, c_int};

use thonxiliko::PAGE_SIZE;

use super::Peer;

#[repr(C)]
struct Stream {
    _private: [u8; 0],
}

extern "C" {
    fn LZ4_createStream() -> *mut Stream;
    fn LZ4_freeStream(stream: *mut Stream) -> c_int;
    fn LZ4_loadDict(stream: *mut Stream, dictionary: *const c_char, length: c_int) -> c_int;
    fn LZ4_compress_fast_continue(
        stream: *mut Stream,
        from: *const c_char,
        to: *mut c_char,
        length: c_int,
        room: c_int,
        acceleration: c_int,
    ) -> c_int;
    fn LZ4_decompress_safe_usingDict(
        from: *const c_char,
        to: *mut c_char,
        length: c_int,
        room: c_int,
        dictionary: *const c_char,
        dictionary_length: c_int,
    ) -> c_int;
    fn LZ4_compress_default(
        from: *const c_char,
        to: *mut c_char,
        length: c_int,
        room: c_int,
    ) -> c_int;
    fn LZ4_decompress_safe(
        from: *const c_char,
        to: *mut c_char,
        length: c_int,
        room: c_int,
    ) -> c_int;
}

fn length_of(bytes: &[u8]) -> c_int {
    bytes.len().try_into().expect("pages and deltas are short")
}

/// LZ4 gives 0 where the delta has no room.
fn made(length: c_int) -> Option<usize> {
    usize::try_from(length).ok().filter(|length| *length != 0)
}

pub struct WithBase {
    stream: *mut Stream,
}

impl WithBase {
    pub fn new() -> WithBase {
        // SAFETY: any time.
        let stream = unsafe { LZ4_createStream() };
        assert!(!stream.is_null(), "no memory for LZ4");
        WithBase { stream }
    }
}

impl Drop for WithBase {
    fn drop(&mut self) {
        // SAFETY: made by LZ4_createStream, and not used any more.
        unsafe { LZ4_freeStream(self.stream) };
    }
}

impl Peer for WithBase {
    fn name(&self) -> &'static str {
        "LZ4, the base as dictionary"
    }

    fn encode(&mut self, base: &[u8], page: &[u8], delta: &mut [u8]) -> Option<usize> {
        let (length, room) = (length_of(page), length_of(delta));
        // SAFETY: pointers and lengths are those of slices. Loading the base forgets what was before, so
        // that only it and the page are looked at.
        made(unsafe {
            LZ4_loadDict(self.stream, base.as_ptr().cast(), length_of(base));
            let (from, to) = (page.as_ptr().cast(), delta.as_mut_ptr().cast());
            LZ4_compress_fast_continue(self.stream, from, to, length, room, 1)
        })
    }

    fn decode(&mut self, base: &[u8], delta: &[u8], page: &mut [u8]) -> bool {
        let room = length_of(page);
        // SAFETY: pointers and lengths are those of slices.
        let length = unsafe {
            LZ4_decompress_safe_usingDict(
                delta.as_ptr().cast(),
                page.as_mut_ptr().cast(),
                length_of(delta),
                room,
                base.as_ptr().cast(),
                length_of(base),
            )
        };
        length == room
    }
}

pub struct OfXor {
    xor: Vec<u8>,
}

impl OfXor {
    pub fn new() -> OfXor {
        OfXor { xor: vec![0; PAGE_SIZE] }
    }
}

fn xor_into(to: &mut [u8], one: &[u8], other: &[u8]) {
    for ((to, one), other) in to.iter_mut().zip(one).zip(other) {
        *to = one ^ other;
    }
}

impl Peer for OfXor {
    fn name(&self) -> &'static str {
        "XOR, then LZ4"
    }

    fn encode(&mut self, base: &[u8], page: &[u8], delta: &mut [u8]) -> Option<usize> {
        xor_into(&mut self.xor, base, page);
        let (length, room) = (length_of(&self.xor), length_of(delta));
        // SAFETY: pointers and lengths are those of slices.
        made(unsafe {
            LZ4_compress_default(self.xor.as_ptr().cast(), delta.as_mut_ptr().cast(), length, room)
        })
    }

    fn decode(&mut self, base: &[u8], delta: &[u8], page: &mut [u8]) -> bool {
        let (length, room) = (length_of(delta), length_of(&self.xor));
        // SAFETY: pointers and lengths are those of slices.
        let filled = unsafe {
            LZ4_decompress_safe(delta.as_ptr().cast(), self.xor.as_mut_ptr().cast(), length, room)
        };
        xor_into(page, base, &self.xor);
        filled == room
    }
}
