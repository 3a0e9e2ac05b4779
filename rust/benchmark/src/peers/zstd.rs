//! Zstandard at its level 1, with the base as prefix.

use std::os::raw::{c_int, c_uint, c_void};

use super::Peer;

const LEVEL: c_int = 1;
/// ZSTD_c_compressionLevel in zstd.h.
const COMPRESSION_LEVEL: c_int = 100;

#[repr(C)]
struct Compressor {
    _private: [u8; 0],
}

#[repr(C)]
struct Decompressor {
    _private: [u8; 0],
}

extern "C" {
    fn ZSTD_isError(code: usize) -> c_uint;
    fn ZSTD_createCCtx() -> *mut Compressor;
    fn ZSTD_freeCCtx(by: *mut Compressor) -> usize;
    fn ZSTD_CCtx_setParameter(by: *mut Compressor, parameter: c_int, value: c_int) -> usize;
    fn ZSTD_CCtx_refPrefix(by: *mut Compressor, prefix: *const c_void, length: usize) -> usize;
    fn ZSTD_compress2(
        by: *mut Compressor,
        to: *mut c_void,
        room: usize,
        from: *const c_void,
        length: usize,
    ) -> usize;
    fn ZSTD_createDCtx() -> *mut Decompressor;
    fn ZSTD_freeDCtx(by: *mut Decompressor) -> usize;
    fn ZSTD_DCtx_refPrefix(by: *mut Decompressor, prefix: *const c_void, length: usize) -> usize;
    fn ZSTD_decompressDCtx(
        by: *mut Decompressor,
        to: *mut c_void,
        room: usize,
        from: *const c_void,
        length: usize,
    ) -> usize;
}

/// Length or nothing, as the library's number says.
fn sound(code: usize) -> Option<usize> {
    // SAFETY: any number.
    match unsafe { ZSTD_isError(code) } {
        0 => Some(code),
        _ => None,
    }
}

pub struct WithBase {
    compressor: *mut Compressor,
    decompressor: *mut Decompressor,
}

impl WithBase {
    pub fn new() -> WithBase {
        // SAFETY: any time.
        let (compressor, decompressor) = unsafe { (ZSTD_createCCtx(), ZSTD_createDCtx()) };
        assert!(!compressor.is_null() && !decompressor.is_null(), "no memory for zstd");
        // SAFETY: just made.
        let set = unsafe { ZSTD_CCtx_setParameter(compressor, COMPRESSION_LEVEL, LEVEL) };
        assert!(sound(set).is_some(), "zstd has no level {LEVEL}");
        WithBase { compressor, decompressor }
    }
}

impl Drop for WithBase {
    fn drop(&mut self) {
        // SAFETY: made by the two calls of new, and not used any more.
        unsafe {
            ZSTD_freeCCtx(self.compressor);
            ZSTD_freeDCtx(self.decompressor);
        }
    }
}

impl Peer for WithBase {
    fn name(&self) -> &'static str {
        "zstd level 1, the base as prefix"
    }

    fn encode(&mut self, base: &[u8], page: &[u8], delta: &mut [u8]) -> Option<usize> {
        let (to, from) = (delta.as_mut_ptr().cast(), page.as_ptr().cast());
        // SAFETY: pointers and lengths are those of slices. A prefix counts for one page alone.
        sound(unsafe {
            ZSTD_CCtx_refPrefix(self.compressor, base.as_ptr().cast(), base.len());
            ZSTD_compress2(self.compressor, to, delta.len(), from, page.len())
        })
    }

    fn decode(&mut self, base: &[u8], delta: &[u8], page: &mut [u8]) -> bool {
        let (to, from) = (page.as_mut_ptr().cast(), delta.as_ptr().cast());
        // SAFETY: pointers and lengths are those of slices. A prefix counts for one delta alone.
        let length = sound(unsafe {
            ZSTD_DCtx_refPrefix(self.decompressor, base.as_ptr().cast(), base.len());
            ZSTD_decompressDCtx(self.decompressor, to, page.len(), from, delta.len())
        });
        length == Some(page.len())
    }
}
