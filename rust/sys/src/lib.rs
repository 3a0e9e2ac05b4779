//! The C interface of `libthonxiliko.a`, declared as in `include/thonxiliko.h`. That header says
//! what each call checks, writes and answers. Programs use the safe crate `thonxiliko` instead.
#![no_std]
#![allow(non_camel_case_types)]

macro_rules! answer {
    ($(#[$about:meta])* $name:ident { $($field:ident: $kind:ty),* }) => {
        $(#[$about])*
        #[repr(C)]
        #[derive(Clone, Copy, Debug, PartialEq, Eq)]
        pub struct $name { $(pub $field: $kind),* }
    };
}

answer!(thx_done { number: u32 });
answer!(thx_compared { number: u32, kind: u32, length: u32, entries: u32, last: i32 });
answer!(thx_applied { number: u32, entries: u32, last: i32, offset: u32 });
answer!(thx_judged { number: u32, kind: u32, length: u32 });
answer!(
    /// `patch[at .. at + len]`; both 0 for an empty part.
    thx_part { at: u64, len: u64 }
);
answer!(thx_reading { number: u32, kind: u32, offset: u32 });
answer!(thx_written { number: u32, kind: u32, length: u32 });
answer!(thx_built { number: u32, block: u64, offset: u32 });
answer!(thx_pair { number: u32, pair: u32 });
answer!(thx_tallied { number: u32, patch: u64, full: u64 });
answer!(thx_entry { number: u32, found: u32, at: u64, position: i32, value: u32 });
answer!(
    /// One more than the highest block that is not EMPTY, or 0.
    thx_extent { number: u32, blocks: u64 }
);

extern "C" {
    pub fn thx_format(patch: *mut u8, patch_len: usize, full: *mut u8, full_len: usize)
        -> thx_done;

    pub fn thx_compare(
        base: *const u8,
        base_len: usize,
        page: *const u8,
        page_len: usize,
        payload: *mut u8,
        payload_len: usize,
    ) -> thx_compared;

    pub fn thx_apply(
        base: *const u8,
        base_len: usize,
        payload: *const u8,
        payload_len: usize,
        page: *mut u8,
        page_len: usize,
    ) -> thx_applied;

    pub fn thx_next(payload: *const u8, payload_len: usize, at: u64, position: i32) -> thx_entry;

    pub fn thx_judge(slot: *const u8, slot_len: usize) -> thx_judged;

    pub fn thx_show(patch: *const u8, patch_len: usize, block: u64) -> thx_part;

    pub fn thx_read(
        patch: *const u8,
        patch_len: usize,
        full: *const u8,
        full_len: usize,
        block: u64,
        base: *const u8,
        base_len: usize,
        page: *mut u8,
        page_len: usize,
    ) -> thx_reading;

    pub fn thx_carry_out(
        patch: *mut u8,
        patch_len: usize,
        full: *mut u8,
        full_len: usize,
        block: u64,
        kind: u32,
        payload: *const u8,
        payload_len: usize,
        page: *const u8,
        page_len: usize,
        stores: u64,
    ) -> thx_written;

    pub fn thx_carry_out_mapped(
        patch: *mut u8,
        patch_len: usize,
        full: *mut u8,
        full_len: usize,
        map: *mut u8,
        map_len: usize,
        block: u64,
        kind: u32,
        payload: *const u8,
        payload_len: usize,
        page: *const u8,
        page_len: usize,
        stores: u64,
    ) -> thx_written;

    pub fn thx_read_mapped(
        patch: *const u8,
        patch_len: usize,
        full: *const u8,
        full_len: usize,
        map: *const u8,
        map_len: usize,
        block: u64,
        base: *const u8,
        base_len: usize,
        page: *mut u8,
        page_len: usize,
    ) -> thx_reading;

    pub fn thx_cut(
        patch: *mut u8,
        patch_len: usize,
        full: *mut u8,
        full_len: usize,
        k: u64,
    ) -> thx_done;

    pub fn thx_cut_mapped(
        patch: *mut u8,
        patch_len: usize,
        full: *mut u8,
        full_len: usize,
        map: *mut u8,
        map_len: usize,
        k: u64,
    ) -> thx_done;

    pub fn thx_highest(patch: *const u8, patch_len: usize) -> thx_extent;

    pub fn thx_sweep(
        patch: *const u8,
        patch_len: usize,
        full: *mut u8,
        full_len: usize,
    ) -> thx_done;

    pub fn thx_build(
        patch: *const u8,
        patch_len: usize,
        full: *const u8,
        full_len: usize,
        map: *mut u8,
        map_len: usize,
    ) -> thx_built;

    pub fn thx_look_up(map: *const u8, map_len: usize, n: u64, block: u64) -> thx_pair;

    pub fn thx_tally(map: *const u8, map_len: usize, n: u64) -> thx_tallied;
}
