//! The calls that are in the archive, as `peachanchor.h` declares them: made by `tools/calls.py --rust`.

use crate::*;
use core::ffi::{c_char, c_void};

#[cfg(feature = "malloc")]
#[rustfmt::skip]
extern "C" {
    #[must_use] pub fn tlsf_open(heap: *mut tlsf_heap, level: u32, number: u32, words: u32) -> u32;
    #[must_use] pub fn tlsf_open_near(heap: *mut tlsf_near_heap, level: u32, number: u32, words: u32) -> u32;
    #[must_use] pub fn tlsf_lane_open(post: *mut tlsf_post_end, take: *mut tlsf_take_end, capacity: u32) -> u32;
    #[must_use] pub fn tlsf_queue_open(queue: *mut tlsf_queue, posters: u32, capacity: u32) -> u32;
    #[must_use] pub fn tlsf_offsets_open(offsets: *mut tlsf_offsets, level: u32, number: u32, unit: u32, units: u32) -> u32;
    #[must_use] pub fn tlsf_pools_open(pools: *mut tlsf_pools, level: u32, number: u32, rows: *const tlsf_kind, n: usize) -> u32;
}

#[rustfmt::skip]
extern "C" {
    #[must_use] pub fn tlsf_open_in(heap: *mut tlsf_heap, level: u32, number: u32, memory: *mut c_void, bytes: usize) -> u32;
    pub fn tlsf_bytes(level: u32, words: u32) -> usize;
    #[must_use] pub fn tlsf_next_number(number: *mut u32) -> u32;
    #[must_use] pub fn tlsf_open_near_in(heap: *mut tlsf_near_heap, level: u32, number: u32, memory: *mut c_void, bytes: usize) -> u32;
    pub fn tlsf_near_bytes(level: u32, words: u32) -> usize;
    pub fn tlsf_near(heap: *mut tlsf_near_heap) -> *mut tlsf_heap;
    pub fn tlsf_close(heap: *mut tlsf_heap) -> u32;
    pub fn tlsf_reset(heap: *mut tlsf_heap) -> u32;
    #[must_use] pub fn tlsf_words(level: u32, blocks: u32, len: usize, words: *mut u32) -> u32;
    #[must_use] pub fn tlsf_words_for(level: u32, blocks: u32, len: usize, align: usize, words: *mut u32) -> u32;
    pub fn tlsf_free(heap: *mut tlsf_heap, p: *mut c_void) -> u32;
    #[must_use] pub fn tlsf_malloc(heap: *mut tlsf_heap, len: usize) -> *mut c_void;
    #[must_use] pub fn tlsf_calloc(heap: *mut tlsf_heap, count: usize, each: usize) -> *mut c_void;
    #[must_use] pub fn tlsf_realloc(heap: *mut tlsf_heap, p: *mut c_void, len: usize) -> *mut c_void;
    #[must_use] pub fn tlsf_aligned_alloc(heap: *mut tlsf_heap, align: usize, len: usize) -> *mut c_void;
    #[must_use] pub fn tlsf_aligned_realloc(heap: *mut tlsf_heap, p: *mut c_void, align: usize, len: usize) -> *mut c_void;
    pub fn tlsf_usable_size(heap: *mut tlsf_heap, p: *const c_void) -> usize;
    pub fn tlsf_block_size(p: *const c_void) -> usize;
    #[must_use] pub fn tlsf_name_at(heap: *mut tlsf_heap, p: *const c_void, name: *mut tlsf_name) -> u32;
    #[must_use] pub fn tlsf_allocate_at(heap: *mut tlsf_heap, len: usize, align: usize, flags: u32, name: *mut tlsf_name, payload: *mut *mut c_void) -> u32;
    #[must_use] pub fn tlsf_allocate(heap: *mut tlsf_heap, len: usize, name: *mut tlsf_name) -> u32;
    pub fn tlsf_release_all(heap: *mut tlsf_heap, names: *const tlsf_name, n: usize) -> u32;
    #[must_use] pub fn tlsf_reallocate(heap: *mut tlsf_heap, name: *mut tlsf_name, len: usize) -> u32;
    pub fn tlsf_base(heap: *const tlsf_heap) -> *mut u64;
    #[must_use] pub fn tlsf_lane_open_in(post: *mut tlsf_post_end, take: *mut tlsf_take_end, capacity: u32, memory: *mut c_void, bytes: usize) -> u32;
    pub fn tlsf_lane_bytes(capacity: u32) -> usize;
    pub fn tlsf_post_close(post: *mut tlsf_post_end) -> u32;
    pub fn tlsf_take_close(take: *mut tlsf_take_end) -> u32;
    #[must_use] pub fn tlsf_put_all(post: *mut tlsf_post_end, names: *const tlsf_name, n: usize, went: *mut usize) -> u32;
    #[must_use] pub fn tlsf_take(take: *mut tlsf_take_end, name: *mut tlsf_name) -> u32;
    #[must_use] pub fn tlsf_take_all(take: *mut tlsf_take_end, names: *mut tlsf_name, n: usize, came: *mut usize) -> u32;
    pub fn tlsf_drain(heap: *mut tlsf_heap, take: *mut tlsf_take_end, most: u32, came: *mut u32) -> u32;
    #[must_use] pub fn tlsf_queue_open_in(queue: *mut tlsf_queue, posters: u32, capacity: u32, memory: *mut c_void, bytes: usize) -> u32;
    pub fn tlsf_queue_bytes(posters: u32, capacity: u32) -> usize;
    #[must_use] pub fn tlsf_poster_open(queue: *mut tlsf_queue, poster: *mut tlsf_poster) -> u32;
    pub fn tlsf_queue_close(queue: *mut tlsf_queue) -> u32;
    pub fn tlsf_poster_close(poster: *mut tlsf_poster) -> u32;
    #[must_use] pub fn tlsf_queue_take(queue: *mut tlsf_queue, name: *mut tlsf_name) -> u32;
    pub fn tlsf_queue_drain(heap: *mut tlsf_heap, queue: *mut tlsf_queue, most: u32, came: *mut u32) -> u32;
    #[must_use] pub fn tlsf_offsets_open_in(offsets: *mut tlsf_offsets, level: u32, number: u32, unit: u32, units: u32, memory: *mut c_void, bytes: usize) -> u32;
    pub fn tlsf_offsets_bytes(level: u32, units: u32) -> usize;
    pub fn tlsf_offsets_close(offsets: *mut tlsf_offsets) -> u32;
    #[must_use] pub fn tlsf_offsets_allocate(offsets: *mut tlsf_offsets, bytes: u64, span: *mut tlsf_span) -> u32;
    #[must_use] pub fn tlsf_offsets_resize(offsets: *mut tlsf_offsets, span: *mut tlsf_span, bytes: u64) -> u32;
    #[must_use] pub fn tlsf_offsets_report(offsets: *mut tlsf_offsets, usage: *mut tlsf_offsets_usage) -> u32;
    #[must_use] pub fn tlsf_pools_open_in(pools: *mut tlsf_pools, level: u32, number: u32, rows: *const tlsf_kind, n: usize, memory: *mut c_void, bytes: usize) -> u32;
    pub fn tlsf_pools_bytes(level: u32, rows: *const tlsf_kind, n: usize) -> usize;
    #[must_use] pub fn tlsf_pools_words(level: u32, rows: *const tlsf_kind, n: usize, words: *mut u64, heaps: *mut u32) -> u32;
    pub fn tlsf_pools_close(pools: *mut tlsf_pools) -> u32;
    #[must_use] pub fn tlsf_pools_allocate(pools: *mut tlsf_pools, len: usize, name: *mut tlsf_name) -> u32;
    #[must_use] pub fn tlsf_pools_report(pools: *mut tlsf_pools, part: u32, report: *mut tlsf_heap_report) -> u32;
    #[must_use] pub fn tlsf_pools_counts(pools: *mut tlsf_pools, row: u32, held: *mut u32, most: *mut u32) -> u32;
    #[must_use] pub fn tlsf_pools_check(pools: *mut tlsf_pools, part: u32, from: u32, most: u32, next: *mut u32, damaged: *mut u32) -> u32;
    pub fn tlsf_pools_free(pools: *mut tlsf_pools, p: *mut c_void) -> u32;
    #[must_use] pub fn tlsf_pools_malloc(pools: *mut tlsf_pools, len: usize) -> *mut c_void;
    #[must_use] pub fn tlsf_pools_realloc(pools: *mut tlsf_pools, p: *mut c_void, len: usize) -> *mut c_void;
    pub fn tlsf_pools_usable_size(pools: *mut tlsf_pools, p: *const c_void) -> usize;
    #[must_use] pub fn tlsf_pools_name_at(pools: *mut tlsf_pools, p: *const c_void, name: *mut tlsf_name) -> u32;
    #[must_use] pub fn tlsf_pools_part(pools: *mut tlsf_pools, part: u32, base: *mut *mut u64, number: *mut u32) -> u32;
    #[must_use] pub fn tlsf_pools_place(pools: *mut tlsf_pools, part: u32, at: u32, name: *mut tlsf_name, len: *mut u32) -> u32;
    #[must_use] pub fn tlsf_pools_row(pools: *mut tlsf_pools, len: usize, row_len: *mut u32) -> u32;
    #[must_use] pub fn tlsf_counts(heap: *mut tlsf_heap, counts: *mut tlsf_heap_counts) -> u32;
    #[must_use] pub fn tlsf_report(heap: *mut tlsf_heap, report: *mut tlsf_heap_report) -> u32;
    #[must_use] pub fn tlsf_block_at(heap: *mut tlsf_heap, at: u32, block: *mut tlsf_block_info) -> u32;
    #[must_use] pub fn tlsf_check(heap: *mut tlsf_heap, from: u32, most: u32, next: *mut u32, damaged: *mut u32) -> u32;
    #[must_use] pub fn tlsf_check_around(heap: *mut tlsf_heap, at: u32, damaged: *mut u32) -> u32;
    #[must_use] pub fn tlsf_check_request(heap: *mut tlsf_heap, len: usize, damaged: *mut u32) -> u32;
    pub fn tlsf_text_of(answer: u32) -> *const c_char;
    pub fn tlsf_rounded(len: usize) -> usize;
    pub fn tlsf_place_of(heap: *const tlsf_heap, p: *const c_void) -> u32;
    #[must_use] pub fn tlsf_allocate_payload(heap: *mut tlsf_heap, len: usize) -> usize;
    pub fn tlsf_release_place(heap: *mut tlsf_heap, at: u32) -> u32;
    #[must_use] pub fn tlsf_resize_place(heap: *mut tlsf_heap, at: u32, len: usize, new_at: *mut u32) -> u32;
    #[must_use] pub fn tlsf_place(heap: *mut tlsf_heap, at: u32, name: *mut tlsf_name, len: *mut u32) -> u32;
}

/// On Windows C hands structs over in memory, so there the calls with one by value are called as on Linux.
macro_rules! by_value {
    ($($calls:tt)*) => {
        #[cfg(not(all(windows, target_arch = "x86_64")))]
        extern "C" { $($calls)* }
        #[cfg(all(windows, target_arch = "x86_64"))]
        extern "sysv64" { $($calls)* }
    };
}

#[rustfmt::skip]
by_value! {
    pub fn tlsf_release(heap: *mut tlsf_heap, name: tlsf_name) -> u32;
    #[must_use] pub fn tlsf_resize(heap: *mut tlsf_heap, name: tlsf_name, len: usize) -> u32;
    #[must_use] pub fn tlsf_write(heap: *mut tlsf_heap, name: tlsf_name, at: u32, bytes: *const u8, n: usize) -> u32;
    #[must_use] pub fn tlsf_read(heap: *mut tlsf_heap, name: tlsf_name, at: u32, out: *mut u8, n: usize) -> u32;
    #[must_use] pub fn tlsf_locate(heap: *mut tlsf_heap, name: tlsf_name, base: *mut *mut u64, len: *mut u32) -> u32;
    pub fn tlsf_payload(heap: *mut tlsf_heap, name: tlsf_name, len: *mut u32) -> *mut c_void;
    pub fn tlsf_at(base: *mut u64, name: tlsf_name) -> *mut c_void;
    #[must_use] pub fn tlsf_put(post: *mut tlsf_post_end, name: tlsf_name) -> u32;
    #[must_use] pub fn tlsf_queue_post(poster: *mut tlsf_poster, name: tlsf_name) -> u32;
    pub fn tlsf_offsets_release(offsets: *mut tlsf_offsets, name: tlsf_name) -> u32;
    pub fn tlsf_pools_release(pools: *mut tlsf_pools, name: tlsf_name) -> u32;
    #[must_use] pub fn tlsf_pools_write(pools: *mut tlsf_pools, name: tlsf_name, at: u32, bytes: *const u8, n: usize) -> u32;
    #[must_use] pub fn tlsf_pools_read(pools: *mut tlsf_pools, name: tlsf_name, at: u32, out: *mut u8, n: usize) -> u32;
    #[must_use] pub fn tlsf_allocate_place(heap: *mut tlsf_heap, len: usize) -> tlsf_placed;
    #[must_use] pub fn tlsf_allocate_aligned(heap: *mut tlsf_heap, len: usize, step: u32, skew: u32) -> tlsf_placed;
}
