//! The calls that are inline in `peachanchor.h`, as they are written here.
#![cfg(feature = "malloc")]

use peachanchor_sys::*;
use std::ffi::c_void;
use std::ptr::null_mut;

/// A heap of 1,024 words. Where it is mixed, its first block by name has four words, so what follows it is misaligned.
fn with_heap(mixed: bool, test: impl Fn(*mut tlsf_heap)) {
    let mut heap = tlsf_heap::CLOSED;
    let heap = &raw mut heap;
    unsafe {
        assert_eq!(tlsf_open(heap, 4, 3, 1024), TLSF_OK);
        if mixed {
            let mut name = tlsf_name::default();
            assert_eq!(tlsf_allocate(heap, 16, &mut name), TLSF_OK);
        }
        assert_eq!((*heap).is_mixed, mixed);
        test(heap);
        assert_eq!(tlsf_close(heap), TLSF_OK);
        assert_eq!(tlsf_close(heap), TLSF_IS_CLOSED);
    }
}

unsafe fn is_filled(p: *mut c_void, byte: u8, n: usize) -> bool {
    std::slice::from_raw_parts(p.cast::<u8>(), n).iter().all(|it| *it == byte)
}

unsafe fn fill(p: *mut c_void, byte: u8, n: usize) {
    assert!(!p.is_null());
    p.cast::<u8>().write_bytes(byte, n);
}

#[test]
fn pointers_are_aligned() {
    for mixed in [false, true] {
        with_heap(mixed, |heap| unsafe {
            for len in [0, 1, 8, 9, 100, 513] {
                assert_eq!(tlsf_malloc(heap, len) as usize % 16, 0);
                assert_eq!(tlsf_calloc(heap, len, 1) as usize % 16, 0);
            }
            for align in [1, 8, 16, 64, 512] {
                let p = tlsf_aligned_alloc(heap, align, 40);
                assert!(!p.is_null() && p as usize % align.max(16) == 0);
                assert_eq!(tlsf_free(heap, p), TLSF_OK);
            }
            let p = tlsf_aligned_alloc(heap, 2048, 40);
            assert_eq!((p as usize % 2048, tlsf_free(heap, p)), (0, TLSF_OK));
            for align in [0, 3, 8192, 1 << 63] {
                assert!(tlsf_aligned_alloc(heap, align, 40).is_null());
            }
        });
    }
}

#[test]
fn pointers_that_no_block_has_are_refused() {
    with_heap(false, |heap| unsafe {
        let p = tlsf_malloc(heap, 64);
        for by in [1, 4, 8, 16, 64, usize::MAX] {
            let wild = (p as usize).wrapping_add(by) as *mut c_void;
            assert_eq!((tlsf_free(heap, wild), tlsf_usable_size(heap, wild)), (TLSF_STALE, 0));
        }
        assert_eq!(tlsf_usable_size(heap, p), 72);
        assert_eq!(
            (tlsf_free(heap, p), tlsf_free(heap, p), tlsf_free(heap, null_mut())),
            (TLSF_OK, TLSF_STALE, TLSF_OK)
        );
        assert!(tlsf_malloc(heap, TLSF_LONGEST + 1).is_null() && tlsf_malloc(heap, 9000).is_null());
        assert!(tlsf_calloc(heap, 1 << 63, 2).is_null());
    });
}

#[test]
fn zeroed_means_zero() {
    for mixed in [false, true] {
        with_heap(mixed, |heap| unsafe {
            let p = tlsf_malloc(heap, 7000);
            fill(p, 0xee, 7000);
            tlsf_free(heap, p);
            let p = tlsf_calloc(heap, 10, 100);
            assert!(is_filled(p, 0, 1000));
            let (mut name, mut at) = (tlsf_name::default(), null_mut());
            assert_eq!(tlsf_allocate_at(heap, 1000, 32, 0, &mut name, &mut at), TLSF_OK);
            assert!(is_filled(at, 0, 1000) && at as usize % 32 == 0);
            let mut other = tlsf_name::default();
            assert_eq!((tlsf_name_at(heap, at, &mut other), other), (TLSF_OK, name));
            assert_eq!(tlsf_payload(heap, name, null_mut()), at);
            assert_eq!(tlsf_allocate_at(heap, 8, 24, 0, &mut name, &mut at), TLSF_BAD_SIZE);
        });
    }
}

#[test]
fn what_is_reallocated_keeps_its_bytes() {
    for mixed in [false, true] {
        with_heap(mixed, |heap| unsafe {
            let p = tlsf_malloc(heap, 24);
            fill(p, 7, 24);
            let mut name = tlsf_name::default();
            assert_eq!(tlsf_allocate(heap, 40, &mut name), TLSF_OK); // so that it has to move
            let moved = tlsf_realloc(heap, p, 300);
            assert!(moved != p && moved as usize % 16 == 0 && is_filled(moved, 7, 24));
            assert_eq!(tlsf_free(heap, p), TLSF_STALE);
            let cut = tlsf_realloc(heap, moved, 9);
            assert!(cut == moved && is_filled(cut, 7, 9));
            assert!(tlsf_realloc(heap, cut, 9000).is_null() && is_filled(cut, 7, 9));
            assert!(tlsf_realloc(heap, cut, 0).is_null());
            assert_eq!(tlsf_free(heap, cut), TLSF_STALE);
            let last = tlsf_realloc(heap, null_mut(), 5000);
            assert!(tlsf_realloc(heap, last, 24) == last && tlsf_realloc(heap, last, 500) == last);
        });
    }
}

/// In a mixed heap a block by pointer grows over a free one, or moves to an aligned place.
#[test]
fn what_is_reallocated_beside_odd_blocks_is_aligned() {
    with_heap(false, |heap| unsafe {
        let mut blocks: [*mut c_void; 8] = [null_mut(); 8];
        let mut names = [tlsf_name::default(); 8];
        for (k, (p, name)) in blocks.iter_mut().zip(&mut names).enumerate() {
            *p = tlsf_malloc(heap, 24);
            fill(*p, k as u8, 24);
            assert_eq!(tlsf_allocate(heap, 16 * (k % 3), name), TLSF_OK);
        }
        for (k, p) in blocks.iter_mut().enumerate() {
            if k % 2 == 0 {
                tlsf_release(heap, names[k]);
            }
            let len = 40 + 24 * k;
            *p = tlsf_realloc(heap, *p, len);
            assert!(!p.is_null() && *p as usize % 16 == 0 && is_filled(*p, k as u8, 24), "{k}");
            assert!(tlsf_usable_size(heap, *p) >= len);
        }
    });
}
