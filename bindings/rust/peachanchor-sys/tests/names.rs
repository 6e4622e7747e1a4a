//! The calls by name, with names that lie in payloads, as in a list of nodes.
#![cfg(feature = "malloc")]

use peachanchor_sys::*;
use std::ptr::null_mut;

#[test]
fn names_lie_in_payloads() {
    let mut heap = tlsf_heap::CLOSED;
    let heap = &raw mut heap;
    unsafe {
        assert_eq!(tlsf_open(heap, 5, 3, 4096), TLSF_OK);
        let (mut first, mut len) = (tlsf_name::default(), 0);
        assert_eq!(tlsf_allocate(heap, size_of::<tlsf_name>(), &mut first), TLSF_OK);
        let link = tlsf_payload(heap, first, &mut len).cast::<tlsf_name>();
        assert_eq!((len, (*heap).is_mixed), (16, true));
        assert_eq!(tlsf_allocate(heap, 40, link), TLSF_OK); // the name of the second block lies in the first
        assert_eq!(tlsf_write(heap, *link, 2, [5; 40].as_ptr(), 38), TLSF_OK);
        assert_eq!(tlsf_write(heap, *link, 3, [5; 40].as_ptr(), 38), TLSF_RANGE);
        let second = *link;
        assert_eq!((tlsf_reallocate(heap, link, 400), tlsf_resize(heap, *link, 48)), (TLSF_OK, TLSF_OK));
        let mut bytes = [9_u8; 6];
        assert_eq!((tlsf_read(heap, *link, 36, bytes.as_mut_ptr(), 6), bytes), (TLSF_OK, [5, 5, 5, 5, 0, 0]));
        let base = tlsf_base(heap);
        assert_eq!((base, tlsf_at(base, *link)), ((*heap).base, tlsf_payload(heap, *link, null_mut())));
        let mut found = null_mut();
        assert_eq!((tlsf_locate(heap, *link, &mut found, &mut len), found, len), (TLSF_OK, base, 48));
        assert_eq!((*link == second, tlsf_release(heap, *link)), (true, TLSF_OK));
        assert!(tlsf_payload(heap, *link, null_mut()).is_null());
        *link = first;
        assert_eq!((tlsf_release(heap, *link), tlsf_release(heap, first)), (TLSF_OK, TLSF_STALE));
        let mut counts = tlsf_heap_counts::default();
        assert_eq!((tlsf_counts(heap, &mut counts), counts.words), (TLSF_OK, 0));
        assert_eq!(tlsf_close(heap), TLSF_OK);
        assert!(tlsf_base(heap).is_null() && tlsf_at(tlsf_base(heap), first).is_null());
    }
}

#[test]
fn names_go_through_a_lane_in_their_order() {
    let (mut post, mut take) = (tlsf_post_end::CLOSED, tlsf_take_end::CLOSED);
    let name = tlsf_name { heap: 1, at: 2, serial: 3 };
    let mut came = tlsf_name::default();
    unsafe {
        assert_eq!(tlsf_lane_open(&mut post, &mut take, 1), TLSF_OK);
        assert_eq!((tlsf_take(&mut take, &mut came), came), (TLSF_EMPTY, tlsf_name::default()));
        assert_eq!((tlsf_put(&mut post, name), tlsf_put(&mut post, name)), (TLSF_OK, TLSF_FULL));
        assert_eq!((tlsf_take(&mut take, &mut came), came), (TLSF_OK, name));
        let (names, mut went) = ([name; 3], 9);
        assert_eq!((tlsf_put_all(&mut post, names.as_ptr(), 3, &mut went), went), (TLSF_OK, 1));
        assert_eq!((tlsf_put_all(&mut post, names.as_ptr(), 0, &mut went), went), (TLSF_OK, 0));
        let (mut taken, mut many) = ([tlsf_name::default(); 3], 9);
        assert_eq!((tlsf_take_all(&mut take, taken.as_mut_ptr(), 3, &mut many), many), (TLSF_OK, 1));
        assert_eq!(taken, [name, tlsf_name::default(), tlsf_name::default()]);
        assert_eq!((tlsf_take_all(&mut take, taken.as_mut_ptr(), 3, &mut many), many), (TLSF_EMPTY, 1));
        assert_eq!((tlsf_take_all(&mut take, taken.as_mut_ptr(), 0, &mut many), many), (TLSF_OK, 0));
        assert_eq!((tlsf_post_close(&mut post), tlsf_take_close(&mut take)), (TLSF_OK, TLSF_OK));
        assert_eq!(tlsf_take_close(&mut take), TLSF_IS_CLOSED);
    }
}

#[test]
fn names_of_two_posters_go_through_a_queue() {
    let (mut queue, mut one, mut two) = (tlsf_queue::CLOSED, tlsf_poster::CLOSED, tlsf_poster::CLOSED);
    let name = tlsf_name { heap: 1, at: 2, serial: 3 };
    let mut came = tlsf_name::default();
    unsafe {
        assert_eq!(tlsf_queue_open(&mut queue, 1025, 2), TLSF_BAD_SIZE);
        assert_eq!(tlsf_queue_open(&mut queue, 2, 2), TLSF_OK);
        assert_eq!(
            (tlsf_poster_open(&mut queue, &mut one), tlsf_poster_open(&mut queue, &mut two)),
            (TLSF_OK, TLSF_OK)
        );
        assert_eq!((tlsf_queue_take(&mut queue, &mut came), came), (TLSF_EMPTY, tlsf_name::default()));
        assert_eq!((tlsf_queue_post(&mut one, name), tlsf_queue_post(&mut two, name)), (TLSF_OK, TLSF_OK));
        assert_eq!(tlsf_queue_post(&mut one, name), TLSF_FULL);
        assert_eq!((tlsf_queue_take(&mut queue, &mut came), came), (TLSF_OK, name));
        assert_eq!((tlsf_poster_close(&mut one), tlsf_queue_close(&mut queue)), (TLSF_OK, TLSF_OK));
        assert_eq!((tlsf_poster_close(&mut two), tlsf_queue_close(&mut queue)), (TLSF_OK, TLSF_IS_CLOSED));
    }
}

#[test]
fn spans_of_an_arena_of_offsets() {
    let mut offsets = tlsf_offsets::CLOSED;
    let (mut span, mut usage) = (tlsf_span::default(), tlsf_offsets_usage::default());
    unsafe {
        assert_eq!(tlsf_offsets_open(&mut offsets, 4, 1, 256, 64), TLSF_OK);
        assert_eq!((tlsf_offsets_allocate(&mut offsets, 2000, &mut span), span.size), (TLSF_OK, 2048));
        assert_eq!((tlsf_offsets_resize(&mut offsets, &mut span, 4000), span.size), (TLSF_OK, 4096));
        assert_eq!((tlsf_offsets_report(&mut offsets, &mut usage), usage.held, usage.spans), (TLSF_OK, 4096, 1));
        assert_eq!(tlsf_offsets_release(&mut offsets, span.name), TLSF_OK);
        assert_eq!(tlsf_offsets_release(&mut offsets, span.name), TLSF_STALE);
        assert_eq!(tlsf_offsets_close(&mut offsets), TLSF_OK);
    }
}

#[test]
fn a_queue_and_an_arena_lie_in_memory_of_the_callers() {
    let (mut queue, mut poster, mut offsets) = (tlsf_queue::CLOSED, tlsf_poster::CLOSED, tlsf_offsets::CLOSED);
    let name = tlsf_name { heap: 1, at: 2, serial: 3 };
    let (mut came, mut span) = (tlsf_name::default(), tlsf_span::default());
    unsafe {
        let (for_queue, for_words) = (tlsf_queue_bytes(1, 2), tlsf_offsets_bytes(4, 64));
        assert_eq!((tlsf_queue_bytes(0, 2), tlsf_offsets_bytes(4, 3)), (0, 0));
        let (mut one, mut two) = (vec![0_u8; for_queue], vec![0_u8; for_words]);
        assert_eq!(tlsf_queue_open_in(&mut queue, 1, 2, one.as_mut_ptr().cast(), for_queue / 2), TLSF_BAD_SIZE);
        assert_eq!(tlsf_queue_open_in(&mut queue, 1, 2, one.as_mut_ptr().cast(), for_queue), TLSF_OK);
        assert_eq!(tlsf_offsets_open_in(&mut offsets, 4, 1, 256, 64, two.as_mut_ptr().cast(), for_words), TLSF_OK);
        assert_eq!((tlsf_poster_open(&mut queue, &mut poster), tlsf_queue_post(&mut poster, name)), (TLSF_OK, TLSF_OK));
        assert_eq!((tlsf_queue_take(&mut queue, &mut came), came), (TLSF_OK, name));
        assert_eq!((tlsf_offsets_allocate(&mut offsets, 2000, &mut span), span.size), (TLSF_OK, 2048));
        assert_eq!((tlsf_poster_close(&mut poster), tlsf_queue_close(&mut queue)), (TLSF_OK, TLSF_OK));
        assert_eq!(tlsf_offsets_close(&mut offsets), TLSF_OK);
    }
}

#[test]
fn memory_that_is_null_is_refused() {
    let (mut heap, mut queue, mut offsets) = (tlsf_heap::CLOSED, tlsf_queue::CLOSED, tlsf_offsets::CLOSED);
    let (mut near, mut post, mut take) = (tlsf_near_heap::CLOSED, tlsf_post_end::CLOSED, tlsf_take_end::CLOSED);
    for memory in [null_mut(), null_mut::<u8>().wrapping_sub(1)] {
        let memory = memory.cast();
        unsafe {
            assert_eq!(tlsf_open_in(&mut heap, 4, 1, memory, 1 << 16), TLSF_BAD_MEMORY);
            assert_eq!(tlsf_open_near_in(&mut near, 4, 1, memory, 1 << 16), TLSF_BAD_MEMORY);
            assert_eq!(tlsf_lane_open_in(&mut post, &mut take, 8, memory, 1 << 16), TLSF_BAD_MEMORY);
            assert_eq!(tlsf_queue_open_in(&mut queue, 2, 8, memory, 1 << 16), TLSF_BAD_MEMORY);
            assert_eq!(tlsf_offsets_open_in(&mut offsets, 4, 1, 64, 100, memory, 1 << 16), TLSF_BAD_MEMORY);
        }
    }
}

#[test]
fn pools_serve_a_table() {
    let mut pools = tlsf_pools::CLOSED;
    let rows = [tlsf_kind { most: 1, len: 16 }, tlsf_kind { most: 2, len: 4000 }];
    let (mut name, mut other, mut report) = (tlsf_name::default(), tlsf_name::default(), tlsf_heap_report::default());
    let (mut held, mut most, mut next, mut damaged) = (7, 7, 7, 7);
    let mut bytes = [9_u8; 3];
    unsafe {
        assert_eq!(tlsf_pools_open(&mut pools, 4, 5, [rows[1], rows[0]].as_ptr(), 2), TLSF_BAD_SIZE);
        assert_eq!(tlsf_pools_open(&mut pools, 4, 5, rows.as_ptr(), 2), TLSF_OK);
        assert_eq!((tlsf_pools_allocate(&mut pools, 16, &mut name), name.heap), (TLSF_OK, 5));
        assert_eq!(tlsf_pools_allocate(&mut pools, 1, &mut other), TLSF_ROW_FULL);
        assert_eq!((tlsf_pools_allocate(&mut pools, 17, &mut other), other.heap), (TLSF_OK, 6));
        assert_eq!(tlsf_pools_write(&mut pools, other, 0, [1, 2, 3].as_ptr(), 3), TLSF_OK);
        assert_eq!((tlsf_pools_read(&mut pools, other, 1, bytes.as_mut_ptr(), 3), bytes), (TLSF_OK, [2, 3, 0]));
        assert_eq!((tlsf_pools_report(&mut pools, 1, &mut report), report.live_blocks), (TLSF_OK, 1));
        assert_eq!(tlsf_pools_report(&mut pools, 2, &mut report), TLSF_STALE);
        assert_eq!((tlsf_pools_counts(&mut pools, 1, &mut held, &mut most), held, most), (TLSF_OK, 1, 2));
        assert_eq!(tlsf_pools_counts(&mut pools, 2, &mut held, &mut most), TLSF_STALE);
        assert_eq!((tlsf_pools_check(&mut pools, 1, 0, 9, &mut next, &mut damaged), next), (TLSF_OK, 0));
        assert_eq!(tlsf_pools_check(&mut pools, 2, 0, 9, &mut next, &mut damaged), TLSF_STALE);
        assert_eq!((tlsf_pools_release(&mut pools, name), tlsf_pools_release(&mut pools, name)), (TLSF_OK, TLSF_STALE));
        assert_eq!(tlsf_pools_close(&mut pools), TLSF_OK);
    }
}
