//! Handles and values lie as C's do.

use peachanchor_sys::{
    tlsf_block_info, tlsf_heap, tlsf_heap_counts, tlsf_heap_report, tlsf_kind, tlsf_name, tlsf_near_heap, tlsf_offsets,
    tlsf_offsets_usage, tlsf_placed, tlsf_pools, tlsf_post_end, tlsf_poster, tlsf_queue, tlsf_span,
};
use std::mem::{align_of, offset_of, size_of};

#[test]
fn values_lie_as_in_c() {
    assert_eq!((size_of::<tlsf_heap>(), offset_of!(tlsf_heap, is_open)), (32, 8));
    assert_eq!((offset_of!(tlsf_heap, base), offset_of!(tlsf_heap, number)), (16, 24));
    assert_eq!((offset_of!(tlsf_heap, is_mixed), size_of::<tlsf_placed>()), (28, 16));
    assert_eq!(offset_of!(tlsf_heap, align), 29);
    assert_eq!((size_of::<tlsf_near_heap>(), align_of::<tlsf_near_heap>()), (2880, 1));
    assert_eq!((size_of::<tlsf_post_end>(), size_of::<tlsf_heap_counts>()), (16, 16));
    assert_eq!((size_of::<tlsf_name>(), offset_of!(tlsf_name, serial)), (16, 8));
    assert_eq!((size_of::<tlsf_heap_report>(), offset_of!(tlsf_heap_report, age)), (48, 40));
    assert_eq!((size_of::<tlsf_block_info>(), offset_of!(tlsf_block_info, mark)), (24, 16));
    assert_eq!((size_of::<tlsf_queue>(), size_of::<tlsf_poster>(), size_of::<tlsf_offsets>()), (16, 16, 16));
    assert_eq!((size_of::<tlsf_pools>(), size_of::<tlsf_kind>(), offset_of!(tlsf_kind, len)), (16, 16, 8));
    assert_eq!((size_of::<tlsf_span>(), offset_of!(tlsf_span, size)), (32, 24));
    assert_eq!((size_of::<tlsf_offsets_usage>(), offset_of!(tlsf_offsets_usage, held)), (32, 8));
}
