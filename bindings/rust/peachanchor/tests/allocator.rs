//! Collections in a heap, by nightly's `Allocator`.
#![cfg(all(feature = "allocator_api", feature = "malloc"))]
#![feature(allocator_api)]

use peachanchor::{Heap, Level};

#[test]
fn a_vector_grows_in_the_heap() {
    let heap = Heap::open(Level::Four, 1, 4096).unwrap();
    // SAFETY: there is one thread and one heap with this number, and std writes within what it asked for.
    let memory = unsafe { heap.in_place() };
    let mut numbers = Vec::new_in(memory);
    numbers.extend(0..1000_u64);
    assert_eq!(heap.report().unwrap().live_blocks, 1);
    assert!(numbers.try_reserve(1 << 20).is_err());
    let boxed = Box::new_in([0_u8; 0], memory);
    assert_eq!((numbers.iter().sum::<u64>(), boxed.len()), (499_500, 0));
    drop((numbers, boxed));
    assert_eq!(heap.report().unwrap().live_blocks, 0);
}
