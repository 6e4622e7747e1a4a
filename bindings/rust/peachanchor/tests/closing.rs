//! Heaps, lanes, queues, arenas and pools give back what they took from `malloc`. One test alone, since it counts what the process has.
#![cfg(all(feature = "malloc", target_os = "linux", target_env = "gnu"))]

use peachanchor::{lane, Heap, Kind, Level, Offsets, Pools, Queue};

/// As glibc's malloc.h has it.
#[repr(C)]
struct Mallinfo2 {
    counts: [usize; 10],
}

extern "C" {
    fn mallinfo2() -> Mallinfo2;
}

/// The bytes in use: those that were mapped, and those in arenas.
fn in_use() -> usize {
    // SAFETY: it takes nothing and fills what it answers.
    let it = unsafe { mallinfo2() };
    it.counts[4] + it.counts[7]
}

#[test]
fn what_is_dropped_takes_no_memory() {
    let before = in_use();
    // The test's own runner takes some memory meanwhile. The least piece that could be kept each time has 255 bytes.
    for _ in 0..400 {
        drop((Heap::open(Level::Four, 1, 4096), lane(64), Offsets::open(Level::Four, 1, 8, 64)));
        drop(Pools::open(Level::Four, 1, &[Kind { most: 2, len: 64 }]));
        let mut queue = Queue::open(1, 64).unwrap();
        let poster = queue.poster().unwrap();
        assert!(queue.poster().is_err());
        drop((queue, poster));
        assert!(Heap::open(Level::Four, 1, 3).is_err() && lane(0).is_err() && Queue::open(0, 1).is_err());
        assert!(Offsets::open(Level::Four, 1, 8, 3).is_err() && Pools::open(Level::Four, u32::MAX, &[]).is_err());
    }
    let after = in_use();
    assert!(after < before + 400 * 120, "{} bytes more", after - before);
    let heap = Heap::open(Level::Four, 1, 4096);
    assert!(in_use() > before + 8 * 4096);
    drop(heap);
}
