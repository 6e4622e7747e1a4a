//! A heap behind a lock as this program's allocator, with threads.

use peachanchor::{GlobalHeap, Level, Region};
use std::alloc::{alloc, dealloc, realloc, Layout};
use std::collections::BTreeMap;
use std::thread;

static REGION: Region<{ 1 << 20 }> = Region::new();
// SAFETY: nothing here forks, and no handler allocates. Threads use what they allocated while others call: that is tried.
#[global_allocator]
static HEAP: GlobalHeap<{ 1 << 20 }> = unsafe { GlobalHeap::new(Level::Five, 1, &REGION) };

/// A backtrace takes more memory than the region has, so what fails here has none.
fn without_backtrace() {
    std::env::set_var("RUST_BACKTRACE", "0");
}

#[test]
fn collections_of_four_threads_hold_what_was_put_in() {
    without_backtrace();
    let threads: Vec<_> = (0..4_u32)
        .map(|seed| {
            thread::spawn(move || {
                let mut map = BTreeMap::new();
                for i in 0..4000 {
                    map.insert(i * 7919 % 1009, format!("{seed} {i}"));
                    if i % 3 == 0 {
                        map.pop_first();
                    }
                }
                map.iter().all(|(key, text)| {
                    let (who, i) = text.split_once(' ').unwrap();
                    who == seed.to_string() && i.parse::<u32>().unwrap() * 7919 % 1009 == *key
                })
            })
        })
        .collect();
    assert!(threads.into_iter().all(|it| it.join().unwrap()));
}

#[test]
fn bytes_stay_at_each_alignment() {
    without_backtrace();
    for align in [1, 16, 64, 4096, 1 << 16] {
        let layout = Layout::from_size_align(100, align).unwrap();
        // SAFETY: the block is used within its size, and given back once.
        unsafe {
            let at = alloc(layout);
            at.write_bytes(9, 100);
            let wall = alloc(layout);
            let grown = realloc(at, layout, 5000);
            assert!(grown as usize % align == 0 && (0..100).all(|k| grown.add(k).read() == 9));
            dealloc(grown, Layout::from_size_align(5000, align).unwrap());
            dealloc(wall, layout);
            assert!(alloc(Layout::from_size_align(1 << 30, align).unwrap()).is_null());
        }
    }
}

#[test]
fn what_is_given_back_is_there_again() {
    without_backtrace();
    for round in 0..1000_u32 {
        let numbers = vec![round; 8192]; // 32 MiB in all
        assert_eq!(numbers[8191], round);
    }
}

#[test]
fn memory_lies_in_the_region() {
    without_backtrace();
    let it = Box::new(1_u8);
    let (from, at) = ((&raw const REGION) as usize, (&raw const *it) as usize);
    assert!(from < at && at < from + size_of_val(&REGION));
    assert!(REGION.take().is_none());
}
