//! Lanes between threads, and heaps that are handed over.
#![cfg(feature = "malloc")]

use peachanchor::{lane, lane_in, lane_words, Error, Heap, Level};
use std::thread;
use std::time::{Duration, Instant};

#[test]
fn names_come_in_their_order_until_the_lane_is_full() {
    let heap = Heap::open(Level::Four, 1, 1024).unwrap();
    let (mut post, mut take) = lane(3).unwrap();
    let names = [8, 16, 24, 32].map(|len| heap.allocate(len).unwrap().into_name());
    for name in &names[..3] {
        assert_eq!(post.put(*name), Ok(()));
    }
    assert_eq!(post.put(names[3]), Err(Error::Full));
    drop(post); // the other end stays open
    assert_eq!([take.take(), take.take(), take.take()], [Ok(names[0]), Ok(names[1]), Ok(names[2])]);
    assert_eq!(take.take(), Err(Error::Empty));
}

#[test]
fn many_names_go_at_once_until_the_lane_is_full() {
    let heap = Heap::open(Level::Four, 1, 1024).unwrap();
    let names: Vec<_> = (0..100).map(|_| heap.allocate(8).unwrap().into_name()).collect();
    let (mut post, mut take) = lane(70).unwrap();
    assert_eq!((post.put_all(&names), post.put_all(&names)), (Ok(70), Ok(0)));
    for name in &names[..70] {
        assert_eq!(take.take(), Ok(*name));
    }
    assert_eq!((take.take(), post.put_all(&[]), post.put_all(&names[..64])), (Err(Error::Empty), Ok(0), Ok(64)));
}

#[test]
fn sizes_out_of_range_are_refused() {
    assert_eq!(lane(0).err(), Some(Error::BadSize));
    assert_eq!(lane(1025).err(), Some(Error::BadSize));
    let words = lane_words(10).unwrap();
    assert!(lane_in(10, Box::leak(Box::new_uninit_slice(words))).is_ok());
    assert_eq!(lane_in(10, Box::leak(Box::new_uninit_slice(words / 2))).err(), Some(Error::BadSize));
    assert_eq!(lane_in(10, Box::leak(Box::new_uninit_slice(1))).err(), Some(Error::BadSize));
}

#[test]
fn a_drain_releases_at_most_so_many() {
    let mut heap = Heap::open(Level::Four, 1, 1024).unwrap();
    let (mut post, mut take) = lane_in(8, Box::leak(Box::new_uninit_slice(lane_words(8).unwrap()))).unwrap();
    for _ in 0..5 {
        post.put(heap.allocate(8).unwrap().into_name()).unwrap();
    }
    let stale = heap.allocate(8).unwrap().name();
    post.put(stale).unwrap();
    assert_eq!((take.drain(&mut heap, 2), heap.report().unwrap().live_blocks), (Ok(2), 3));
    assert_eq!((take.drain(&mut heap, 99), heap.report().unwrap().live_blocks), (Ok(4), 0));
    assert_eq!(take.drain(&mut heap, 99), Ok(0));
}

#[test]
fn names_go_to_a_thread_and_back() {
    let mut heap = Heap::open(Level::Four, 1, 4096).unwrap();
    let ((mut there, mut at_other), (mut back, mut here)) = (lane(16).unwrap(), lane(16).unwrap());
    let other = thread::spawn(move || {
        for _ in 0..5000 {
            let name = loop {
                match at_other.take() {
                    Ok(name) => break name,
                    Err(_) => thread::yield_now(),
                }
            };
            while back.put(name).is_err() {
                thread::yield_now();
            }
        }
    });
    let (mut sent, mut came, begins) = (0_u32, 0_u32, Instant::now());
    while came < 5000 {
        assert!(begins.elapsed() < Duration::from_secs(60), "{came} names came");
        if sent < 5000 && sent - came < 16 {
            there.put(heap.allocate_from(&sent.to_le_bytes()).unwrap().into_name()).unwrap();
            sent += 1;
        }
        while let Ok(name) = here.take() {
            assert_eq!(heap.payload(name).unwrap()[..4], came.to_le_bytes());
            heap.release(name).unwrap();
            came += 1;
        }
    }
    other.join().unwrap();
    assert_eq!(heap.report().unwrap().live_blocks, 0);
}

#[test]
fn a_heap_goes_to_another_thread_and_stays_as_it_is() {
    let mut heap = Heap::open(Level::Five, 9, 4096).unwrap();
    let name = heap.allocate_from(b"before").unwrap().into_name();
    let mut heap = thread::spawn(move || {
        heap.payload(name).unwrap()[..2].copy_from_slice(b"BE");
        heap
    })
    .join()
    .unwrap();
    assert_eq!(&heap.payload(name).unwrap()[..6], b"BEfore");
}
