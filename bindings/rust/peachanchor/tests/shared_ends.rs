//! Queues, and lanes, heaps and queues in memory that isn't `'static`.

use peachanchor::{lane_in, lane_words, Error, Heap, Level, Name, Poster, Queue};
use std::mem::MaybeUninit;
use std::thread;

type Words = Box<[MaybeUninit<u64>]>;

fn words(n: usize) -> Words {
    Box::new_uninit_slice(n)
}

fn heap_words() -> Words {
    words(Heap::words_in(Level::Four, 4096).unwrap())
}

/// The names of blocks with those numbers in them.
fn names(heap: &Heap<'_>, numbers: std::ops::Range<u32>) -> Vec<Name> {
    numbers.map(|k| heap.allocate_from(&k.to_le_bytes()).unwrap().into_name()).collect()
}

/// Tries until it is done, or refused for another reason than that it may be made again.
fn insist<T>(mut call: impl FnMut() -> Result<T, Error>) -> Result<T, Error> {
    loop {
        match call() {
            Err(Error::Busy | Error::Full) => thread::yield_now(),
            answer => return answer,
        }
    }
}

/// Four threads post 50 names each, which come to the owner's end, each thread's in their order.
fn four_post<'m>(queue: &mut Queue<'m>, heap: &mut Heap<'_>) {
    let all: Vec<_> = (0..4).map(|k| names(heap, k * 1000..k * 1000 + 50)).collect();
    let mut came: [Vec<u32>; 4] = Default::default();
    thread::scope(|scope| {
        for names in all {
            let mut poster: Poster<'m> = queue.poster().unwrap();
            scope.spawn(move || names.iter().for_each(|name| insist(|| poster.post(*name)).unwrap()));
        }
        while came.iter().map(Vec::len).sum::<usize>() < 200 {
            match queue.take() {
                Ok(name) => {
                    let number = u32::from_le_bytes(heap.payload(name).unwrap()[..4].try_into().unwrap());
                    came[number as usize / 1000].push(number % 1000);
                    heap.release(name).unwrap();
                }
                Err(error) => assert!(matches!(error, Error::Empty | Error::Busy)),
            }
        }
    });
    assert!(came.iter().all(|numbers| numbers.iter().copied().eq(0..50)));
    assert_eq!((heap.report().unwrap().live_blocks, queue.take()), (0, Err(Error::Empty)));
    assert_eq!(queue.poster().err(), Some(Error::Empty));
}

#[test]
fn names_of_four_posters_come_each_in_their_order() {
    let (mut memory, mut of_heap) = (words(Queue::words_in(4, 16).unwrap()), heap_words());
    let mut heap = Heap::open_in(Level::Four, 1, &mut of_heap).unwrap();
    four_post(&mut Queue::open_in(4, 16, &mut memory).unwrap(), &mut heap);
    #[cfg(feature = "malloc")]
    four_post(&mut Queue::open(4, 16).unwrap(), &mut heap);
}

#[test]
fn a_full_queue_takes_no_more_and_a_drain_releases_at_most_so_many() {
    let (mut memory, mut of_heap) = (words(Queue::words_in(1, 3).unwrap()), heap_words());
    let mut heap = Heap::open_in(Level::Four, 1, &mut of_heap).unwrap();
    let mut queue = Queue::open_in(1, 3, &mut memory).unwrap();
    let mut poster = queue.poster().unwrap();
    let names = names(&heap, 0..4);
    let posted: Vec<_> = names.iter().map(|name| poster.post(*name)).collect();
    assert_eq!(posted, [Ok(()), Ok(()), Ok(()), Err(Error::Full)]);
    assert_eq!((queue.take(), queue.drain(&mut heap, 1)), (Ok(names[0]), Ok(1)));
    assert_eq!((queue.drain(&mut heap, 9), heap.report().unwrap().live_blocks), (Ok(1), 2));
    drop(queue); // the poster's end stays open
    assert_eq!(poster.post(names[3]), Ok(()));
}

#[test]
fn queues_out_of_range_are_refused() {
    let enough = Queue::words_in(2, 8).unwrap();
    for (posters, capacity) in [(0, 8), (2, 0), (1025, 8), (2, 1025), (u32::MAX, 8)] {
        assert_eq!(Queue::words_in(posters, capacity), None);
        assert_eq!(Queue::open_in(posters, capacity, &mut words(1 << 16)).err(), Some(Error::BadSize));
        #[cfg(feature = "malloc")]
        assert_eq!(Queue::open(posters, capacity).err(), Some(Error::BadSize));
    }
    for n in [0, 1, enough / 2] {
        assert_eq!(Queue::open_in(2, 8, &mut words(n)).err(), Some(Error::BadSize));
    }
    assert!(Queue::open_in(2, 8, &mut words(enough)).is_ok());
}

#[test]
fn borrowed_memory_is_there_again() {
    let mut memory = [MaybeUninit::<u64>::uninit(); 4096];
    for round in 1..=3 {
        let (of_lane, of_heap) = memory.split_at_mut(lane_words(8).unwrap());
        let mut heap = Heap::open_in(Level::Four, round, of_heap).unwrap();
        let (mut post, mut take) = lane_in(8, of_lane).unwrap();
        let sent = names(&heap, 0..8);
        thread::scope(|scope| {
            scope.spawn(move || assert_eq!(post.put_all(&sent), Ok(8)));
        });
        assert_eq!((take.drain(&mut heap, 9), heap.report().unwrap().live_blocks), (Ok(8), 0));
    }
    memory.fill(MaybeUninit::new(7));
    // SAFETY: all were set by the line above.
    assert!(memory.iter().all(|word| unsafe { word.assume_init() } == 7));
}
