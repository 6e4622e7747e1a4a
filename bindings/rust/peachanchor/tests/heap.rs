//! Blocks, names and what a heap tells of itself.
#![cfg(feature = "malloc")]

use peachanchor::{Block, Error, Heap, Level, Name, Region};
use std::alloc::Layout;

fn heap(words: u32) -> Heap<'static> {
    Heap::open(Level::Four, 1, words).unwrap()
}

fn bytes_of(block: &Block<'_>) -> Vec<u8> {
    block.iter().map(|cell| cell.get()).collect()
}

#[test]
fn blocks_release_themselves() {
    let heap = heap(1024);
    let first = heap.allocate(100).unwrap();
    {
        let second = heap.allocate(50).unwrap();
        assert_ne!(second.name(), first.name());
        assert_eq!(heap.report().unwrap().live_blocks, 2);
    }
    assert_eq!(heap.report().unwrap().live_blocks, 1);
    first.release().unwrap();
    assert_eq!((heap.report().unwrap().live_blocks, heap.counts().unwrap().words), (0, 0));
}

#[test]
fn payload_is_zero_although_something_lay_there() {
    let heap = heap(64);
    for round in 0..3 {
        let block = heap.allocate(200).unwrap();
        assert_eq!(bytes_of(&block), [0; 200], "round {round}");
        block.write(0, &[0xff; 200]).unwrap();
    }
}

#[test]
fn bytes_past_the_end_are_refused() {
    let heap = heap(64);
    let block = heap.allocate(10).unwrap();
    assert_eq!(block.write(8, &[1, 2, 3]), Err(Error::Range));
    assert_eq!(block.write(usize::MAX, &[1]), Err(Error::Range));
    assert_eq!(block.read(11, &mut []), Err(Error::Range));
    assert_eq!(bytes_of(&block), [0; 10]);
    block.write(8, &[1, 2]).unwrap();
    block.write(10, &[]).unwrap();
    let mut out = [9; 4];
    block.read(6, &mut out).unwrap();
    assert_eq!(out, [0, 0, 1, 2]);
}

#[test]
fn a_copy_has_nothing_unset_after_it() {
    let mut heap = heap(64);
    for len in 0..40 {
        drop({
            let dirty = heap.allocate(200).unwrap();
            dirty.write(0, &[0xee; 200]).unwrap();
            dirty
        });
        let mut block = heap.allocate_from(&vec![5; len]).unwrap();
        assert_eq!(bytes_of(&block), vec![5; len]);
        assert_eq!(block.as_ptr() as usize % 16, 0);
        block.resize(60).unwrap();
        assert_eq!(bytes_of(&block)[len..], vec![0; 60 - len]);
        drop(block);
        let name = heap.allocate_from(&vec![5; len]).unwrap().into_name();
        assert!(heap.payload(name).unwrap()[len..].iter().all(|byte| *byte == 0));
        heap.release(name).unwrap();
    }
}

#[test]
fn blocks_grow_where_they_stand_or_move() {
    let heap = heap(1024);
    let mut block = heap.allocate_from(&[7; 16]).unwrap();
    let (name, wall) = (block.name(), heap.allocate(8).unwrap());
    assert_eq!(block.resize(100), Err(Error::NoRoom));
    block.reallocate(100).unwrap();
    assert_ne!(block.name(), name);
    assert_eq!((&bytes_of(&block)[..16], &bytes_of(&block)[16..]), (&[7; 16][..], &[0; 84][..]));
    assert_eq!(block.reallocate(9000), Err(Error::NoFit));
    assert_eq!(block.len(), 100);
    block.resize(4).unwrap();
    block.resize(8).unwrap();
    assert_eq!(bytes_of(&block), [7, 7, 7, 7, 0, 0, 0, 0]);
    let bytes = block.bytes_mut();
    std::thread::scope(|scope| {
        scope.spawn(|| bytes.fill(3));
        drop(heap.allocate(100).unwrap()); // meanwhile
    });
    assert_eq!(block[7].get(), 3);
    drop((block, wall));
    assert_eq!(heap.report().unwrap().live_blocks, 0);
}

#[test]
fn names_see_what_is_stale_or_foreign() {
    let mut heap = heap(64);
    let name = heap.allocate(8).unwrap().into_name();
    let grown = heap.reallocate(name, 24).unwrap();
    heap.resize(grown, 8).unwrap();
    heap.payload(grown).unwrap().fill(1);
    heap.release(grown).unwrap();
    let next = heap.allocate(8).unwrap().into_name();
    assert_eq!((next.place(), next.serial() > grown.serial()), (grown.place(), true));
    for stale in [name, grown] {
        assert_eq!(heap.release(stale), Err(Error::Stale));
        assert_eq!(heap.resize(stale, 1), Err(Error::Stale));
        assert_eq!(heap.reallocate(stale, 1), Err(Error::Stale));
        assert_eq!(heap.payload(stale).err(), Some(Error::Stale));
    }
    let mut other = Heap::open(Level::Five, 2, 64).unwrap();
    assert_eq!(other.release(next), Err(Error::Foreign));
    assert_eq!(heap.payload(next).unwrap(), [0; 8]);
}

#[test]
fn sizes_out_of_range_are_refused() {
    assert_eq!(Heap::open(Level::Four, 1, 3).err(), Some(Error::BadSize));
    assert_eq!(Heap::open(Level::Four, 1, (1 << 20) + 1).err(), Some(Error::BadSize));
    assert_eq!(Heap::words_for(Level::Four, u32::MAX, 8), Err(Error::BadSize));
    assert_eq!(
        Heap::words_for_layout(Level::Four, 4, Layout::from_size_align(8, 1 << 62).unwrap()),
        Err(Error::BadSize)
    );
    assert_eq!(Heap::words_for(Level::Five, 100, 512), Ok(Heap::words_for(Level::Five, 100, 512).unwrap()));
    static SMALL: Region<3> = Region::new();
    assert_eq!(Heap::open_in(Level::Four, 1, SMALL.take().unwrap()).err(), Some(Error::BadSize));
    assert!(SMALL.take().is_none());
}

#[test]
fn a_heap_in_memory_has_the_words_that_were_asked_for() {
    for words in [4, 5, 63, 64, 65, 1000, 4097] {
        let memory = Box::leak(Box::new_uninit_slice(Heap::words_in(Level::Four, words).unwrap()));
        let (first, last) = (memory.as_ptr() as usize, memory.as_ptr_range().end as usize);
        let heap = Heap::open_in(Level::Four, 1, memory).unwrap();
        assert!(heap.report().unwrap().free_words >= words, "{words}");
        let block = heap.allocate(heap.report().unwrap().grant as usize).unwrap();
        block.iter().for_each(|cell| cell.set(0xff));
        let inside = block.as_ptr_range();
        assert!(first + 32 <= inside.start as usize && inside.end as usize <= last);
        assert_eq!(heap.check(), Ok(()));
    }
}

#[test]
fn an_overrun_is_told_wherever_it_is() {
    let heap = heap(1 << 16);
    let blocks: Vec<_> = (0..3000).map(|_| heap.allocate(8).unwrap()).collect();
    assert_eq!(heap.check(), Ok(()));
    // SAFETY: none: it is what `check` has to tell.
    unsafe { blocks[2900].as_ptr().cast::<u64>().cast_mut().add(1).write(u64::MAX) };
    assert_eq!(heap.check(), Err(Error::Damaged));
    std::mem::forget(blocks);
}

#[test]
fn what_is_obtained_is_aligned() {
    let heap = heap(1 << 16);
    // SAFETY: there is one thread and one heap with this number, and nothing is written.
    let memory = unsafe { heap.in_place() };
    for align in [1, 8, 16, 32, 512, 4096, 1 << 16] {
        for size in [0, 1, 24, 3000] {
            let layout = Layout::from_size_align(size, align).unwrap();
            let (first, second) = (memory.obtain(layout).unwrap(), memory.obtain(layout).unwrap());
            for at in [first, second] {
                assert_eq!((at.len(), at.cast::<u8>().as_ptr() as usize % align), (size, 0));
            }
            assert_eq!(heap.report().unwrap().live_blocks, if size == 0 { 0 } else { 2 });
            // SAFETY: both came from `obtain`.
            unsafe {
                memory.give_back(first.cast(), layout);
                memory.give_back(second.cast(), layout);
            }
        }
    }
    for align in [1 << 20, 1 << 28, 1 << 40, 1 << 62] {
        assert_eq!(memory.obtain(Layout::from_size_align(8, align).unwrap()), Err(Error::NoFit));
    }
    assert_eq!(heap.report().unwrap().live_blocks, 0);
}

/// Calls by chance, against a plain table.
#[test]
fn random_calls_agree_with_a_table() {
    let mut heap = heap(2048);
    let mut table: Vec<(Name, Vec<u8>)> = Vec::new();
    let (mut seed, mut refused) = (1_u64, 0);
    let mut chance = |below: usize| {
        seed = seed.wrapping_mul(6364136223846793005).wrapping_add(1442695040888963407);
        (seed >> 33) as usize % below
    };
    for round in 0..20_000 {
        let (len, k) = (chance(300), chance(table.len().max(1)));
        match chance(5) {
            0 => match heap.allocate(len) {
                Ok(block) => table.push((block.into_name(), vec![0; len])),
                Err(_) => refused += 1,
            },
            1 => match heap.allocate_from(&vec![round as u8; len]) {
                Ok(block) => table.push((block.into_name(), vec![round as u8; len])),
                Err(_) => refused += 1,
            },
            2 if !table.is_empty() => {
                let (name, bytes) = table.swap_remove(k);
                assert_eq!(heap.payload(name).unwrap()[..bytes.len()], bytes, "round {round}");
                assert_eq!((heap.release(name), heap.release(name)), (Ok(()), Err(Error::Stale)));
            }
            3 if !table.is_empty() => match heap.reallocate(table[k].0, len) {
                Ok(name) => {
                    table[k].0 = name;
                    table[k].1.resize(len, 0);
                }
                Err(_) => refused += 1,
            },
            4 if !table.is_empty() => {
                let (name, bytes) = &mut table[k];
                let n = bytes.len();
                bytes.fill(round as u8);
                heap.payload(*name).unwrap()[..n].fill(round as u8);
            }
            _ => {}
        }
        assert_eq!(heap.report().unwrap().live_blocks as usize, table.len());
    }
    assert!(refused > 100 && heap.check().is_ok());
}
