//! Arenas of offsets, and pools.

use peachanchor::{Error, Level, Offsets};
use std::mem::MaybeUninit;
use std::thread;

const UNIT: u64 = 65_536;

/// What an arena of 64 units answers.
fn spans(mut arena: Offsets<'_>) {
    let first = arena.allocate(1).unwrap();
    let second = arena.allocate(3 * UNIT + 1).unwrap();
    assert_eq!((first.offset % UNIT, first.size >= 1, second.size >= 4 * UNIT), (0, true, true));
    assert!(first.offset + first.size <= second.offset || second.offset + second.size <= first.offset);
    let usage = arena.report().unwrap();
    assert_eq!((usage.spans, usage.held), (2, first.size + second.size));
    assert_eq!((usage.free, usage.largest <= usage.free), (64 * UNIT - usage.held, true));
    assert_eq!(arena.allocate(65 * UNIT).err(), Some(Error::NoFit));
    assert_eq!(arena.resize(first.name, 60 * UNIT).err(), Some(Error::NoRoom));
    arena.release(first.name).unwrap();
    for stale in [arena.release(first.name), arena.resize(first.name, 1).map(drop)] {
        assert_eq!(stale, Err(Error::Stale));
    }
    let larger = arena.resize(second.name, 8 * UNIT).unwrap();
    assert_eq!((larger.name, larger.offset, larger.size >= 8 * UNIT), (second.name, second.offset, true));
    arena =
        thread::scope(|scope| scope.spawn(move || arena.release(second.name).map(|()| arena)).join().unwrap().unwrap());
    assert_eq!((arena.report().unwrap().spans, arena.report().unwrap().largest), (0, 64 * UNIT));
}

#[test]
fn spans_lie_apart_and_go_back_by_name() {
    let mut memory = Box::new_uninit_slice(Offsets::words_in(Level::Five, 64).unwrap());
    for number in 1..3 {
        spans(Offsets::open_in(Level::Five, number, UNIT as u32, 64, &mut memory).unwrap());
    }
    #[cfg(feature = "malloc")]
    spans(Offsets::open(Level::Four, 1, UNIT as u32, 64).unwrap());
}

#[test]
fn arenas_out_of_range_are_refused() {
    let enough = Offsets::words_in(Level::Four, 64).unwrap();
    let mut memory = vec![MaybeUninit::uninit(); enough];
    for (unit, units) in [(0, 64), (8, 3), (8, (1 << 20) + 1), (8, u32::MAX)] {
        assert_eq!(Offsets::open_in(Level::Four, 1, unit, units, &mut memory).err(), Some(Error::BadSize));
        #[cfg(feature = "malloc")]
        assert_eq!(Offsets::open(Level::Four, 1, unit, units).err(), Some(Error::BadSize));
    }
    for n in [0, 1, enough / 2] {
        assert_eq!(Offsets::open_in(Level::Four, 1, 8, 64, &mut memory[..n]).err(), Some(Error::BadSize));
    }
    let mut arena = Offsets::open_in(Level::Four, 1, 8, 64, &mut memory).unwrap();
    let mut other_memory = vec![MaybeUninit::uninit(); enough];
    let mut other = Offsets::open_in(Level::Four, 2, 8, 64, &mut other_memory).unwrap();
    assert_eq!(other.release(arena.allocate(8).unwrap().name), Err(Error::Foreign));
}

#[cfg(feature = "malloc")]
mod pools {
    use peachanchor::{Error, Heap, Kind, Level, Pools, RowCounts};
    use std::thread;

    const TABLE: [Kind; 2] = [Kind { most: 3, len: 64 }, Kind { most: 1, len: 3000 }];

    fn live(pools: &Pools) -> u32 {
        (0..).map_while(|part| pools.report(part).ok()).map(|it| it.live_blocks).sum()
    }

    #[test]
    fn no_row_has_more_blocks_than_it_may() {
        let mut pools = Pools::open(Level::Four, 1, &TABLE).unwrap();
        let names: Vec<_> = [1, 64, 0].map(|len| pools.allocate(len).unwrap()).into();
        let long = pools.allocate(65).unwrap();
        assert_eq!((pools.allocate(9), pools.allocate(65)), (Err(Error::RowFull), Err(Error::RowFull)));
        assert_eq!((pools.allocate(3001), pools.allocate(1 << 40)), (Err(Error::BadSize), Err(Error::BadSize)));
        assert_eq!((live(&pools), pools.report(99).err()), (4, Some(Error::Stale)));
        let mut pools = thread::spawn(move || pools.release(long).map(|()| pools)).join().unwrap().unwrap();
        assert_eq!((pools.release(long), live(&pools)), (Err(Error::Stale), 3));
        for name in names {
            pools.release(name).unwrap();
        }
        assert_eq!(live(&pools), 0);
    }

    #[test]
    fn rows_are_counted() {
        let mut pools = Pools::open(Level::Five, 1, &TABLE).unwrap();
        let names: Vec<_> = [1, 64].map(|len| pools.allocate(len).unwrap()).into();
        assert_eq!(pools.counts(0), Ok(RowCounts { held: 2, most: 3 }));
        assert_eq!(pools.counts(1), Ok(RowCounts { held: 0, most: 1 }));
        let long = pools.allocate(65).unwrap();
        pools.release(names[0]).unwrap();
        assert_eq!(pools.counts(0), Ok(RowCounts { held: 1, most: 3 }));
        assert_eq!(pools.counts(1), Ok(RowCounts { held: 1, most: 1 }));
        pools.release(long).unwrap();
        assert_eq!(pools.counts(1).map(|it| it.held), Ok(0));
        assert_eq!([2, 64, u32::MAX].map(|row| pools.counts(row).err()), [Some(Error::Stale); 3]);
    }

    #[test]
    fn bytes_are_copied_whole_or_not_at_all() {
        let mut pools = Pools::open(Level::Four, 1, &TABLE).unwrap();
        let name = pools.allocate(3000).unwrap();
        let bytes: Vec<_> = (0..3000_u32).map(|k| (k * 7 % 251) as u8).collect();
        for (at, n) in [(0, 3000), (1, 2999), (2744, 256), (2743, 257), (3000, 0), (5, 0)] {
            pools.write(name, 0, &[0; 3000]).unwrap();
            pools.write(name, at, &bytes[..n]).unwrap();
            let (mut all, mut part) = (vec![1; 3000], vec![1; n]);
            pools.read(name, 0, &mut all).unwrap();
            pools.read(name, at, &mut part).unwrap();
            assert_eq!((&all[..at], &all[at..at + n], &part[..]), (&vec![0; at][..], &bytes[..n], &bytes[..n]));
            assert!(all[at + n..].iter().all(|byte| *byte == 0));
        }
        pools.write(name, 0, &[0; 3000]).unwrap();
        for (at, n) in [(1, 3000), (2700, 301), (3001, 0), (usize::MAX, 2), (1 << 40, 1)] {
            let mut out = vec![1; n];
            assert_eq!(pools.write(name, at, &bytes[..n]), Err(Error::Range), "{at}, {n}");
            assert_eq!(pools.read(name, at, &mut out), Err(Error::Range), "{at}, {n}");
            assert!(out.iter().all(|byte| *byte == 1));
        }
        let mut all = vec![1; 3000];
        pools.read(name, 0, &mut all).unwrap();
        assert_eq!(all, vec![0; 3000]);
        pools.release(name).unwrap();
        assert_eq!((pools.read(name, 0, &mut all), pools.write(name, 0, &[])), (Err(Error::Stale), Err(Error::Stale)));
        let foreign = Heap::open(Level::Four, 99, 64).unwrap().allocate(8).unwrap().into_name();
        assert_eq!(pools.release(foreign), Err(Error::Foreign));
    }

    #[test]
    fn tables_out_of_range_are_refused() {
        let rows = |n: usize| (1..=n).map(|len| Kind { most: 1, len }).collect::<Vec<_>>();
        assert!(Pools::open(Level::Four, 1, &rows(64)).is_ok());
        assert_eq!(Pools::open(Level::Four, 1, &rows(65)).err(), Some(Error::BadSize));
        assert_eq!(Pools::open(Level::Four, 1, &[TABLE[1], TABLE[0]]).err(), Some(Error::BadSize));
        assert_eq!(Pools::open(Level::Four, 1, &[Kind { most: 1, len: 1 << 27 }]).err(), Some(Error::BadSize));
        assert_eq!(Pools::open(Level::Four, u32::MAX, &TABLE).err(), Some(Error::BadSize));
    }
}
