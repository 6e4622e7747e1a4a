//! Values in boxes of a heap.
#![cfg(feature = "malloc")]

use peachanchor::{Error, Heap, HeapBox, Level};
use std::cell::Cell;
use std::mem::{forget, MaybeUninit};
use std::panic::{catch_unwind, AssertUnwindSafe};
use std::rc::Rc;

fn heap(words: u32) -> Heap<'static> {
    Heap::open(Level::Four, 1, words).unwrap()
}

fn live(heap: &Heap<'_>) -> u32 {
    heap.report().unwrap().live_blocks
}

/// Says how many blocks were live when it was dropped.
struct Told<'h> {
    heap: &'h Heap<'h>,
    then: &'h Cell<Option<u32>>,
    panics: bool,
}

impl Drop for Told<'_> {
    fn drop(&mut self) {
        assert_eq!(self.then.replace(Some(live(self.heap))), None, "dropped once");
        assert!(!self.panics, "as the test wants");
    }
}

#[test]
fn a_value_is_dropped_once_and_its_block_goes_after_it() {
    let (heap, then) = (heap(1024), Cell::new(None));
    let told = |panics| Told { heap: &heap, then: &then, panics };
    let boxed = heap.boxed(told(false)).unwrap();
    assert_eq!((then.get(), live(&heap)), (None, 1));
    drop(boxed);
    assert_eq!((then.take(), live(&heap)), (Some(1), 0));
    let out = HeapBox::into_inner(heap.boxed(told(false)).unwrap());
    assert_eq!((then.get(), live(&heap)), (None, 0));
    drop(out);
    assert_eq!(then.take(), Some(0));
    let panics = heap.boxed(told(true)).unwrap();
    assert!(catch_unwind(AssertUnwindSafe(|| drop(panics))).is_err());
    assert_eq!((then.take(), live(&heap)), (Some(1), 0));
}

#[test]
fn a_value_that_finds_no_room_is_dropped() {
    let (heap, value) = (heap(8), Rc::new(()));
    assert_eq!(heap.boxed((value.clone(), [0; 100])).err(), Some(Error::NoFit));
    assert_eq!((Rc::strong_count(&value), live(&heap)), (1, 0));
}

#[test]
fn values_are_aligned_as_their_types_ask() {
    #[derive(Debug)]
    #[repr(align(4096))]
    struct Page([u8; 4096]);
    #[repr(align(32768))]
    struct Wide(u8);
    #[repr(align(131072))]
    struct TooMuch;
    #[repr(align(64))]
    struct Line(u8);
    let heap = heap(1 << 14);
    let (one, line, mut page) =
        (heap.boxed(1_u8).unwrap(), heap.boxed(Line(2)).unwrap(), heap.boxed(Page([3; 4096])).unwrap());
    page.0[4095] = 4;
    assert_eq!((&raw const *page as usize % 4096, &raw const *line as usize % 64), (0, 0));
    assert_eq!((*one, line.0, page.0[0], page.0[4095]), (1, 2, 3, 4));
    let wide = heap.boxed(Wide(5)).unwrap();
    assert_eq!((&raw const *wide as usize % 32768, wide.0), (0, 5));
    assert!(heap.boxed(TooMuch).is_err_and(|error| error == Error::NoFit));
    drop(wide);
    let nothing = heap.boxed(()).unwrap();
    assert_eq!((*nothing, live(&heap)), ((), 4));
    assert_eq!(heap.check(), Ok(()));
    drop((one, line, page, nothing));
    assert_eq!(live(&heap), 0);
}

#[test]
fn a_value_is_changed_in_another_thread_while_the_heap_is_called() {
    let heap = heap(1024);
    let mut list = heap.boxed(vec![1, 2]).unwrap();
    let inner = &mut *list;
    std::thread::scope(|scope| {
        scope.spawn(move || inner.push(3));
        drop(heap.allocate(100).unwrap()); // meanwhile
    });
    assert_eq!((&*list, format!("{list:?}").as_str()), (&vec![1, 2, 3], "[1, 2, 3]"));
}

#[test]
fn a_heap_lies_in_a_box_of_another() {
    let outer = heap(4096);
    let mut memory = outer.boxed([const { MaybeUninit::<u64>::uninit() }; 1024]).unwrap();
    let inner = Heap::open_in(Level::Five, 2, &mut *memory).unwrap();
    let texts: Vec<_> = (0..5).map(|k| inner.boxed(k.to_string()).unwrap()).collect();
    let other = outer.boxed(7).unwrap();
    assert_eq!((live(&outer), live(&inner), texts[4].as_str(), *other), (2, 5, "4", 7));
    assert_eq!((outer.check(), inner.check()), (Ok(()), Ok(())));
    drop(texts);
    drop(inner);
    drop((memory, other));
    assert_eq!((live(&outer), outer.check()), (0, Ok(())));
}

#[test]
fn a_forgotten_box_keeps_its_block_until_a_reset() {
    let mut heap = heap(64);
    forget(heap.boxed([9_u8; 100]).unwrap());
    assert_eq!(live(&heap), 1);
    heap.reset().unwrap();
    assert_eq!(live(&heap), 0);
    assert!(heap.allocate(100).unwrap().iter().all(|cell| cell.get() == 0));
}
