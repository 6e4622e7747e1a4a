use crate::{Heap, Level, Region};
use core::alloc::{GlobalAlloc, Layout};
use core::cell::UnsafeCell;
use core::ffi::c_void;
use core::hint;
use core::ptr::null_mut;
use core::sync::atomic::{AtomicBool, Ordering};
use peachanchor_sys::{self as sys, tlsf_heap};

/// A heap behind a lock that spins, as a program's allocator. It is opened by the first call that allocates.
///
/// The lock makes threads wait for each other. So a thread with a deadline takes a [`Heap`] of its own. A panic that prints a
/// backtrace takes tens of MiB.
///
/// ```
/// use peachanchor::{GlobalHeap, Level, Region};
/// static REGION: Region<{ 1 << 20 }> = Region::new(); // 8 MiB
/// // SAFETY: no thread of this program runs after a fork, or allocates in a signal handler.
/// #[global_allocator]
/// static HEAP: GlobalHeap<{ 1 << 20 }> = unsafe { GlobalHeap::new(Level::Five, 1, &REGION) };
/// let text = String::from("in the region");
/// assert!(text.len() == 13);
/// ```
#[derive(Debug)]
pub struct GlobalHeap<const WORDS: usize> {
    level: Level,
    number: u32,
    region: &'static Region<WORDS>,
    is_locked: AtomicBool,
    heap: UnsafeCell<Option<Heap<'static>>>,
}

// SAFETY: the heap is reached by `with` alone, under the lock (rule 2).
unsafe impl<const WORDS: usize> Sync for GlobalHeap<WORDS> {}

impl<const WORDS: usize> GlobalHeap<WORDS> {
    /// A heap over that region, which nobody else takes. Its handle lies there too.
    ///
    /// # Safety
    ///
    /// Whoever allocates keeps rules 3 to 5 of `peachanchor.h`: no heap or lane is opened in what was allocated here, nothing is
    /// written past what was asked for, and no signal handler allocates.
    #[must_use]
    pub const unsafe fn new(level: Level, number: u32, region: &'static Region<WORDS>) -> Self {
        Self { level, number, region, is_locked: AtomicBool::new(false), heap: UnsafeCell::new(None) }
    }

    /// Calls the heap under the lock; null where it can't be opened. `calls` doesn't panic.
    fn with(&self, calls: impl FnOnce(*mut tlsf_heap) -> *mut c_void) -> *mut u8 {
        while self.is_locked.compare_exchange_weak(false, true, Ordering::SeqCst, Ordering::SeqCst).is_err() {
            hint::spin_loop();
        }
        // SAFETY: the lock is held, so this is the only reference.
        let heap = unsafe { &mut *self.heap.get() };
        if heap.is_none() {
            *heap = self.region.take().and_then(|memory| Heap::open_in(self.level, self.number, memory).ok());
        }
        let at = heap.as_ref().map_or(null_mut(), |heap| calls(heap.raw()));
        self.is_locked.store(false, Ordering::SeqCst);
        at.cast()
    }
}

// SAFETY: tlsf_aligned_alloc gives at least so many bytes, aligned as asked, which are no other live block's; null where it is
// refused. tlsf_realloc keeps the bytes up to the smaller length. Nothing unwinds.
unsafe impl<const WORDS: usize> GlobalAlloc for GlobalHeap<WORDS> {
    unsafe fn alloc(&self, layout: Layout) -> *mut u8 {
        // SAFETY: rules 1 and 2: the handle is open, and the lock is held.
        self.with(|heap| unsafe { sys::tlsf_aligned_alloc(heap, layout.align(), layout.size()) })
    }

    unsafe fn dealloc(&self, at: *mut u8, _: Layout) {
        self.with(|heap| {
            // SAFETY: as in `alloc`. A pointer may be any.
            unsafe { sys::tlsf_free(heap, at.cast()) };
            null_mut()
        });
    }

    unsafe fn realloc(&self, at: *mut u8, layout: Layout, size: usize) -> *mut u8 {
        if layout.align() <= 16 {
            // SAFETY: as in `dealloc`. The caller gives a size above 0.
            return self.with(|heap| unsafe { sys::tlsf_realloc(heap, at.cast(), size) });
        }
        // SAFETY: the caller gives a size that a layout of that alignment may have.
        let new = unsafe { self.alloc(Layout::from_size_align_unchecked(size, layout.align())) };
        if !new.is_null() {
            // SAFETY: both have so many bytes, and the new one is no part of the old one, which the caller gives up.
            unsafe {
                new.copy_from_nonoverlapping(at, layout.size().min(size));
                self.dealloc(at, layout);
            }
        }
        new
    }
}
