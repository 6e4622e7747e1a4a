use core::cell::UnsafeCell;
use core::mem::MaybeUninit;
use core::sync::atomic::{AtomicBool, Ordering};

/// A static array of words for a heap, a lane, a queue or an arena, which is given away once.
///
/// ```
/// use peachanchor::{Heap, Level, Region};
/// static REGION: Region<8192> = Region::new(); // 64 KiB
/// let heap = Heap::open_in(Level::Four, 1, REGION.take().unwrap())?;
/// assert!(REGION.take().is_none());
/// assert_eq!(heap.allocate(100)?.len(), 100);
/// # Ok::<(), peachanchor::Error>(())
/// ```
#[derive(Debug)]
pub struct Region<const WORDS: usize> {
    is_taken: AtomicBool,
    words: UnsafeCell<[MaybeUninit<u64>; WORDS]>,
}

// SAFETY: the words are reached by `take` alone, which lends them to one caller.
unsafe impl<const WORDS: usize> Sync for Region<WORDS> {}

impl<const WORDS: usize> Region<WORDS> {
    /// A region that nobody has taken. Nothing is set in it, so it takes no room in a program's file.
    #[must_use]
    pub const fn new() -> Self {
        Self { is_taken: AtomicBool::new(false), words: UnsafeCell::new([MaybeUninit::uninit(); WORDS]) }
    }

    /// Its words, to the first who asks; nothing to all others.
    #[allow(clippy::mut_from_ref)] // the first caller alone gets it
    pub fn take(&'static self) -> Option<&'static mut [MaybeUninit<u64>]> {
        if self.is_taken.swap(true, Ordering::SeqCst) {
            return None;
        }
        // SAFETY: the swap was `false` for this call alone, so there is no other reference. A static is never moved.
        Some(unsafe { &mut *self.words.get() })
    }
}

impl<const WORDS: usize> Default for Region<WORDS> {
    fn default() -> Self {
        Self::new()
    }
}
