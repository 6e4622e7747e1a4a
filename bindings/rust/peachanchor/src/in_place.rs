use crate::{Error, Heap};
use core::alloc::Layout;
use core::ptr::NonNull;
use peachanchor_sys as sys;

/// A heap as collections call it: by pointer, unfilled, at any alignment. With the feature `allocator_api` it is an
/// `Allocator` of nightly's core. [`Heap::in_place`] makes one.
///
/// ```
/// # #[cfg(feature = "malloc")] {
/// use peachanchor::{Heap, Level};
/// use std::alloc::Layout;
/// let heap = Heap::open(Level::Four, 1, 1024)?;
/// // SAFETY: this program has one thread and one heap, and writes within what it asked for.
/// let memory = unsafe { heap.in_place() };
/// let layout = Layout::new::<[u64; 8]>();
/// let at = memory.obtain(layout)?.cast::<[u64; 8]>();
/// // SAFETY: it is aligned, large enough, and given back once.
/// unsafe {
///     at.write([7; 8]);
///     assert_eq!(at.read()[7], 7);
///     memory.give_back(at.cast(), layout);
/// }
/// assert_eq!(heap.report()?.live_blocks, 0);
/// # }
/// # Ok::<(), peachanchor::Error>(())
/// ```
#[derive(Clone, Copy, Debug)]
pub struct InPlace<'h> {
    heap: &'h Heap<'h>,
}

impl<'h> InPlace<'h> {
    pub(crate) fn over(heap: &'h Heap<'h>) -> Self {
        Self { heap }
    }

    /// Allocates for a layout. Nothing is filled. A layout of size 0 takes no block.
    ///
    /// # Errors
    ///
    /// [`Error::NoFit`] where it is refused.
    pub fn obtain(&self, layout: Layout) -> Result<NonNull<[u8]>, Error> {
        let size = layout.size();
        let at = if size == 0 {
            core::ptr::without_provenance_mut(layout.align())
        } else {
            // SAFETY: rule 1: the heap is open, and its other callers are in this thread.
            unsafe { sys::tlsf_aligned_alloc(self.heap.raw(), layout.align(), size) }.cast::<u8>()
        };
        let at = NonNull::new(at).ok_or(Error::NoFit)?;
        Ok(NonNull::slice_from_raw_parts(at, size))
    }

    /// Gives back what [`obtain`](Self::obtain) gave.
    ///
    /// # Safety
    ///
    /// `at` came from an `obtain` over the same heap for that layout, and nobody uses it any more.
    pub unsafe fn give_back(&self, at: NonNull<u8>, layout: Layout) {
        if layout.size() != 0 {
            // SAFETY: rule 1. A pointer may be any.
            unsafe { sys::tlsf_free(self.heap.raw(), at.as_ptr().cast()) };
        }
    }
}

#[cfg(feature = "allocator_api")]
mod of_nightly {
    use super::InPlace;
    use core::alloc::{AllocError, Allocator, Layout};
    use core::ptr::NonNull;

    // SAFETY: a block stays where it is until it is given back, and its heap is borrowed meanwhile. A copy is over the same heap.
    unsafe impl Allocator for InPlace<'_> {
        fn allocate(&self, layout: Layout) -> Result<NonNull<[u8]>, AllocError> {
            self.obtain(layout).map_err(|_| AllocError)
        }

        unsafe fn deallocate(&self, at: NonNull<u8>, layout: Layout) {
            // SAFETY: the caller keeps it.
            unsafe { self.give_back(at, layout) };
        }
    }
}
