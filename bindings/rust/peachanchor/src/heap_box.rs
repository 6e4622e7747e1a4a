use crate::{Block, Error, Heap};
use core::fmt;
use core::marker::PhantomData;
use core::mem::{align_of, size_of, ManuallyDrop};
use core::ops::{Deref, DerefMut};
use core::ptr::NonNull;

/// A value in a block of its own ([`Heap::boxed`]). When the box is dropped, so is the value, and the block is released after it.
///
/// A value may have boxes of the same heap in it:
///
/// ```
/// # #[cfg(feature = "malloc")] {
/// use peachanchor::{Heap, HeapBox, Level};
/// struct Note<'h> {
///     pitch: u8,
///     next: Option<HeapBox<'h, Note<'h>>>,
/// }
/// let heap = Heap::open(Level::Four, 1, 1024)?;
/// let mut first = None;
/// for pitch in [67, 64, 60] {
///     first = Some(heap.boxed(Note { pitch, next: first })?);
/// }
/// let chord: Vec<_> = std::iter::successors(first.as_ref(), |it| it.next.as_ref()).map(|it| it.pitch).collect();
/// assert_eq!(chord, [60, 64, 67]);
/// drop(first);
/// assert_eq!(heap.report()?.live_blocks, 0);
/// # }
/// # Ok::<(), peachanchor::Error>(())
/// ```
///
/// A box calls its heap when it is dropped. So it stays in the heap's thread, whatever it holds, and doesn't outlive the heap:
///
/// ```compile_fail,E0277
/// fn send<T: Send>() {}
/// send::<peachanchor::HeapBox<'static, u8>>();
/// ```
///
/// ```compile_fail,E0505
/// # use peachanchor::Heap;
/// fn outlives(heap: Heap<'_>) {
///     let number = heap.boxed(8).unwrap();
///     drop(heap);
///     assert_eq!(*number, 8);
/// }
/// ```
pub struct HeapBox<'h, T> {
    /// Its bytes are the value's, and shown to nobody.
    block: Block<'h>,
    holds: PhantomData<T>,
}

impl<'h, T> HeapBox<'h, T> {
    /// A box with that value.
    pub(crate) fn holding(heap: &'h Heap<'h>, value: T) -> Result<Self, Error> {
        let block = Block::unfilled(heap, size_of::<T>(), align_of::<T>())?;
        // SAFETY: the block is large enough, aligned, and nobody else knows of it.
        unsafe { block.payload().cast().write(value) };
        Ok(Self { block, holds: PhantomData })
    }

    /// Where the value lies.
    fn at(&self) -> NonNull<T> {
        self.block.payload().cast()
    }

    /// Moves the value out, and releases the block.
    ///
    /// ```
    /// # #[cfg(feature = "malloc")] {
    /// use peachanchor::{Heap, HeapBox, Level};
    /// let heap = Heap::open(Level::Four, 1, 64)?;
    /// let text = heap.boxed(String::from("note on"))?;
    /// assert_eq!(HeapBox::into_inner(text), "note on");
    /// assert_eq!(heap.report()?.live_blocks, 0);
    /// # }
    /// # Ok::<(), peachanchor::Error>(())
    /// ```
    #[must_use]
    pub fn into_inner(it: Self) -> T {
        let it = ManuallyDrop::new(it);
        // SAFETY: both are read once, and `it` is dropped by nobody. The value is out before its block goes.
        let (value, block) = unsafe { (it.at().read(), core::ptr::read(&it.block)) };
        drop(block);
        value
    }
}

impl<T> Deref for HeapBox<'_, T> {
    type Target = T;

    fn deref(&self) -> &T {
        // SAFETY: the value lies there as long as the box is there, and is borrowed with it. Calls on other blocks leave it alone
        // (rule 4).
        unsafe { self.at().as_ref() }
    }
}

impl<T> DerefMut for HeapBox<'_, T> {
    fn deref_mut(&mut self) -> &mut T {
        // SAFETY: as in `deref`; the box is borrowed exclusively.
        unsafe { self.at().as_mut() }
    }
}

impl<T: fmt::Debug> fmt::Debug for HeapBox<'_, T> {
    fn fmt(&self, f: &mut fmt::Formatter<'_>) -> fmt::Result {
        fmt::Debug::fmt(&**self, f)
    }
}

impl<T> Drop for HeapBox<'_, T> {
    fn drop(&mut self) {
        // SAFETY: the value is dropped here alone. The block goes after it, also where that panics.
        unsafe { self.at().drop_in_place() };
    }
}
