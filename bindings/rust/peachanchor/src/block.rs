use crate::{Error, Heap, Name};
use core::cell::Cell;
use core::fmt;
use core::ops::Deref;
use core::ptr::NonNull;
use peachanchor_sys as sys;

/// A live block, which is released when it is dropped. It derefs to its bytes, as cells: they are read and written in place,
/// and stay in the thread of their heap.
///
/// ```
/// # #[cfg(feature = "malloc")] {
/// use peachanchor::{Heap, Level};
/// let heap = Heap::open(Level::Four, 1, 1024)?;
/// let mut block = heap.allocate(4)?;
/// block.write(1, &[7, 8])?;
/// block[3].set(block[2].get() + 1);
/// block.reallocate(600)?; // it may move, and new bytes are zero
/// let mut bytes = [0; 5];
/// block.read(0, &mut bytes)?;
/// assert_eq!(bytes, [0, 7, 8, 9, 0]);
/// drop(block);
/// assert_eq!(heap.report()?.live_blocks, 0);
/// # }
/// # Ok::<(), peachanchor::Error>(())
/// ```
///
/// No other thread gets it, or its cells:
///
/// ```compile_fail,E0277
/// fn send<T: Send>() {}
/// send::<peachanchor::Block<'static>>();
/// ```
///
/// ```compile_fail,E0277
/// fn bytes(block: &peachanchor::Block<'_>) {
///     let cells = &**block;
///     std::thread::scope(|scope| {
///         scope.spawn(move || cells[0].set(1));
///     });
/// }
/// ```
pub struct Block<'h> {
    heap: &'h Heap<'h>,
    name: Name,
    payload: NonNull<u8>,
    len: usize,
}

impl<'h> Block<'h> {
    /// A block of `len` bytes, all zero.
    pub(crate) fn zeroed(heap: &'h Heap<'h>, len: usize) -> Result<Self, Error> {
        let mut name = sys::tlsf_name::default();
        // SAFETY: rules 1 and 3: the handle is open, and the name lies on this stack.
        Error::check(unsafe { sys::tlsf_allocate(heap.raw(), len, &mut name) })?;
        let name = Name(name);
        let (payload, len) = heap.locate(name)?;
        Ok(Self { heap, name, payload, len })
    }

    /// A block of `len` bytes at that alignment. Whoever calls sets them before any is shown.
    pub(crate) fn unfilled(heap: &'h Heap<'h>, len: usize, align: usize) -> Result<Self, Error> {
        let mut name = sys::tlsf_name::default();
        let mut at = core::ptr::null_mut();
        // SAFETY: as in `zeroed`.
        let answer = unsafe { sys::tlsf_allocate_at(heap.raw(), len, align, sys::TLSF_UNFILLED, &mut name, &mut at) };
        Error::check(answer)?;
        let payload = NonNull::new(at.cast()).ok_or(Error::Unknown)?;
        Ok(Self { heap, name: Name(name), payload, len })
    }

    /// A block that holds a copy of these bytes.
    pub(crate) fn copied(heap: &'h Heap<'h>, bytes: &[u8]) -> Result<Self, Error> {
        let block = Self::unfilled(heap, bytes.len(), 16)?;
        let (_, has) = heap.locate(block.name)?;
        // SAFETY: the payload has at least as many bytes, and nobody else knows of it. The bytes that round it up are set too: a
        // later resize or `Heap::payload` shows them.
        unsafe {
            block.payload.as_ptr().copy_from_nonoverlapping(bytes.as_ptr(), block.len);
            block.payload.as_ptr().add(block.len).write_bytes(0, has - block.len);
        }
        Ok(block)
    }

    /// Where its bytes lie.
    pub(crate) fn payload(&self) -> NonNull<u8> {
        self.payload
    }

    /// Its name.
    #[must_use]
    pub fn name(&self) -> Name {
        self.name
    }

    /// Its name, out of the hands of this value: the block stays live until its name is released.
    #[must_use]
    pub fn into_name(self) -> Name {
        let name = self.name;
        core::mem::forget(self);
        name
    }

    /// Copies bytes into the block, from its byte `at` on.
    ///
    /// # Errors
    ///
    /// [`Error::Range`] where they go past its end; then none is copied.
    pub fn write(&self, at: usize, bytes: &[u8]) -> Result<(), Error> {
        self.cells(at, bytes.len())?.iter().zip(bytes).for_each(|(cell, byte)| cell.set(*byte));
        Ok(())
    }

    /// Copies bytes out of the block, from its byte `at` on.
    ///
    /// # Errors
    ///
    /// [`Error::Range`] where they go past its end; then none is copied.
    pub fn read(&self, at: usize, out: &mut [u8]) -> Result<(), Error> {
        self.cells(at, out.len())?.iter().zip(out).for_each(|(cell, byte)| *byte = cell.get());
        Ok(())
    }

    fn cells(&self, at: usize, n: usize) -> Result<&[Cell<u8>], Error> {
        self.get(at..).and_then(|rest| rest.get(..n)).ok_or(Error::Range)
    }

    /// Gives the block `len` bytes where it stands. Its name stays, and new bytes are zero.
    ///
    /// # Errors
    ///
    /// [`Error::NoRoom`] where it would have to move, [`Error::Worn`].
    pub fn resize(&mut self, len: usize) -> Result<(), Error> {
        // SAFETY: as in `zeroed`. No cell of it is borrowed, since this call borrows the block exclusively.
        Error::check(unsafe { sys::tlsf_resize(self.heap.raw(), self.name.0, len) })?;
        self.len = len;
        Ok(())
    }

    /// Gives the block `len` bytes, where it stands if there is room, else in a new block with another name. New bytes are
    /// zero.
    ///
    /// # Errors
    ///
    /// [`Error::NoFit`], [`Error::Worn`]; the block is then as before.
    pub fn reallocate(&mut self, len: usize) -> Result<(), Error> {
        let mut name = self.name.0;
        // SAFETY: as in `resize`.
        Error::check(unsafe { sys::tlsf_reallocate(self.heap.raw(), &mut name, len) })?;
        (self.name, self.len) = (Name(name), 0);
        (self.payload, self.len) = self.heap.locate(self.name)?;
        Ok(())
    }

    /// Releases the block, and tells what dropping it doesn't.
    ///
    /// # Errors
    ///
    /// [`Error::Worn`]: the block then stays live.
    pub fn release(self) -> Result<(), Error> {
        let (heap, name) = (self.heap, self.into_name());
        // SAFETY: as in `zeroed`. The block is gone with its cells.
        Error::check(unsafe { sys::tlsf_release(heap.raw(), name.0) })
    }

    /// Its bytes in place. Another thread may fill them while this one calls the heap.
    ///
    /// ```
    /// # #[cfg(feature = "malloc")] {
    /// use peachanchor::{Heap, Level};
    /// let heap = Heap::open(Level::Four, 1, 1024)?;
    /// let mut block = heap.allocate(100)?;
    /// let bytes = block.bytes_mut();
    /// std::thread::scope(|scope| {
    ///     scope.spawn(|| bytes.fill(7));
    ///     drop(heap.allocate(200)); // meanwhile
    /// });
    /// assert_eq!(block[99].get(), 7);
    /// # }
    /// # Ok::<(), peachanchor::Error>(())
    /// ```
    #[must_use]
    pub fn bytes_mut(&mut self) -> &mut [u8] {
        // SAFETY: as in `deref`. The block is borrowed exclusively, so there is no cell, and no call on it. Calls on others leave
        // its bytes alone (rule 4).
        unsafe { core::slice::from_raw_parts_mut(self.payload.as_ptr(), self.len) }
    }
}

impl Deref for Block<'_> {
    type Target = [Cell<u8>];

    fn deref(&self) -> &[Cell<u8>] {
        // SAFETY: so many bytes of a live block lie there, and all are set. It stays live and where it is as long as it is
        // borrowed. Only its cells reach them, and these stay in this thread: `Cell` isn't `Sync`.
        unsafe { core::slice::from_raw_parts(self.payload.as_ptr().cast(), self.len) }
    }
}

impl fmt::Debug for Block<'_> {
    fn fmt(&self, f: &mut fmt::Formatter<'_>) -> fmt::Result {
        f.debug_struct("Block").field("name", &self.name).field("len", &self.len).finish()
    }
}

impl Drop for Block<'_> {
    fn drop(&mut self) {
        // SAFETY: as in `zeroed`. Where it is refused the block stays live, and nobody reaches it.
        unsafe { sys::tlsf_release(self.heap.raw(), self.name.0) };
    }
}
