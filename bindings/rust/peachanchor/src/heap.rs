use crate::handle::Handle;
use crate::{Block, Counts, Error, HeapBox, InPlace, Level, Name, Report};
use core::alloc::Layout;
use core::mem::{size_of_val, MaybeUninit};
use core::ptr::NonNull;
use peachanchor_sys::{self as sys, tlsf_heap, tlsf_near_heap};

/// A heap over one region of words, for one thread at a time. It is closed when it is dropped. Its memory is borrowed for `'m`;
/// where that is from `malloc`, `'m` is `'static`.
///
/// Blocks are used in three ways. A [`Block`] is bytes, and a [`HeapBox`] holds a value: each releases itself, and borrows the
/// heap. A [`Name`] is a plain value; calls by name borrow the heap exclusively, so no block is in use meanwhile.
///
/// ```
/// # #[cfg(feature = "malloc")] {
/// use peachanchor::{Heap, Level};
/// use std::sync::Mutex;
/// let heap = Mutex::new(Heap::open(Level::Four, 1, 1024)?); // for several threads
/// let name = heap.lock().unwrap().allocate(16)?.into_name();
/// std::thread::scope(|scope| {
///     scope.spawn(|| heap.lock().unwrap().payload(name).map(|bytes| bytes.fill(1)));
/// });
/// assert_eq!(heap.lock().unwrap().payload(name)?, [1; 16]);
/// # }
/// # Ok::<(), peachanchor::Error>(())
/// ```
///
/// Two threads can't use one heap, and no block outlives it:
///
/// ```compile_fail,E0277
/// fn shared<T: Sync>() {}
/// shared::<peachanchor::Heap<'static>>();
/// ```
///
/// ```compile_fail,E0505
/// # use peachanchor::Heap;
/// fn outlives(heap: Heap<'_>) {
///     let block = heap.allocate(8).unwrap();
///     drop(heap);
///     block[0].set(1);
/// }
/// ```
///
/// No block is released by name while it is in use, and no call is made while plain bytes are:
///
/// ```compile_fail,E0502
/// # use peachanchor::Heap;
/// fn released(mut heap: Heap<'_>) {
///     let block = heap.allocate(8).unwrap();
///     heap.release(block.name()).unwrap();
///     block[0].set(1);
/// }
/// ```
///
/// ```compile_fail,E0502
/// # use peachanchor::{Heap, Name};
/// fn called(mut heap: Heap<'_>, name: Name) {
///     let bytes = heap.payload(name).unwrap();
///     let block = heap.allocate(8).unwrap();
///     bytes[0] = 1;
/// }
/// ```
///
/// Two heaps don't share memory:
///
/// ```compile_fail,E0499
/// # use core::mem::MaybeUninit;
/// # use peachanchor::{Heap, Level};
/// fn twice(memory: &mut [MaybeUninit<u64>]) {
///     let first = Heap::open_in(Level::Four, 1, memory);
///     let second = Heap::open_in(Level::Four, 2, memory);
///     drop(first);
/// }
/// ```
#[derive(Debug)]
pub struct Heap<'m> {
    handle: Handle<'m, tlsf_near_heap>,
}

// SAFETY: a heap is the only way to its handle and its region, and neither belongs to a thread. Rust orders what two threads do
// with a value that is sent; the page of this crate says where rule 2 of peachanchor.h is narrower.
unsafe impl Send for Heap<'_> {}

impl Heap<'static> {
    /// Opens a heap of so many words of 8 bytes, in memory from `malloc`. `number` goes into its names: give each heap of a
    /// program another one, also when it is opened again.
    ///
    /// # Errors
    ///
    /// [`Error::BadSize`] where no region of that level has so many words, [`Error::NoMemory`].
    #[cfg(feature = "malloc")]
    pub fn open(level: Level, number: u32, words: u32) -> Result<Self, Error> {
        let handle = Handle::from_malloc(tlsf_near_heap::CLOSED)?;
        // SAFETY: the handle is closed and lies still (rule 1).
        Error::check(unsafe { sys::tlsf_open_near(handle.get(), level as u32, number, words) })?;
        Ok(Self { handle })
    }

    /// Opens a heap as [`open`](Self::open) does, with a number that no other heap of this process has or had.
    ///
    /// # Errors
    ///
    /// [`Error::BadSize`] where no region of that level has so many words, [`Error::NoMemory`]; [`Error::Worn`] where
    /// [`next_number`](Self::next_number) has none left.
    ///
    /// ```
    /// # #[cfg(feature = "malloc")] {
    /// use peachanchor::{Error, Heap, Level};
    /// let (mut first, second) = (Heap::with_words(Level::Four, 64)?, Heap::with_words(Level::Four, 64)?);
    /// assert_eq!(first.release(second.allocate(8)?.into_name()), Err(Error::Foreign));
    /// # }
    /// # Ok::<(), peachanchor::Error>(())
    /// ```
    #[cfg(feature = "malloc")]
    pub fn with_words(level: Level, words: u32) -> Result<Self, Error> {
        Self::open(level, Self::next_number()?, words)
    }
}

impl<'m> Heap<'m> {
    /// Opens a heap in memory of yours, such as a [`Region`](crate::Region). It gets as many words as fit, and the level has.
    /// The memory is yours again once the heap is gone.
    ///
    /// # Errors
    ///
    /// [`Error::BadSize`] where no four words fit.
    ///
    /// ```
    /// use peachanchor::{Heap, Level};
    /// let mut memory = Box::new_uninit_slice(Heap::words_in(Level::Four, 1000).unwrap());
    /// let heap = Heap::open_in(Level::Four, 1, &mut memory)?;
    /// assert!(heap.report()?.free_words >= 1000);
    /// # Ok::<(), peachanchor::Error>(())
    /// ```
    pub fn open_in(level: Level, number: u32, memory: &'m mut [MaybeUninit<u64>]) -> Result<Self, Error> {
        let (handle, rest) = Handle::lent(tlsf_near_heap::CLOSED, memory).ok_or(Error::BadSize)?;
        let bytes = size_of_val(rest);
        // SAFETY: the handle is closed and lies still (rule 1), and outside of the rest. That is the heap's as long as it is there (rule 6).
        Error::check(unsafe {
            sys::tlsf_open_near_in(handle.get(), level as u32, number, rest.as_mut_ptr().cast(), bytes)
        })?;
        Ok(Self { handle })
    }

    /// Opens a heap as [`open_in`](Self::open_in) does, with a number that no other heap of this process has or had.
    ///
    /// # Errors
    ///
    /// [`Error::BadSize`] where no four words fit; [`Error::Worn`] where [`next_number`](Self::next_number) has none left.
    ///
    /// ```
    /// use peachanchor::{Heap, Level};
    /// let heap = Heap::with_memory(Level::Four, Box::leak(Box::new_uninit_slice(1000)))?;
    /// assert!(heap.allocate(8)?.name().heap() >= 1 << 31);
    /// # Ok::<(), peachanchor::Error>(())
    /// ```
    pub fn with_memory(level: Level, memory: &'m mut [MaybeUninit<u64>]) -> Result<Self, Error> {
        Self::open_in(level, Self::next_number()?, memory)
    }

    /// A number that no other heap of this process has or had, from 2^31 on. Numbers that the program chooses are below.
    ///
    /// # Errors
    ///
    /// [`Error::Worn`] after 2^28 calls.
    ///
    /// ```
    /// use peachanchor::Heap;
    /// assert_ne!(Heap::next_number()?, Heap::next_number()?);
    /// # Ok::<(), peachanchor::Error>(())
    /// ```
    pub fn next_number() -> Result<u32, Error> {
        let mut number = 0;
        // SAFETY: the number that it writes is on this stack (rule 3).
        Error::check(unsafe { sys::tlsf_next_number(&mut number) })?;
        Ok(number)
    }

    /// The words of memory in which [`open_in`](Self::open_in) finds room for a heap of so many; nothing where no heap of
    /// that level has so many.
    #[must_use]
    pub fn words_in(level: Level, words: u32) -> Option<usize> {
        // SAFETY: it takes any numbers.
        let bytes = unsafe { sys::tlsf_near_bytes(level as u32, words) };
        (bytes != 0).then(|| Handle::<tlsf_near_heap>::WORDS + bytes.div_ceil(8))
    }

    /// The words of a heap that never lacks room for `blocks` blocks at once, of at most `len` bytes each. They may be
    /// allocated, resized in place and released in any order. For 0 blocks they are 4, the least heap.
    ///
    /// # Errors
    ///
    /// [`Error::BadSize`] where no region of that level is so large.
    ///
    /// ```
    /// use peachanchor::{Heap, Level};
    /// assert_eq!(Heap::words_for(Level::Four, 100, 512)?, 13631);
    /// # Ok::<(), peachanchor::Error>(())
    /// ```
    pub fn words_for(level: Level, blocks: u32, len: usize) -> Result<u32, Error> {
        let mut words = 0;
        // SAFETY: the number that it writes is on this stack (rule 3).
        Error::check(unsafe { sys::tlsf_words(level as u32, blocks, len, &mut words) })?;
        Ok(words)
    }

    /// The same for blocks of that layout, whichever calls ask for them: `allocate`, [`boxed`](Self::boxed) and others.
    ///
    /// # Errors
    ///
    /// [`Error::BadSize`] where no region of that level is so large.
    ///
    /// ```
    /// # #[cfg(feature = "malloc")] {
    /// use peachanchor::{Heap, Level};
    /// use std::alloc::Layout;
    /// #[repr(align(64))]
    /// struct Line([u8; 64]);
    /// let heap = Heap::open(Level::Four, 1, Heap::words_for_layout(Level::Four, 2, Layout::new::<Line>())?)?;
    /// let lines = (heap.boxed(Line([1; 64]))?, heap.boxed(Line([2; 64]))?);
    /// assert_eq!(lines.1.0[63], 2);
    /// # }
    /// # Ok::<(), peachanchor::Error>(())
    /// ```
    pub fn words_for_layout(level: Level, blocks: u32, layout: Layout) -> Result<u32, Error> {
        let mut words = 0;
        // SAFETY: the number that it writes is on this stack (rule 3).
        Error::check(unsafe { sys::tlsf_words_for(level as u32, blocks, layout.size(), layout.align(), &mut words) })?;
        Ok(words)
    }

    /// The handle for calls of this crate.
    pub(crate) fn raw(&self) -> *mut tlsf_heap {
        // SAFETY: the handle has its room.
        unsafe { sys::tlsf_near(self.handle.get()) }
    }

    /// Allocates a block of `len` bytes, all zero, aligned to 8.
    ///
    /// # Errors
    ///
    /// [`Error::NoFit`], [`Error::Worn`].
    pub fn allocate(&self, len: usize) -> Result<Block<'_>, Error> {
        Block::zeroed(self, len)
    }

    /// Allocates a block that holds a copy of these bytes, aligned to 16. Nothing else is filled, but the rest of its last
    /// two words.
    ///
    /// # Errors
    ///
    /// [`Error::NoFit`], [`Error::Worn`].
    ///
    /// ```
    /// # #[cfg(feature = "malloc")] {
    /// use peachanchor::{Heap, Level};
    /// let heap = Heap::open(Level::Four, 1, 64)?;
    /// let block = heap.allocate_from(b"note on")?;
    /// assert_eq!((block[5].get(), block.len()), (b'o', 7));
    /// # }
    /// # Ok::<(), peachanchor::Error>(())
    /// ```
    pub fn allocate_from(&self, bytes: &[u8]) -> Result<Block<'_>, Error> {
        Block::copied(self, bytes)
    }

    /// Moves a value into a block of its own, at the alignment of its type. [`HeapBox`] shows it, and drops it.
    ///
    /// # Errors
    ///
    /// [`Error::NoFit`], [`Error::Worn`]. The value is dropped then.
    ///
    /// ```
    /// # #[cfg(feature = "malloc")] {
    /// use peachanchor::{Heap, Level};
    /// let heap = Heap::open(Level::Four, 1, 64)?;
    /// let mut pair = heap.boxed((7, "seven"))?;
    /// pair.0 += 1;
    /// assert_eq!(*pair, (8, "seven"));
    /// # }
    /// # Ok::<(), peachanchor::Error>(())
    /// ```
    pub fn boxed<T>(&self, value: T) -> Result<HeapBox<'_, T>, Error> {
        HeapBox::holding(self, value)
    }

    /// Releases a block by its name.
    ///
    /// # Errors
    ///
    /// [`Error::Stale`] where no live block has that name, [`Error::Foreign`] where it has another heap's number,
    /// [`Error::Worn`].
    pub fn release(&mut self, name: Name) -> Result<(), Error> {
        // SAFETY: rules 1 and 3. No reference into a payload is left, since this call borrows the heap exclusively.
        Error::check(unsafe { sys::tlsf_release(self.raw(), name.0) })
    }

    /// Takes all blocks back in one step, as at the end of a frame. No name of before is live again. No [`Block`] and no
    /// [`HeapBox`] is left, since this call borrows the heap exclusively. The time grows with the words of the heap by 64, and not
    /// with its blocks.
    ///
    /// # Errors
    ///
    /// [`Error::Worn`].
    ///
    /// ```
    /// # #[cfg(feature = "malloc")] {
    /// use peachanchor::{Error, Heap, Level};
    /// let mut heap = Heap::open(Level::Four, 1, 64)?;
    /// let name = heap.allocate(100)?.into_name();
    /// heap.reset()?;
    /// assert_eq!(heap.release(name), Err(Error::Stale));
    /// assert_eq!(heap.counts()?.words, 0);
    /// # }
    /// # Ok::<(), peachanchor::Error>(())
    /// ```
    pub fn reset(&mut self) -> Result<(), Error> {
        // SAFETY: rules 1 and 3. No reference into a payload is left, and no block, since this call borrows the heap exclusively.
        Error::check(unsafe { sys::tlsf_reset(self.raw()) })
    }

    /// Gives a block `len` bytes where it stands. New bytes are zero.
    ///
    /// # Errors
    ///
    /// As [`release`](Self::release), and [`Error::NoRoom`] where it would have to move.
    pub fn resize(&mut self, name: Name, len: usize) -> Result<(), Error> {
        // SAFETY: as in `release`.
        Error::check(unsafe { sys::tlsf_resize(self.raw(), name.0, len) })
    }

    /// Gives a block `len` bytes, where it stands if there is room, else in a new block, and answers its name from now on.
    /// New bytes are zero.
    ///
    /// # Errors
    ///
    /// As [`release`](Self::release), and [`Error::NoFit`]; the block is then as before.
    pub fn reallocate(&mut self, name: Name, len: usize) -> Result<Name, Error> {
        let mut own = name.0;
        // SAFETY: as in `release`.
        Error::check(unsafe { sys::tlsf_reallocate(self.raw(), &mut own, len) })?;
        Ok(Name(own))
    }

    /// A block's bytes in place, aligned to 8. While they are used no call is made on the heap, so they may go to another
    /// thread.
    ///
    /// # Errors
    ///
    /// [`Error::Stale`], [`Error::Foreign`].
    pub fn payload(&mut self, name: Name) -> Result<&mut [u8], Error> {
        let (payload, len) = self.locate(name)?;
        // SAFETY: so many bytes of a live block lie there. All are set: blocks by name are zeroed or copied. A block of a `HeapBox`
        // that was forgotten has no name here, but another heap of this number may have made the same one. For the bytes of its
        // padding the call above stands, which isn't Rust's: it has their address, and may have set them. The heap is borrowed as
        // long as all are, so nobody else reaches them, and no call is made (rule 4).
        Ok(unsafe { core::slice::from_raw_parts_mut(payload.as_ptr(), len) })
    }

    /// Where the payload of a live block lies, and its bytes.
    pub(crate) fn locate(&self, name: Name) -> Result<(NonNull<u8>, usize), Error> {
        let (mut base, mut len) = (core::ptr::null_mut(), 0);
        // SAFETY: rules 1 and 3.
        Error::check(unsafe { sys::tlsf_locate(self.raw(), name.0, &mut base, &mut len) })?;
        // SAFETY: the payload of a live block begins three words after its place, inside the region.
        let payload = unsafe { base.add(name.0.at as usize + 3) }.cast::<u8>();
        Ok((NonNull::new(payload).ok_or(Error::Unknown)?, len as usize))
    }

    /// What the heap has counted, in constant time.
    ///
    /// # Errors
    ///
    /// [`Error::Closed`], in a signal handler alone.
    ///
    /// ```
    /// # #[cfg(feature = "malloc")] {
    /// use peachanchor::{Error, Heap, Level};
    /// let heap = Heap::open(Level::Four, 1, 64)?;
    /// assert_eq!(heap.allocate(1000).err(), Some(Error::NoFit));
    /// assert_eq!((heap.counts()?.refused, heap.counts()?.longest_refused), (1, 1000));
    /// # }
    /// # Ok::<(), peachanchor::Error>(())
    /// ```
    pub fn counts(&self) -> Result<Counts, Error> {
        let mut counts = sys::tlsf_heap_counts::default();
        // SAFETY: rules 1 and 3.
        Error::check(unsafe { sys::tlsf_counts(self.raw(), &mut counts) })?;
        Ok(counts.into())
    }

    /// Sums over all blocks, so the time grows with their number.
    ///
    /// # Errors
    ///
    /// [`Error::Closed`], in a signal handler alone.
    pub fn report(&self) -> Result<Report, Error> {
        let mut report = sys::tlsf_heap_report::default();
        // SAFETY: rules 1 and 3.
        Error::check(unsafe { sys::tlsf_report(self.raw(), &mut report) })?;
        Ok(report.into())
    }

    /// Looks whether all headers agree, as they do unless something was written past a payload by `unsafe` code. The time
    /// grows with the number of blocks.
    ///
    /// # Errors
    ///
    /// [`Error::Damaged`]: only [`drop`] is then to be called.
    pub fn check(&self) -> Result<(), Error> {
        let (mut from, mut next, mut damaged) = (0, 0, 0);
        loop {
            // SAFETY: rules 1 and 3.
            Error::check(unsafe { sys::tlsf_check(self.raw(), from, 1024, &mut next, &mut damaged) })?;
            if next == 0 {
                return Ok(());
            }
            from = next;
        }
    }

    /// The heap for what calls it by pointer, as collections do.
    ///
    /// # Safety
    ///
    /// Nothing is written past what was asked for, and no heap or lane is opened there. No other heap has or had this one's
    /// number.
    #[must_use]
    pub unsafe fn in_place(&self) -> InPlace<'_> {
        InPlace::over(self)
    }
}

impl Drop for Heap<'_> {
    fn drop(&mut self) {
        // SAFETY: rule 1. No block is left, since each borrows the heap.
        if unsafe { sys::tlsf_close(self.raw()) } != sys::TLSF_OK {
            self.handle.keep();
        }
    }
}
