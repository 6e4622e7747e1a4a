use crate::handle::Handle;
use crate::{Error, Level, Name};
use core::mem::{size_of_val, MaybeUninit};
use peachanchor_sys::{self as sys, tlsf_offsets};

mod span;
mod usage;
pub use span::Span;
pub use usage::Usage;

/// An arena of offsets: it says where spans lie in memory that it never touches, as a graphics card's. That memory is cut into
/// units. Two spans that are held have no byte in common. An arena may go to another thread, and is closed when it is dropped,
/// with all spans.
///
/// ```
/// # #[cfg(feature = "malloc")] {
/// use peachanchor::{Error, Level, Offsets};
/// let mut memory = Offsets::open(Level::Four, 1, 65_536, 4096)?; // 256 MiB in units of 64 KiB
/// let vertices = memory.allocate(3_000_000)?;
/// assert_eq!((vertices.offset % 65_536, vertices.size), (0, 46 * 65_536));
/// memory.release(vertices.name)?; // once the device is done with it
/// assert_eq!(memory.release(vertices.name), Err(Error::Stale));
/// # }
/// # Ok::<(), peachanchor::Error>(())
/// ```
#[derive(Debug)]
pub struct Offsets<'m> {
    handle: Handle<'m, tlsf_offsets>,
}

// SAFETY: as for `Heap`.
unsafe impl Send for Offsets<'_> {}

#[cfg(feature = "malloc")]
impl Offsets<'static> {
    /// Opens an arena over `units` units of `unit` bytes each: 4 to 2^20 units at level 4, to 2^24 at level 5. `unit` is any
    /// number but 0: the alignment of each span. `number` goes into names, as a heap's. What the arena knows lies in memory from
    /// `malloc`, 8 bytes a unit and some.
    ///
    /// # Errors
    ///
    /// [`Error::BadSize`], [`Error::NoMemory`].
    pub fn open(level: Level, number: u32, unit: u32, units: u32) -> Result<Self, Error> {
        let handle = Handle::from_malloc(tlsf_offsets::CLOSED)?;
        // SAFETY: the handle is closed and lies still (rule 1).
        Error::check(unsafe { sys::tlsf_offsets_open(handle.get(), level as u32, number, unit, units) })?;
        Ok(Self { handle })
    }
}

impl<'m> Offsets<'m> {
    /// As `open`, where what the arena knows lies in memory of yours. It is yours again once the arena is gone.
    ///
    /// # Errors
    ///
    /// [`Error::BadSize`], also where it has fewer words than [`words_in`](Self::words_in) says.
    ///
    /// ```
    /// use peachanchor::{Level, Offsets};
    /// let mut words = Box::new_uninit_slice(Offsets::words_in(Level::Four, 64).unwrap());
    /// let mut arena = Offsets::open_in(Level::Four, 1, 4096, 64, &mut words)?;
    /// assert_eq!(arena.allocate(5000)?.size % 4096, 0);
    /// # Ok::<(), peachanchor::Error>(())
    /// ```
    pub fn open_in(
        level: Level,
        number: u32,
        unit: u32,
        units: u32,
        memory: &'m mut [MaybeUninit<u64>],
    ) -> Result<Self, Error> {
        let (handle, rest) = Handle::lent(tlsf_offsets::CLOSED, memory).ok_or(Error::BadSize)?;
        let (at, bytes) = (rest.as_mut_ptr().cast(), size_of_val(rest));
        // SAFETY: as in `open`. The rest is the arena's as long as it is there (rule 6).
        Error::check(unsafe { sys::tlsf_offsets_open_in(handle.get(), level as u32, number, unit, units, at, bytes) })?;
        Ok(Self { handle })
    }

    /// The words of memory in which [`open_in`](Self::open_in) finds room for so many units; nothing where no arena of that
    /// level has so many.
    ///
    /// ```
    /// use peachanchor::{Level, Offsets};
    /// assert!(Offsets::words_in(Level::Four, 4096).is_some_and(|words| words < 5000));
    /// assert_eq!(Offsets::words_in(Level::Four, 3), None);
    /// ```
    #[must_use]
    pub fn words_in(level: Level, units: u32) -> Option<usize> {
        // SAFETY: it takes any numbers.
        let bytes = unsafe { sys::tlsf_offsets_bytes(level as u32, units) };
        (bytes != 0).then(|| Handle::<tlsf_offsets>::WORDS + bytes.div_ceil(8))
    }

    /// Gives a span of at least `bytes` bytes.
    ///
    /// # Errors
    ///
    /// [`Error::NoFit`], [`Error::Worn`].
    pub fn allocate(&mut self, bytes: u64) -> Result<Span, Error> {
        let mut span = sys::tlsf_span::default();
        // SAFETY: rules 1 and 3: the span lies on this stack.
        Error::check(unsafe { sys::tlsf_offsets_allocate(self.handle.get(), bytes, &mut span) })?;
        Ok(span.into())
    }

    /// Takes the span of that name back. The device has to be done with it: nothing here knows.
    ///
    /// # Errors
    ///
    /// [`Error::Stale`] where no span that is held has that name, [`Error::Foreign`] where it has another number,
    /// [`Error::Worn`].
    pub fn release(&mut self, name: Name) -> Result<(), Error> {
        // SAFETY: rule 1.
        Error::check(unsafe { sys::tlsf_offsets_release(self.handle.get(), name.0) })
    }

    /// Makes the span of that name hold at least `bytes` bytes where it lies, and answers what it is then. Its offset and name
    /// stay.
    ///
    /// # Errors
    ///
    /// As [`release`](Self::release), and [`Error::NoRoom`] where it would have to move.
    pub fn resize(&mut self, name: Name, bytes: u64) -> Result<Span, Error> {
        let mut span = sys::tlsf_span { name: name.0, ..sys::tlsf_span::default() };
        // SAFETY: as in `allocate`.
        Error::check(unsafe { sys::tlsf_offsets_resize(self.handle.get(), &mut span, bytes) })?;
        Ok(span.into())
    }

    /// Sums over all spans, so the time grows with their number.
    ///
    /// # Errors
    ///
    /// [`Error::Closed`], in a signal handler alone.
    pub fn report(&self) -> Result<Usage, Error> {
        let mut usage = sys::tlsf_offsets_usage::default();
        // SAFETY: rules 1 and 3.
        Error::check(unsafe { sys::tlsf_offsets_report(self.handle.get(), &mut usage) })?;
        Ok(usage.into())
    }
}

impl Drop for Offsets<'_> {
    fn drop(&mut self) {
        // SAFETY: rule 1: nobody else reaches the handle.
        if unsafe { sys::tlsf_offsets_close(self.handle.get()) } != sys::TLSF_OK {
            self.handle.keep();
        }
    }
}
