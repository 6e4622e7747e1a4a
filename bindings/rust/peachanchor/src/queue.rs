use crate::handle::Handle;
use crate::{Error, Heap, Name};
use core::mem::{size_of_val, take, MaybeUninit};
use peachanchor_sys::{self as sys, tlsf_poster, tlsf_queue};

mod poster;
pub use poster::Poster;

/// The owner's end of a queue: several threads put names into it, and the one that has this end takes them out. It may go to
/// another thread, and is closed when it is dropped. No call waits.
///
/// ```
/// # #[cfg(feature = "malloc")] {
/// use peachanchor::{Error, Heap, Level, Queue};
/// let mut heap = Heap::open(Level::Four, 1, 1024)?;
/// let mut queue = Queue::open(2, 64)?; // 2 posters, 64 names
/// let names = [8, 16].map(|len| heap.allocate(len).unwrap().into_name());
/// std::thread::scope(|scope| {
///     for name in names {
///         let mut poster = queue.poster().unwrap();
///         scope.spawn(move || while poster.post(name) == Err(Error::Busy) {});
///     }
/// });
/// assert_eq!(queue.drain(&mut heap, 64)?, 2);
/// assert_eq!(heap.report()?.live_blocks, 0);
/// # }
/// # Ok::<(), peachanchor::Error>(())
/// ```
///
/// No poster's end outlives the memory of its queue:
///
/// ```compile_fail,E0506
/// # use core::mem::MaybeUninit;
/// # use peachanchor::{Name, Queue};
/// fn reused(memory: &mut [MaybeUninit<u64>], name: Name) {
///     let mut poster = Queue::open_in(1, 64, memory).unwrap().poster().unwrap();
///     memory[0] = MaybeUninit::uninit();
///     let _ = poster.post(name);
/// }
/// ```
#[derive(Debug)]
pub struct Queue<'m> {
    handle: Handle<'m, tlsf_queue>,
    /// Where posters' ends will lie, if the memory isn't from `malloc`.
    ends: &'m mut [MaybeUninit<u64>],
}

// SAFETY: as for `PostEnd`.
unsafe impl Send for Queue<'_> {}

#[cfg(feature = "malloc")]
impl Queue<'static> {
    /// Opens a queue for `posters` posters, 1 to 1,024, and at most `capacity` names, 1 to 1,024, in memory from `malloc`.
    ///
    /// # Errors
    ///
    /// [`Error::BadSize`], [`Error::NoMemory`].
    pub fn open(posters: u32, capacity: u32) -> Result<Self, Error> {
        let handle = Handle::from_malloc(tlsf_queue::CLOSED)?;
        // SAFETY: the handle is closed and lies still (rule 1).
        Error::check(unsafe { sys::tlsf_queue_open(handle.get(), posters, capacity) })?;
        Ok(Self { handle, ends: &mut [] })
    }
}

impl<'m> Queue<'m> {
    /// As `open`, in memory of yours, where the posters' ends lie too. It is yours again once all ends are gone.
    ///
    /// # Errors
    ///
    /// [`Error::BadSize`], also where it has fewer words than [`words_in`](Self::words_in) says.
    ///
    /// ```
    /// use peachanchor::{Error, Queue, Region};
    /// static REGION: Region<2048> = Region::new();
    /// let mut queue = Queue::open_in(1, 64, REGION.take().unwrap())?;
    /// let _poster = queue.poster()?;
    /// assert_eq!(queue.poster().err(), Some(Error::Empty));
    /// # Ok::<(), peachanchor::Error>(())
    /// ```
    pub fn open_in(posters: u32, capacity: u32, memory: &'m mut [MaybeUninit<u64>]) -> Result<Self, Error> {
        let (handle, rest) = Handle::lent(tlsf_queue::CLOSED, memory).ok_or(Error::BadSize)?;
        let (ends, rest) = rest.split_at_mut_checked(Self::words_of_ends(posters)).ok_or(Error::BadSize)?;
        let bytes = size_of_val(rest);
        // SAFETY: as in `open`. The rest is the queue's as long as one end is there (rule 6).
        Error::check(unsafe {
            sys::tlsf_queue_open_in(handle.get(), posters, capacity, rest.as_mut_ptr().cast(), bytes)
        })?;
        Ok(Self { handle, ends })
    }

    /// The words of memory in which [`open_in`](Self::open_in) finds room; nothing where there is no such queue.
    ///
    /// ```
    /// use peachanchor::Queue;
    /// assert!(Queue::words_in(2, 64).is_some_and(|words| words < 2048));
    /// assert_eq!(Queue::words_in(0, 64), None);
    /// ```
    #[must_use]
    pub fn words_in(posters: u32, capacity: u32) -> Option<usize> {
        // SAFETY: it takes any numbers.
        let bytes = unsafe { sys::tlsf_queue_bytes(posters, capacity) };
        (bytes != 0).then(|| Handle::<tlsf_queue>::WORDS + Self::words_of_ends(posters) + bytes.div_ceil(8))
    }

    fn words_of_ends(posters: u32) -> usize {
        (posters as usize).saturating_mul(Handle::<tlsf_poster>::WORDS)
    }

    /// Opens the next poster's end, for any thread. One that was given isn't given again, so threads that come and go hand it on.
    ///
    /// # Errors
    ///
    /// [`Error::Empty`] where all were given, [`Error::NoMemory`].
    pub fn poster(&mut self) -> Result<Poster<'m>, Error> {
        let poster = self.closed_poster()?;
        // SAFETY: both handles lie still, the queue's is open, and the poster's is closed (rule 1).
        Error::check(unsafe { sys::tlsf_poster_open(self.handle.get(), poster.get()) })?;
        Ok(Poster(poster))
    }

    /// The handle of the next poster's end, where that of the queue is from.
    fn closed_poster(&mut self) -> Result<Handle<'m, tlsf_poster>, Error> {
        #[cfg(feature = "malloc")]
        if self.handle.is_from_malloc() {
            return Handle::from_malloc(tlsf_poster::CLOSED);
        }
        let (poster, rest) = Handle::lent(tlsf_poster::CLOSED, take(&mut self.ends)).ok_or(Error::Empty)?;
        self.ends = rest;
        Ok(poster)
    }

    /// Takes the first name, by one attempt.
    ///
    /// # Errors
    ///
    /// [`Error::Empty`], and [`Error::Busy`] where the first name is half put: it may be taken later.
    pub fn take(&mut self) -> Result<Name, Error> {
        let mut name = sys::tlsf_name::default();
        // SAFETY: the handle is open (rule 1), and the name lies on this stack (rule 3).
        Error::check(unsafe { sys::tlsf_queue_take(self.handle.get(), &mut name) })?;
        Ok(Name(name))
    }

    /// Takes at most `most` names, up to the first that doesn't come, releases their blocks, and answers how many came. A name
    /// whose release is refused counts too.
    ///
    /// # Errors
    ///
    /// [`Error::Closed`], in a signal handler alone.
    pub fn drain(&mut self, heap: &mut Heap<'_>, most: u32) -> Result<u32, Error> {
        let mut came = 0;
        // SAFETY: rules 1 and 3. No block of the heap is in use, since it is borrowed exclusively.
        Error::check(unsafe { sys::tlsf_queue_drain(heap.raw(), self.handle.get(), most, &mut came) })?;
        Ok(came)
    }
}

impl Drop for Queue<'_> {
    fn drop(&mut self) {
        // SAFETY: rule 1: nobody else reaches the handle.
        if unsafe { sys::tlsf_queue_close(self.handle.get()) } != sys::TLSF_OK {
            self.handle.keep();
        }
    }
}
