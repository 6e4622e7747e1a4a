use crate::handle::Handle;
use crate::{Error, PostEnd, TakeEnd};
use core::mem::{size_of_val, MaybeUninit};
use peachanchor_sys::{self as sys, tlsf_post_end, tlsf_take_end};

/// Opens a lane for at most `capacity` names, 1 to 1,024, in memory from `malloc`: names go from the thread that has one end
/// to the one that has the other, and neither waits.
///
/// # Errors
///
/// [`Error::BadSize`], [`Error::NoMemory`].
///
/// ```
/// use peachanchor::{lane, Heap, Level};
/// let mut heap = Heap::open(Level::Four, 1, 1024)?;
/// let (mut post, mut take) = lane(64)?;
/// let name = heap.allocate(8)?.into_name();
/// std::thread::spawn(move || post.put(name)).join().unwrap()?;
/// assert_eq!(take.drain(&mut heap, 8)?, 1);
/// assert_eq!(heap.report()?.live_blocks, 0);
/// # Ok::<(), peachanchor::Error>(())
/// ```
#[cfg(feature = "malloc")]
pub fn lane(capacity: u32) -> Result<(PostEnd<'static>, TakeEnd<'static>), Error> {
    let post = Handle::from_malloc(tlsf_post_end::CLOSED)?;
    let take = Handle::from_malloc(tlsf_take_end::CLOSED)?;
    // SAFETY: both handles are closed and lie still (rule 1).
    Error::check(unsafe { sys::tlsf_lane_open(post.get(), take.get(), capacity) })?;
    Ok((PostEnd(post), TakeEnd(take)))
}

/// As `lane`, in memory of yours. It is yours again once both ends are gone.
///
/// # Errors
///
/// [`Error::BadSize`], also where it has fewer words than [`lane_words`] says.
///
/// ```
/// use peachanchor::{lane_in, Error, Region};
/// static REGION: Region<512> = Region::new();
/// let (_post, mut take) = lane_in(64, REGION.take().unwrap())?;
/// assert_eq!(take.take(), Err(Error::Empty));
/// # Ok::<(), peachanchor::Error>(())
/// ```
///
/// Nobody else has the memory while one end is there:
///
/// ```compile_fail,E0506
/// # use core::mem::MaybeUninit;
/// fn reused(memory: &mut [MaybeUninit<u64>]) {
///     let (post, take) = peachanchor::lane_in(64, memory).unwrap();
///     drop(post);
///     memory[0] = MaybeUninit::uninit();
///     drop(take);
/// }
/// ```
pub fn lane_in(capacity: u32, memory: &mut [MaybeUninit<u64>]) -> Result<(PostEnd<'_>, TakeEnd<'_>), Error> {
    let (post, rest) = Handle::lent(tlsf_post_end::CLOSED, memory).ok_or(Error::BadSize)?;
    let (take, rest) = Handle::lent(tlsf_take_end::CLOSED, rest).ok_or(Error::BadSize)?;
    let bytes = size_of_val(rest);
    // SAFETY: as in `lane`. The rest is the lane's as long as one end is there (rule 6).
    Error::check(unsafe { sys::tlsf_lane_open_in(post.get(), take.get(), capacity, rest.as_mut_ptr().cast(), bytes) })?;
    Ok((PostEnd(post), TakeEnd(take)))
}

/// The words of memory in which [`lane_in`] finds room; nothing where no lane has so many names.
///
/// ```
/// assert!(peachanchor::lane_words(64).is_some_and(|words| words < 512));
/// assert_eq!(peachanchor::lane_words(1025), None);
/// ```
#[must_use]
pub fn lane_words(capacity: u32) -> Option<usize> {
    // SAFETY: it takes any number.
    let bytes = unsafe { sys::tlsf_lane_bytes(capacity) };
    let handles = Handle::<tlsf_post_end>::WORDS + Handle::<tlsf_take_end>::WORDS;
    (bytes != 0).then(|| handles + bytes.div_ceil(8))
}
