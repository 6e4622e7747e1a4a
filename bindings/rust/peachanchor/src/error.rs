use core::ffi::CStr;
use core::fmt;
use peachanchor_sys::{tlsf_text_of, TLSF_OK};

/// Why a call was refused. It has then changed no block.
///
/// ```
/// use peachanchor::Error;
/// assert_eq!(Error::NoFit.to_string(), "no free block fits");
/// ```
#[derive(Clone, Copy, Debug, PartialEq, Eq, Hash)]
#[non_exhaustive]
pub enum Error {
    /// No free block is large enough, by the classes that are searched.
    NoFit = 1,
    /// Too few of 2^64 - 2 ticks are left.
    Worn = 2,
    /// The name is of a heap with another number.
    Foreign = 3,
    /// No live block has that name.
    Stale = 4,
    /// No region or lane has such a size, or no block such an alignment.
    BadSize = 5,
    /// `malloc` said no.
    NoMemory = 6,
    /// The bytes go past the end of the payload.
    Range = 7,
    /// The lane or the queue is full.
    Full = 8,
    /// The block and a free one after it are too small: it would have to move.
    NoRoom = 10,
    /// A signal handler called a heap or a lane that the interrupted call is using.
    Closed = 32,
    /// The handle is open already.
    InUse = 33,
    /// A level is 4 or 5.
    BadLevel = 34,
    /// The lane or the queue is empty, or all posters' ends of a queue were given.
    Empty = 35,
    /// A header doesn't agree with its neighbours or its size, as after a write past a payload.
    Damaged = 36,
    /// Another thread is half through a step on the queue.
    Busy = 37,
    /// As many blocks of that row of pools are held as may be.
    RowFull = 38,
    /// Memory is null, or would go past the end of the address space.
    BadMemory = 39,
    /// A handle holds something of another kind. No call of this crate answers it.
    OtherKind = 40,
    /// The library gave an answer that this crate doesn't know.
    Unknown = 255,
}

impl Error {
    const ALL: [Self; 18] = [
        Self::NoFit,
        Self::Worn,
        Self::Foreign,
        Self::Stale,
        Self::BadSize,
        Self::NoMemory,
        Self::Range,
        Self::Full,
        Self::NoRoom,
        Self::Closed,
        Self::InUse,
        Self::BadLevel,
        Self::Empty,
        Self::Damaged,
        Self::Busy,
        Self::RowFull,
        Self::BadMemory,
        Self::OtherKind,
    ];

    /// What an answer of the library says.
    pub(crate) fn check(answer: u32) -> Result<(), Self> {
        if answer == TLSF_OK {
            return Ok(());
        }
        Err(Self::ALL.into_iter().find(|it| *it as u32 == answer).unwrap_or(Self::Unknown))
    }

    /// What the library says of an answer, in a few words.
    fn text_of(answer: u32) -> &'static str {
        // SAFETY: the call takes any number, and answers a string that stays.
        unsafe { CStr::from_ptr(tlsf_text_of(answer)) }.to_str().unwrap_or_default()
    }
}

impl fmt::Display for Error {
    fn fmt(&self, f: &mut fmt::Formatter<'_>) -> fmt::Result {
        f.write_str(Self::text_of(*self as u32))
    }
}

impl core::error::Error for Error {}

#[cfg(test)]
mod tests {
    use super::Error;
    use peachanchor_sys::TLSF_NOT_WRITTEN;

    // Each answer that the library has words for but TLSF_NOT_WRITTEN, which no call of this crate's answers.
    #[test]
    fn each_answer_has_its_error() {
        let unknown = Error::text_of(Error::Unknown as u32);
        assert_eq!(unknown, "no answer of this library");
        assert_eq!(Error::check(0), Ok(()));
        for answer in 1..Error::Unknown as u32 {
            let has_error = Error::text_of(answer) != unknown && answer != TLSF_NOT_WRITTEN;
            let wanted = if has_error { answer } else { Error::Unknown as u32 };
            assert_eq!(Error::check(answer).map_err(|it| it as u32), Err(wanted));
        }
    }
}
