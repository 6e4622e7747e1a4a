use core::marker::PhantomData;
use core::mem::{size_of, MaybeUninit};
use core::ptr::NonNull;

/// A handle of C's library. It lies still wherever its owner is moved to, and only its owner reaches it. Its memory is borrowed
/// for `'m`, or from `malloc`.
#[derive(Debug)]
pub(crate) struct Handle<'m, T> {
    at: NonNull<T>,
    memory: PhantomData<&'m mut [MaybeUninit<u64>]>,
    #[cfg(feature = "malloc")]
    is_from_malloc: bool,
}

/// A handle, and what is left of the memory in which it lies.
pub(crate) type Lent<'m, T> = (Handle<'m, T>, &'m mut [MaybeUninit<u64>]);

impl<'m, T> Handle<'m, T> {
    /// The words that one takes.
    pub(crate) const WORDS: usize = size_of::<T>().div_ceil(8);

    /// Puts a handle at the start of that memory; nothing where there is too little.
    pub(crate) fn lent(closed: T, memory: &'m mut [MaybeUninit<u64>]) -> Option<Lent<'m, T>> {
        const { assert!(align_of::<T>() <= 8) };
        let (own, rest) = memory.split_at_mut_checked(Self::WORDS)?;
        let at = NonNull::from(own).cast::<T>();
        // SAFETY: there are words enough, aligned to 8, and they are this handle's as long as it is there.
        unsafe { at.write(closed) };
        let handle = Self {
            at,
            memory: PhantomData,
            #[cfg(feature = "malloc")]
            is_from_malloc: false,
        };
        Some((handle, rest))
    }

    /// The address for the library's calls.
    pub(crate) fn get(&self) -> *mut T {
        self.at.as_ptr()
    }
}

#[cfg(feature = "malloc")]
mod of_malloc {
    use super::Handle;
    use crate::Error;
    use core::ffi::c_void;
    use core::marker::PhantomData;
    use core::mem::size_of;
    use core::ptr::NonNull;

    extern "C" {
        fn malloc(bytes: usize) -> *mut c_void;
        fn free(at: *mut c_void);
    }

    impl<T> Handle<'_, T> {
        /// Puts a handle into memory from `malloc`, the one that the library calls. No region has it then.
        pub(crate) fn from_malloc(closed: T) -> Result<Self, Error> {
            // SAFETY: any size may be asked for.
            let memory = unsafe { malloc(size_of::<T>()) };
            let at = NonNull::new(memory.cast::<T>()).ok_or(Error::NoMemory)?;
            // SAFETY: `malloc` gave so many bytes, aligned for any type of C.
            unsafe { at.write(closed) };
            Ok(Self { at, memory: PhantomData, is_from_malloc: true })
        }

        /// Whether `from_malloc` made it.
        pub(crate) fn is_from_malloc(&self) -> bool {
            self.is_from_malloc
        }
    }

    impl<T> Drop for Handle<'_, T> {
        fn drop(&mut self) {
            if self.is_from_malloc {
                // SAFETY: `from_malloc` got it, and its owner has closed it.
                unsafe { free(self.at.as_ptr().cast()) };
            }
        }
    }
}

impl<T> Handle<'_, T> {
    /// Leaves a handle where it is for ever, since it could not be closed.
    pub(crate) fn keep(&mut self) {
        #[cfg(feature = "malloc")]
        {
            self.is_from_malloc = false;
        }
    }
}
