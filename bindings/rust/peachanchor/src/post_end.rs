use crate::handle::Handle;
use crate::{Error, Name};
use peachanchor_sys::{self as sys, tlsf_post_end};

/// The end of a lane into which names are put. It may go to another thread, and is closed when it is dropped.
#[derive(Debug)]
pub struct PostEnd<'m>(pub(crate) Handle<'m, tlsf_post_end>);

// SAFETY: an end is the only way to its handle. The library lets the two ends of a lane be called at the same time.
unsafe impl Send for PostEnd<'_> {}

impl PostEnd<'_> {
    /// Puts a name after the others. It never waits.
    ///
    /// # Errors
    ///
    /// [`Error::Full`]: a full lane takes it later.
    pub fn put(&mut self, name: Name) -> Result<(), Error> {
        // SAFETY: the handle is open (rule 1), and the name is no object of another heap's region: it lies on this stack.
        Error::check(unsafe { sys::tlsf_put(self.0.get(), name.0) })
    }

    /// Puts as many of the names after the others as there are slots, the first of them first, and answers how many went.
    /// The other end is shown many at once, so they cost less than each alone. It never waits.
    ///
    /// # Errors
    ///
    /// [`Error::Closed`], in a signal handler alone.
    pub fn put_all(&mut self, names: &[Name]) -> Result<usize, Error> {
        let mut went = 0;
        // SAFETY: the handle is open (rule 1), a `Name` is laid out as what it holds, and the call copies the names (rule 3).
        Error::check(unsafe { sys::tlsf_put_all(self.0.get(), names.as_ptr().cast(), names.len(), &mut went) })?;
        Ok(went)
    }
}

impl Drop for PostEnd<'_> {
    fn drop(&mut self) {
        // SAFETY: rule 1: nobody else reaches the handle.
        if unsafe { sys::tlsf_post_close(self.0.get()) } != sys::TLSF_OK {
            self.0.keep();
        }
    }
}
