use crate::handle::Handle;
use crate::{Error, Name};
use peachanchor_sys::{self as sys, tlsf_poster};

/// One poster's end of a queue ([`Queue::poster`](crate::Queue::poster)). It may go to another thread, and is closed when it is
/// dropped.
#[derive(Debug)]
pub struct Poster<'m>(pub(crate) Handle<'m, tlsf_poster>);

// SAFETY: an end is the only way to its handle. The library lets all ends of a queue be called at the same time.
unsafe impl Send for Poster<'_> {}

impl Poster<'_> {
    /// Puts a name after those of this poster, by one attempt. It never waits.
    ///
    /// # Errors
    ///
    /// [`Error::Full`] where the queue was full at one moment of the call. [`Error::Busy`] where another thread is half through
    /// a step on the queue: the call may be made again.
    pub fn post(&mut self, name: Name) -> Result<(), Error> {
        // SAFETY: as in `PostEnd::put`.
        Error::check(unsafe { sys::tlsf_queue_post(self.0.get(), name.0) })
    }
}

impl Drop for Poster<'_> {
    fn drop(&mut self) {
        // SAFETY: rule 1: nobody else reaches the handle.
        if unsafe { sys::tlsf_poster_close(self.0.get()) } != sys::TLSF_OK {
            self.0.keep();
        }
    }
}
