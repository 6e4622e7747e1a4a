use crate::handle::Handle;
use crate::{Error, Heap, Name};
use peachanchor_sys::{self as sys, tlsf_take_end};

/// The end of a lane from which names are taken, in the order in which they were put. It may go to another thread, and is
/// closed when it is dropped.
#[derive(Debug)]
pub struct TakeEnd<'m>(pub(crate) Handle<'m, tlsf_take_end>);

// SAFETY: as for `PostEnd`.
unsafe impl Send for TakeEnd<'_> {}

impl TakeEnd<'_> {
    /// Takes the first name. It never waits.
    ///
    /// # Errors
    ///
    /// [`Error::Empty`].
    pub fn take(&mut self) -> Result<Name, Error> {
        let mut name = sys::tlsf_name::default();
        // SAFETY: the handle is open (rule 1), and the name lies on this stack (rule 3).
        Error::check(unsafe { sys::tlsf_take(self.0.get(), &mut name) })?;
        Ok(Name(name))
    }

    /// Takes at most `most` names, releases their blocks, and answers how many came. A name whose release is refused counts
    /// too.
    ///
    /// # Errors
    ///
    /// [`Error::Closed`], in a signal handler alone.
    pub fn drain(&mut self, heap: &mut Heap<'_>, most: u32) -> Result<u32, Error> {
        let mut came = 0;
        // SAFETY: rules 1 and 3. No block of the heap is in use, since it is borrowed exclusively.
        Error::check(unsafe { sys::tlsf_drain(heap.raw(), self.0.get(), most, &mut came) })?;
        Ok(came)
    }
}

impl Drop for TakeEnd<'_> {
    fn drop(&mut self) {
        // SAFETY: rule 1: nobody else reaches the handle.
        if unsafe { sys::tlsf_take_close(self.0.get()) } != sys::TLSF_OK {
            self.0.keep();
        }
    }
}
