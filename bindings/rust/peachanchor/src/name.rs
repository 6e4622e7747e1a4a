use peachanchor_sys::tlsf_name;

/// The name of a block: a plain value, which may be kept and sent to any thread. A heap refuses it once its block was
/// released, whatever was allocated meanwhile, as long as no two heaps have or had one number.
///
/// ```
/// # #[cfg(feature = "malloc")] {
/// use peachanchor::{Heap, Level};
/// let heap = Heap::open(Level::Four, 7, 64)?;
/// let name = heap.allocate(8)?.into_name();
/// assert_eq!((name.heap(), name.place()), (7, 0));
/// # }
/// # Ok::<(), peachanchor::Error>(())
/// ```
#[derive(Clone, Copy, Debug, PartialEq, Eq, Hash)]
#[repr(transparent)]
pub struct Name(pub(crate) tlsf_name);

impl Name {
    /// The number of its heap.
    #[must_use]
    pub fn heap(self) -> u32 {
        self.0.heap
    }

    /// Its place, in words from the start of the region.
    #[must_use]
    pub fn place(self) -> u32 {
        self.0.at
    }

    /// The tick at which its block became live: no two blocks of a heap have one serial.
    #[must_use]
    pub fn serial(self) -> u64 {
        self.0.serial
    }
}
