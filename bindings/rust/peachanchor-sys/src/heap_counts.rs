/// What a heap has counted since it was opened.
#[repr(C)]
#[derive(Clone, Copy, Debug, Default, PartialEq, Eq)]
pub struct tlsf_heap_counts {
    /// In live blocks now, with their headers.
    pub words: u32,
    /// The most there ever were.
    pub most_words: u32,
    /// Calls that were `TLSF_NO_FIT`, 2^32 - 1 at most.
    pub refused: u32,
    /// The longest length of these.
    pub longest_refused: u32,
}
