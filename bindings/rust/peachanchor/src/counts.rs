use peachanchor_sys::tlsf_heap_counts;

/// What a heap has counted since it was opened ([`Heap::counts`](crate::Heap::counts)).
#[derive(Clone, Copy, Debug, PartialEq, Eq)]
pub struct Counts {
    /// Words in live blocks now, with their headers.
    pub words: u32,
    /// The most that there ever were.
    pub most_words: u32,
    /// Requests that found no room, 2^32 - 1 at most.
    pub refused: u32,
    /// The bytes of the longest of these.
    pub longest_refused: u32,
}

impl From<tlsf_heap_counts> for Counts {
    fn from(it: tlsf_heap_counts) -> Self {
        Self { words: it.words, most_words: it.most_words, refused: it.refused, longest_refused: it.longest_refused }
    }
}
