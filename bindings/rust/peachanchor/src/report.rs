use peachanchor_sys::tlsf_heap_report;

/// What a heap holds, and how well it serves ([`Heap::report`](crate::Heap::report)). Where nothing is free `largest`,
/// `grant`, `fragmentation` and `age` are 0.
#[derive(Clone, Copy, Debug, PartialEq, Eq)]
pub struct Report {
    /// Live blocks.
    pub live_blocks: u32,
    /// Their words, with headers of three words each.
    pub live_words: u32,
    /// Their bytes of payload.
    pub live_bytes: u32,
    /// Free blocks.
    pub free_blocks: u32,
    /// Their words.
    pub free_words: u32,
    /// The words of the greatest free block.
    pub largest: u32,
    /// The greatest length for which [`Heap::allocate`](crate::Heap::allocate) finds room now.
    pub grant: u32,
    /// Thousandths of the free words that lie outside the greatest free block.
    pub fragmentation: u32,
    /// Bytes of live blocks that are no payload.
    pub waste: u32,
    /// Ticks from the one on at which the block that is free longest became free.
    pub age: u64,
}

impl From<tlsf_heap_report> for Report {
    fn from(it: tlsf_heap_report) -> Self {
        Self {
            live_blocks: it.live_blocks,
            live_words: it.live_words,
            live_bytes: it.live_bytes,
            free_blocks: it.free_blocks,
            free_words: it.free_words,
            largest: it.largest,
            grant: it.grant,
            fragmentation: it.fragmentation,
            waste: it.waste,
            age: it.age,
        }
    }
}
