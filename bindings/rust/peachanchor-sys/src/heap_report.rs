/// What a heap holds. Where nothing is free `largest`, `grant`, `fragmentation` and `age` are 0.
#[repr(C)]
#[derive(Clone, Copy, Debug, Default, PartialEq, Eq)]
pub struct tlsf_heap_report {
    pub live_blocks: u32,
    /// With their headers, three words each.
    pub live_words: u32,
    /// Of payload.
    pub live_bytes: u32,
    pub free_blocks: u32,
    pub free_words: u32,
    /// The words of the greatest free block.
    pub largest: u32,
    /// The greatest length for which `tlsf_allocate` isn't `TLSF_NO_FIT` now.
    pub grant: u32,
    /// Thousandths of the free words that lie outside the greatest free block.
    pub fragmentation: u32,
    /// `8 * live_words - live_bytes`.
    pub waste: u32,
    /// Ticks from the one on at which the block that is free longest became free.
    pub age: u64,
}
