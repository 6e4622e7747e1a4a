/// A block. The next one begins at `at + size`.
#[repr(C)]
#[derive(Clone, Copy, Debug, Default, PartialEq, Eq)]
pub struct tlsf_block_info {
    pub at: u32,
    /// Words, with its header.
    pub size: u32,
    pub is_live: u32,
    /// Bytes of payload; 0 where it is free.
    pub len: u32,
    /// The serial of a live block; the tick since which it is free.
    pub mark: u64,
}
