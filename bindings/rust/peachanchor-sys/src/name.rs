/// The name of a block: a plain value.
#[repr(C)]
#[derive(Clone, Copy, Debug, Default, PartialEq, Eq, Hash)]
pub struct tlsf_name {
    /// The number of its heap.
    pub heap: u32,
    /// Its place, in words from the start of the region.
    pub at: u32,
    /// The tick at which it became live.
    pub serial: u64,
}
