/// What an arena of offsets holds and what it has left, in bytes.
#[repr(C)]
#[derive(Clone, Copy, Debug, Default, PartialEq, Eq)]
pub struct tlsf_offsets_usage {
    pub spans: u32,
    pub held: u64,
    pub free: u64,
    pub largest: u64,
}
