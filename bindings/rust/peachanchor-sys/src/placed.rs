/// Where a block came to lie, and its serial; or a refusal, and then both are 0.
#[repr(C)]
#[derive(Clone, Copy, Debug, Default, PartialEq, Eq)]
pub struct tlsf_placed {
    pub at: u32,
    pub answer: u32,
    pub serial: u64,
}
