/// A handle with the fields of the heap itself behind it, from the first multiple of 64 bytes on. It lies still while it is open.
#[repr(C)]
#[derive(Debug)]
pub struct tlsf_near_heap {
    pub room: [u8; 2880],
}

impl tlsf_near_heap {
    /// A handle that isn't open, to begin with.
    pub const CLOSED: Self = Self { room: [0; 2880] };
}
