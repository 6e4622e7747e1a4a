use core::ffi::c_void;

/// The handle of a heap. Its fields are the library's own, but for `align` before it is opened.
#[repr(C)]
#[derive(Debug)]
pub struct tlsf_heap {
    pub held: *mut c_void,
    pub is_open: bool,
    /// The region's first word, 24 bytes before a multiple of 16, and of `align`.
    pub base: *mut u64,
    /// The number of the names of its blocks.
    pub number: u32,
    /// Blocks may begin where a pointer isn't aligned: a block by name has had an odd number of words since the heap was opened, or
    /// `align` is another than what `malloc` has.
    pub is_mixed: bool,
    /// What pointers are aligned to: 8, 16, 32 or 64 bytes. 0 stands for what `malloc` has: 8 on ARM of 32 bits, else 16.
    pub align: u8,
}

impl tlsf_heap {
    /// A handle that isn't open, to begin with.
    pub const CLOSED: Self = Self {
        held: core::ptr::null_mut(),
        is_open: false,
        base: core::ptr::null_mut(),
        number: 0,
        is_mixed: false,
        align: 0,
    };
}
