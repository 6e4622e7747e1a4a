use core::ffi::c_void;

/// The handle of pools. Its fields are the library's own.
#[repr(C)]
#[derive(Debug)]
pub struct tlsf_pools {
    pub held: *mut c_void,
    pub is_open: bool,
}

impl tlsf_pools {
    /// A handle that isn't open, to begin with.
    pub const CLOSED: Self = Self { held: core::ptr::null_mut(), is_open: false };
}
