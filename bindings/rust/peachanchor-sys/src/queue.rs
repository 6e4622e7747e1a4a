use core::ffi::c_void;

/// The handle of a queue's owner's end. Its fields are the library's own.
#[repr(C)]
#[derive(Debug)]
pub struct tlsf_queue {
    pub held: *mut c_void,
    pub is_open: bool,
}

impl tlsf_queue {
    /// A handle that isn't open, to begin with.
    pub const CLOSED: Self = Self { held: core::ptr::null_mut(), is_open: false };
}
