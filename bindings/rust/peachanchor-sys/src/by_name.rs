//! The calls by name that are inline in `peachanchor.h`.
//!
//! # Safety
//!
//! The rules of `peachanchor.h`. Each pointer is to what its type says, and whole.
#![allow(clippy::missing_safety_doc)]

use crate::fetch::fetch;
use crate::{proved, tlsf_heap, tlsf_name};

/// Releases a block. Refused: `TLSF_IS_CLOSED`, `TLSF_FOREIGN`, `TLSF_STALE`, `TLSF_WORN`.
pub unsafe fn tlsf_release(heap: *mut tlsf_heap, name: tlsf_name) -> u32 {
    fetch((*heap).base.wrapping_add(name.at as usize).cast());
    proved::tlsf_release(heap, name)
}
