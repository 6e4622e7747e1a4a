//! Calls answer in Rust as they do where they are inline in C: by chance on two heaps, one for each. It needs a C
//! compiler, `peachanchor.h` where the repository and a release have it, and a system that loads libraries by `dlopen`.

#![cfg(unix)]

mod in_c;
mod pair;

use in_c::InC;
use pair::Pair;
use peachanchor_sys::{tlsf_heap, tlsf_text_of};
use std::ffi::{c_void, CStr};

type Heap = *mut tlsf_heap;
type Pointer = *mut c_void;

#[test]
fn calls_answer_as_in_c() {
    let Some(in_c) = InC::load() else {
        return eprintln!("no cc or no peachanchor.h: the inline calls of C are not compared");
    };
    for answer in 0..50 {
        // SAFETY: C answers a string that stays.
        let (here, there) = unsafe { (CStr::from_ptr(tlsf_text_of(answer)), CStr::from_ptr((in_c.text_of)(answer))) };
        assert_eq!(here, there);
    }
    for (level, by_name) in [(4, false), (4, true), (5, false), (5, true)] {
        // SAFETY: one thread calls both heaps, with pointers and names that may be any.
        unsafe { Pair::new(&in_c, level).call(40_000, by_name) };
    }
}
