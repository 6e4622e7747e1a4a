use peachanchor_sys::tlsf_name;
use std::ffi::{c_char, c_int, CStr, CString};
use std::mem::transmute_copy;
use std::path::Path;
use std::process::Command;

use crate::{Heap, Pointer};

extern "C" {
    fn dlopen(file: *const c_char, flags: c_int) -> Pointer;
    fn dlsym(library: Pointer, name: *const c_char) -> Pointer;
}

/// The calls of inline.c.
pub struct InC {
    pub malloc: extern "C" fn(Heap, usize) -> Pointer,
    pub calloc: extern "C" fn(Heap, usize, usize) -> Pointer,
    pub realloc: extern "C" fn(Heap, Pointer, usize) -> Pointer,
    pub aligned_alloc: extern "C" fn(Heap, usize, usize) -> Pointer,
    pub free: extern "C" fn(Heap, Pointer) -> u32,
    pub usable_size: extern "C" fn(Heap, Pointer) -> usize,
    pub allocate: extern "C" fn(Heap, usize, &mut tlsf_name) -> u32,
    pub release: extern "C" fn(Heap, tlsf_name) -> u32,
    pub reallocate: extern "C" fn(Heap, &mut tlsf_name, usize) -> u32,
    pub allocate_at: extern "C" fn(Heap, usize, usize, u32, &mut tlsf_name, &mut Pointer) -> u32,
    pub text_of: extern "C" fn(u32) -> *const c_char,
}

impl InC {
    /// Compiles inline.c and loads it; nothing where there is no header or no compiler.
    pub fn load() -> Option<Self> {
        let include = concat!(env!("CARGO_MANIFEST_DIR"), "/../../../include");
        Path::new(include).join("peachanchor.h").exists().then_some(())?;
        let to = format!("{}/inline.so", env!("CARGO_TARGET_TMPDIR"));
        let source = concat!(env!("CARGO_MANIFEST_DIR"), "/tests/inline/inline.c");
        let mut words = env!("PEACHANCHOR_CC").split_whitespace();
        let mut cc = Command::new(words.next()?);
        cc.args(words).args(["-shared", "-fPIC", "-O2", source, "-o", &to]);
        cc.args(["-I", include, env!("PEACHANCHOR_ARCHIVE")]);
        assert!(cc.status().ok()?.success(), "inline.c is compiled");
        let file = CString::new(to).unwrap();
        // SAFETY: the file is there, and nothing of it runs before it is called. Each function has its type of inline.c.
        unsafe {
            let library = dlopen(file.as_ptr(), 2);
            assert!(!library.is_null(), "inline.so is opened");
            Some(Self {
                malloc: of(library, c"c_malloc"),
                calloc: of(library, c"c_calloc"),
                realloc: of(library, c"c_realloc"),
                aligned_alloc: of(library, c"c_aligned_alloc"),
                free: of(library, c"c_free"),
                usable_size: of(library, c"c_usable_size"),
                allocate: of(library, c"c_allocate"),
                release: of(library, c"c_release"),
                reallocate: of(library, c"c_reallocate"),
                allocate_at: of(library, c"c_allocate_at"),
                text_of: of(library, c"c_text_of"),
            })
        }
    }
}

/// A function of the library, of the type that is wanted.
unsafe fn of<F>(library: Pointer, name: &CStr) -> F {
    let found = dlsym(library, name.as_ptr());
    assert!(!found.is_null() && size_of::<F>() == size_of::<Pointer>());
    transmute_copy(&found)
}
