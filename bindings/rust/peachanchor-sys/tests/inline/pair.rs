use peachanchor_sys::*;
use std::alloc::{alloc_zeroed, Layout};
use std::ptr::null_mut;

use crate::in_c::InC;
use crate::{Heap, Pointer};

const BYTES: usize = 1 << 16;
const NOTHING: (Pointer, Pointer) = (null_mut(), null_mut());

/// Two heaps of which one is called in Rust and the other in C, and what is live in both.
pub struct Pair<'c> {
    in_c: &'c InC,
    a: Heap,
    b: Heap,
    pointers: Vec<(Pointer, Pointer)>,
    names: Vec<tlsf_name>,
    seed: u64,
}

/// A heap at a multiple of its bytes, so that aligned blocks lie alike in both.
unsafe fn open(level: u32) -> Heap {
    let memory = alloc_zeroed(Layout::from_size_align(BYTES, BYTES).unwrap());
    let heap = Box::into_raw(Box::new(tlsf_heap::CLOSED));
    assert_eq!(tlsf_open_in(heap, level, 1, memory.cast(), BYTES), TLSF_OK);
    heap
}

/// A pointer by its distance from the region's start.
unsafe fn place(heap: Heap, p: Pointer) -> Option<usize> {
    (!p.is_null()).then(|| p as usize - (*heap).base as usize)
}

impl<'c> Pair<'c> {
    pub fn new(in_c: &'c InC, level: u32) -> Self {
        // SAFETY: the memory and the handles are never given back.
        let (a, b) = unsafe { (open(level), open(level)) };
        Self { in_c, a, b, pointers: vec![], names: vec![], seed: level.into() }
    }

    fn chance(&mut self, below: usize) -> usize {
        self.seed = self.seed.wrapping_mul(6364136223846793005).wrapping_add(1442695040888963407);
        (self.seed >> 33) as usize % below
    }

    /// So many calls, of which those by name are left out or not. Each has the same answer in both.
    pub unsafe fn call(&mut self, calls: usize, by_name: bool) {
        for round in 0..calls {
            let len = match self.chance(16) {
                0 => TLSF_LONGEST + self.chance(3),
                1 => self.chance(20_000),
                _ => self.chance(300),
            };
            let align = [0, 1, 3, 8, 16, 32, 64, 256, 4096, 16384][self.chance(10)];
            let got = match self.chance(if by_name { 13 } else { 9 }) {
                kind @ 0..4 => self.get(kind, len, align),
                kind @ 4..9 if !self.pointers.is_empty() => self.use_pointer(kind, len),
                9 => self.allocate_at(len, align),
                kind @ 10..13 => self.use_name(kind, len),
                _ => NOTHING,
            };
            assert_eq!(place(self.a, got.0), place(self.b, got.1), "round {round}, {len} bytes, {align}");
            if !got.0.is_null() {
                self.pointers.push(got);
            }
            assert_eq!((*self.a).is_mixed, (*self.b).is_mixed, "round {round}");
        }
        let (mut s, mut t) = (tlsf_heap_report::default(), tlsf_heap_report::default());
        assert_eq!((tlsf_report(self.a, &mut s), s), (tlsf_report(self.b, &mut t), t));
        assert_eq!((*self.a).is_mixed, by_name);
    }

    unsafe fn get(&mut self, kind: usize, len: usize, align: usize) -> (Pointer, Pointer) {
        match kind {
            0 => (tlsf_calloc(self.a, align, len), (self.in_c.calloc)(self.b, align, len)),
            1 => (tlsf_aligned_alloc(self.a, align, len), (self.in_c.aligned_alloc)(self.b, align, len)),
            _ => (tlsf_malloc(self.a, len), (self.in_c.malloc)(self.b, len)),
        }
    }

    unsafe fn use_pointer(&mut self, kind: usize, len: usize) -> (Pointer, Pointer) {
        let k = self.chance(self.pointers.len());
        let (p, q) = self.pointers[k];
        match kind {
            4 => {
                let by = [0, 1, 4, 8, 16, usize::MAX, 1 << 20, 1 << 40][self.chance(8)];
                let (p, q) = (p.wrapping_byte_add(by), q.wrapping_byte_add(by));
                assert_eq!(tlsf_usable_size(self.a, p), (self.in_c.usable_size)(self.b, q));
                NOTHING
            }
            5 | 6 => {
                let moved = (tlsf_realloc(self.a, p, len), (self.in_c.realloc)(self.b, q, len));
                if len == 0 || !moved.0.is_null() {
                    self.pointers.swap_remove(k);
                }
                moved
            }
            _ => {
                self.pointers.swap_remove(k);
                let free = self.in_c.free;
                assert_eq!([tlsf_free(self.a, p), tlsf_free(self.a, p)], [free(self.b, q), free(self.b, q)]);
                NOTHING
            }
        }
    }

    unsafe fn allocate_at(&mut self, len: usize, align: usize) -> (Pointer, Pointer) {
        let (mut n, mut o, mut got) = (tlsf_name::default(), tlsf_name::default(), NOTHING);
        let answer = tlsf_allocate_at(self.a, len, align, 0, &mut n, &mut got.0);
        assert_eq!((answer, n), ((self.in_c.allocate_at)(self.b, len, align, 0, &mut o, &mut got.1), o));
        got
    }

    unsafe fn use_name(&mut self, kind: usize, len: usize) -> (Pointer, Pointer) {
        let k = self.chance(self.names.len().max(1));
        if kind == 10 || self.names.is_empty() {
            let (mut n, mut o) = (tlsf_name::default(), tlsf_name::default());
            let answer = tlsf_allocate(self.a, len, &mut n);
            assert_eq!((answer, n), ((self.in_c.allocate)(self.b, len, &mut o), o));
            if answer == TLSF_OK {
                self.names.push(n);
            }
        } else if kind == 11 {
            let name = self.names.swap_remove(k);
            assert_eq!(tlsf_release(self.a, name), (self.in_c.release)(self.b, name));
        } else {
            let (mut n, mut o) = (self.names[k], self.names[k]);
            let answer = tlsf_reallocate(self.a, &mut n, len);
            assert_eq!((answer, n), ((self.in_c.reallocate)(self.b, &mut o, len), o));
            self.names[k] = n;
        }
        NOTHING
    }
}
