/// Has the cache line of an address fetched, while a call looks at other ones. The address may be any, since a hint reads
/// nothing. Where stable Rust has no hint it does nothing.
#[inline]
pub(crate) fn fetch(at: *const u8) {
    #[cfg(target_arch = "x86_64")]
    {
        use core::arch::x86_64::{_mm_prefetch, _MM_HINT_T0};
        // SAFETY: each x86-64 processor has it.
        unsafe { _mm_prefetch::<_MM_HINT_T0>(at.cast()) };
    }
    #[cfg(not(target_arch = "x86_64"))]
    let _ = at;
}
