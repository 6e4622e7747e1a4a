//! C's calls of the heap Peachanchor, as `peachanchor.h` has them. The header says what each does, and what the caller owes.
//!
//! All calls are in the archive, and `proved` has them with their plain names. `tlsf_release` here is the header's inline
//! call over `proved::tlsf_release`, which `by_name.rs` has in Rust. The calls by pointer are the archive's own.
//!
//! `libpeachanchor.a` is taken from `$PEACHANCHOR_PREFIX/lib`. Without that variable the C compiler makes it of the assembly in
//! the repository, or in this crate where it was published. Where neither is there, pkg-config says where it is. Without the
//! feature `malloc` it is `libpeachanchor_nomalloc.a`.
//!
//! Each function here is unsafe, as C is. Its caller keeps the rules of `peachanchor.h`. A body passes pointers on to calls
//! that have the same rules.
#![no_std]
#![allow(non_camel_case_types)]

mod block_info;
mod by_name;
mod fetch;
mod heap;
mod heap_counts;
mod heap_report;
mod kind;
mod name;
mod near_heap;
mod offsets;
mod offsets_usage;
mod placed;
mod pools;
mod post_end;
mod poster;
pub mod proved;
mod queue;
mod span;
mod take_end;

pub use block_info::tlsf_block_info;
pub use by_name::tlsf_release;
pub use heap::tlsf_heap;
pub use heap_counts::tlsf_heap_counts;
pub use heap_report::tlsf_heap_report;
pub use kind::tlsf_kind;
pub use name::tlsf_name;
pub use near_heap::tlsf_near_heap;
pub use offsets::tlsf_offsets;
pub use offsets_usage::tlsf_offsets_usage;
pub use placed::tlsf_placed;
pub use pools::tlsf_pools;
pub use post_end::tlsf_post_end;
pub use poster::tlsf_poster;
pub use proved::*;
pub use queue::tlsf_queue;
pub use span::tlsf_span;
pub use take_end::tlsf_take_end;

/// The answers of `enum tlsf_answer`: up to 18 the numbers of a trace, and what C alone refuses from 32 on.
pub const TLSF_OK: u32 = 0;
/// No free block is large enough, by the classes that are searched.
pub const TLSF_NO_FIT: u32 = 1;
/// Too few ticks are left, or no number.
pub const TLSF_WORN: u32 = 2;
/// The name is of a heap with another number.
pub const TLSF_FOREIGN: u32 = 3;
/// No live block has that name, that place or that pointer.
pub const TLSF_STALE: u32 = 4;
/// A region, a lane or an alignment has no such size.
pub const TLSF_BAD_SIZE: u32 = 5;
/// malloc said no.
pub const TLSF_NO_MEMORY: u32 = 6;
/// The bytes go past the end of the payload.
pub const TLSF_RANGE: u32 = 7;
/// The lane or the queue is full.
pub const TLSF_FULL: u32 = 8;
/// The block would have to move.
pub const TLSF_NO_ROOM: u32 = 10;
/// What gets the lines of `tlsf_dump.h` didn't take one. No call here answers it.
pub const TLSF_NOT_WRITTEN: u32 = 17;
/// The handle isn't open, or an interrupted call is using it.
pub const TLSF_IS_CLOSED: u32 = 32;
/// The handle is open already.
pub const TLSF_IN_USE: u32 = 33;
/// A level is 4 or 5.
pub const TLSF_BAD_LEVEL: u32 = 34;
/// The lane or the queue is empty, or all posters' ends of a queue were given.
pub const TLSF_EMPTY: u32 = 35;
/// A header doesn't agree with its neighbours or its size.
pub const TLSF_DAMAGED: u32 = 36;
/// Another thread is half through a step on the queue: the call may be made again.
pub const TLSF_BUSY: u32 = 37;
/// As many blocks of that row of pools are held as may be.
pub const TLSF_ROW_FULL: u32 = 38;
/// Memory of the caller's is null, or would go past the end of the address space, as from `MAP_FAILED`.
pub const TLSF_BAD_MEMORY: u32 = 39;
/// The handle holds something of another kind.
pub const TLSF_OTHER_KIND: u32 = 40;

/// In `flags` of `tlsf_allocate_at`: nothing is filled.
pub const TLSF_UNFILLED: u32 = 1;
/// No region has so many bytes.
pub const TLSF_LONGEST: usize = 1 << 27;
