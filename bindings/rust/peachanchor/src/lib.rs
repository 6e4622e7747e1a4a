//! A real-time heap over memory of your own. No call on an open heap takes memory or waits, and none that allocates, resizes
//! or releases a block walks a list of blocks.
//!
//! ```
//! # #[cfg(feature = "malloc")] {
//! use peachanchor::{Error, Heap, Level};
//! let mut heap = Heap::open(Level::Four, 1, 4096)?; // 4,096 words of 8 bytes; its number is 1
//! let name = {
//!     let block = heap.allocate(100)?; // 100 bytes, all zero
//!     block[0].set(42);
//!     block.into_name()
//! };
//! assert_eq!(heap.payload(name)?[0], 42);
//! heap.release(name)?;
//! assert_eq!(heap.release(name), Err(Error::Stale)); // a double free
//! # }
//! # Ok::<(), peachanchor::Error>(())
//! ```
//!
//! The heap itself is C's library. A release has it as assembly in [`peachanchor_sys`], which says where else it may come
//! from.
//!
//! # How the rules of `peachanchor.h` are kept
//!
//! The proofs of the heap rest on six rules. Here the types keep them:
//!
//! 1. A handle lies still, where nobody else reaches it: a [`Heap`] holds its address. It is closed when it is dropped.
//! 2. A heap is `Send` and not `Sync`, so one thread at a time calls it. `Send` stands for any order of two threads that
//!    Rust knows. The header names thread starts, thread ends, locks and sequentially consistent atomics, so to keep it to
//!    the letter hand a heap over by these.
//! 3. What the library gets by pointer lies on the stack of a call here. Bytes of yours are copied here, not there. Memory in which
//!    you open something may lie in a box of a heap. Then a handle lies in that heap's region. No call gets both, since the
//!    box borrows its heap.
//! 4. A payload is used by whoever holds the block, in any thread, also during calls on the heap that aren't about this block.
//!    [`Block::bytes_mut`] lends its bytes, which another thread may have, and the block with them. A [`Block`] itself calls the
//!    heap, so it is neither `Send` nor `Sync`, and shows its bytes as `[Cell<u8>]` besides. A [`HeapBox`] lends its value in the
//!    same way. [`Heap::in_place`] and [`GlobalHeap::new`] are `unsafe`, since what they allocate is reached by pointer.
//! 5. To set a signal handler or to fork is `unsafe` in Rust. Who does so keeps this rule.
//! 6. Memory is borrowed as long as what lies in it is there, or is from C's `malloc`. Nobody calls what was forgotten.
#![no_std]
#![cfg_attr(feature = "allocator_api", feature(allocator_api))]
#![deny(missing_docs, missing_debug_implementations, unsafe_op_in_unsafe_fn, clippy::undocumented_unsafe_blocks)]

mod block;
mod counts;
mod error;
mod global_heap;
mod handle;
mod heap;
mod heap_box;
mod in_place;
mod lane;
mod level;
mod name;
mod offsets;
#[cfg(feature = "malloc")]
mod pools;
mod post_end;
mod queue;
mod region;
mod report;
mod take_end;

pub use block::Block;
pub use counts::Counts;
pub use error::Error;
pub use global_heap::GlobalHeap;
pub use heap::Heap;
pub use heap_box::HeapBox;
pub use in_place::InPlace;
#[cfg(feature = "malloc")]
pub use lane::lane;
pub use lane::{lane_in, lane_words};
pub use level::Level;
pub use name::Name;
pub use offsets::{Offsets, Span, Usage};
#[cfg(feature = "malloc")]
pub use pools::{Kind, Pools, RowCounts};
pub use post_end::PostEnd;
pub use queue::{Poster, Queue};
pub use region::Region;
pub use report::Report;
pub use take_end::TakeEnd;
