/// How fine the size classes of a heap are, and how large it may be.
///
/// ```
/// use peachanchor::{Heap, Level};
/// assert!(Heap::words_in(Level::Five, 1 << 24).is_some());
/// assert!(Heap::words_in(Level::Four, 1 << 24).is_none());
/// ```
#[derive(Clone, Copy, Debug, PartialEq, Eq, Hash)]
pub enum Level {
    /// 16 classes per power of two; 4 to 2^20 words, which are 8 MiB.
    Four = 4,
    /// 32 classes per power of two; 4 to 2^24 words, which are 128 MiB.
    Five = 5,
}
