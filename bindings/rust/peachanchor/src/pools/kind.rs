/// A row of a table for [`Pools`](crate::Pools).
#[derive(Clone, Copy, Debug, PartialEq, Eq, Hash)]
pub struct Kind {
    /// The most blocks that are held at once.
    pub most: u32,
    /// The most bytes that each has.
    pub len: usize,
}

/// The counts of a row of [`Pools`](crate::Pools): how many blocks are held of it, and how many may be.
#[derive(Clone, Copy, Debug, PartialEq, Eq)]
pub struct RowCounts {
    /// How many blocks of this row are held: at most `most`.
    pub held: u32,
    /// How many blocks of this row may be held at once.
    pub most: u32,
}
