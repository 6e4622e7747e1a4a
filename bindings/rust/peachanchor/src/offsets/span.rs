use crate::Name;
use peachanchor_sys::tlsf_span;

/// Bytes of the memory that an arena cuts up ([`Offsets::allocate`](crate::Offsets::allocate)).
#[derive(Clone, Copy, Debug, PartialEq, Eq, Hash)]
pub struct Span {
    /// What it goes back by.
    pub name: Name,
    /// Where it begins, in bytes: a multiple of the arena's unit.
    pub offset: u64,
    /// Its bytes, at least as many as were asked for.
    pub size: u64,
}

impl From<tlsf_span> for Span {
    fn from(it: tlsf_span) -> Self {
        Self { name: Name(it.name), offset: it.offset, size: it.size }
    }
}
