use peachanchor_sys::tlsf_offsets_usage;

/// What an arena holds and what it has left ([`Offsets::report`](crate::Offsets::report)).
#[derive(Clone, Copy, Debug, PartialEq, Eq)]
pub struct Usage {
    /// Spans that are held.
    pub spans: u32,
    /// Their bytes.
    pub held: u64,
    /// The bytes that are free.
    pub free: u64,
    /// The bytes of the greatest free span.
    pub largest: u64,
}

impl From<tlsf_offsets_usage> for Usage {
    fn from(it: tlsf_offsets_usage) -> Self {
        Self { spans: it.spans, held: it.held, free: it.free, largest: it.largest }
    }
}
