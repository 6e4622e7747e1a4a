/// A row of a table of kinds: how many blocks are held at once, and how many bytes each has, at most.
#[repr(C)]
#[derive(Clone, Copy, Debug, Default, PartialEq, Eq)]
pub struct tlsf_kind {
    pub most: u32,
    pub len: usize,
}
