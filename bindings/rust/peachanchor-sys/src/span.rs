use crate::tlsf_name;

/// Bytes of the memory that an arena of offsets cuts up, under the name that they go back by.
#[repr(C)]
#[derive(Clone, Copy, Debug, Default, PartialEq, Eq)]
pub struct tlsf_span {
    pub name: tlsf_name,
    pub offset: u64,
    pub size: u64,
}
