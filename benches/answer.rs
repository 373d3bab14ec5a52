//! What the exported functions return.

/// The number of the refusal and what it also returns; 0 and 0 where nothing is refused.
#[repr(C)]
#[derive(Clone, Copy, PartialEq, Eq, Debug)]
pub struct Answer {
    pub number: u64,
    pub also: u64,
}
