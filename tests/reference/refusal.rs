//! The numbers of refusal.

use std::fmt;

#[derive(Clone, Copy, PartialEq, Eq, Debug)]
pub enum Refusal {
    /// A number that returns nothing else: 1 to 6, 8, 9, 30, 40.
    Plain(u32),
    /// 7 and 20 to 23, with the node; 50 to 52, with the byte of the text.
    At(u32, usize),
    /// 32 and 53, with the bytes needed.
    Needs(u32, usize),
}

impl fmt::Display for Refusal {
    fn fmt(&self, f: &mut fmt::Formatter) -> fmt::Result {
        match self {
            Refusal::Plain(number) => write!(f, "refused {number}"),
            Refusal::At(number, place) => write!(f, "refused {number} at {place}"),
            Refusal::Needs(number, bytes) => write!(f, "refused {number} needs {bytes}"),
        }
    }
}
