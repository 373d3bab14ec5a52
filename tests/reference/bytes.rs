//! Big-endian numbers in bytes.

pub fn two_bytes(bytes: &[u8], at: usize) -> usize {
    bytes[at] as usize * 256 + bytes[at + 1] as usize
}

pub fn four_bytes(bytes: &[u8], at: usize) -> u32 {
    (two_bytes(bytes, at) * 65536 + two_bytes(bytes, at + 2)) as u32
}
