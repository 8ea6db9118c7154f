//! Little endian numbers and flag bits within bytes.

pub fn u16_at(bytes: &[u8], at: usize) -> u16 {
    u16::from_le_bytes(array_at(bytes, at))
}

pub fn u32_at(bytes: &[u8], at: usize) -> u32 {
    u32::from_le_bytes(array_at(bytes, at))
}

pub fn array_at<const N: usize>(bytes: &[u8], at: usize) -> [u8; N] {
    let mut array = [0; N];
    array.copy_from_slice(&bytes[at..at + N]);
    array
}

pub fn put(bytes: &mut [u8], at: usize, value: &[u8]) {
    bytes[at..at + value.len()].copy_from_slice(value);
}

pub fn put_u16(bytes: &mut [u8], at: usize, value: u16) {
    put(bytes, at, &value.to_le_bytes());
}

pub fn put_u32(bytes: &mut [u8], at: usize, value: u32) {
    put(bytes, at, &value.to_le_bytes());
}

/// A reference is an offset from the table's start and a length.
pub fn put_reference(bytes: &mut [u8], at: usize, offset: u32, length: u16) {
    put_u32(bytes, at, offset);
    put_u16(bytes, at + 4, length);
}

pub fn bit(flags: u32, place: u32) -> bool {
    flags >> place & 1 == 1
}

/// The two-bit field whose lower bit is at `place`.
pub fn two_bits(flags: u32, place: u32) -> u8 {
    (flags >> place & 3) as u8
}

/// Overwrites one flag bit and leaves every other bit alone.
pub fn set_bit(bytes: &mut [u8], at: usize, place: usize, value: bool) {
    let byte = &mut bytes[at + place / 8];
    let mask = 1 << (place % 8);
    if value {
        *byte |= mask;
    } else {
        *byte &= !mask;
    }
}

/// Overwrites a two-bit field and leaves every other bit alone.
pub fn set_two_bits(bytes: &mut [u8], at: usize, place: usize, value: u8) {
    set_bit(bytes, at, place, value & 1 != 0);
    set_bit(bytes, at, place + 1, value & 2 != 0);
}

pub fn byte_sum(bytes: &[u8]) -> u8 {
    bytes.iter().fold(0, |sum, byte| sum.wrapping_add(*byte))
}
