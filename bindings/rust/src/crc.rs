use crate::c;

/// CRC-16 with polynomial 0x5935, from 0xFFFF.
pub fn m17_crc(input: &[u8]) -> u16 {
    unsafe { c::m17_crc(input.as_ptr(), input.len()) }
}

/// The CRC of what had the CRC `start` and of `input` after it.
pub fn update(start: u16, input: &[u8]) -> u16 {
    unsafe { c::m17_crc_update(start, input.as_ptr(), input.len()) }
}
