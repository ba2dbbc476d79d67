use crate::c;

/// Xors each byte with that of the sequence at its place modulo 46.
pub fn random_xor(bytes: &mut [u8]) {
    unsafe { c::m17_random_xor(bytes.as_mut_ptr(), bytes.len()) }
}
