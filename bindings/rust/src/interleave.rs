use crate::{c, filled, Result};

/// Brings each bit of 46 bytes to its place. Done twice it changes nothing.
pub fn interleave(payload: &[u8]) -> Result<[u8; 46]> {
    filled(|out, len| unsafe { c::m17_interleave(payload.as_ptr(), payload.len(), out, len) })
}
