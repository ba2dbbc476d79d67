//! The extended Golay(24,12) code.
use crate::{c, Refusal, Result};

/// The codeword of 12 bits of data.
pub fn encode(value: u16) -> Result<u32> {
    let mut out = 0;
    Refusal::judge(unsafe { c::m17_golay_encode(value, &mut out) })?;
    Ok(out)
}

/// The data of the only codeword within three flipped bits.
pub fn decode(word: u32) -> Result<u16> {
    let mut out = 0;
    Refusal::judge(unsafe { c::m17_golay_decode(word, &mut out) })?;
    Ok(out)
}
