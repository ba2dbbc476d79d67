//! Bits, crc, random, interleave, golay, address and fec.
use crate::{answered, c, filled, Refused, MARK};

pub fn get_bit(bytes: &[u8], place: usize) -> Result<u8, Refused> {
    let mut out = MARK;
    let said = unsafe { c::m17_get_bit(bytes.as_ptr(), bytes.len(), place, &mut out) };
    answered(said, out, MARK)
}

/// Answers the number alone: the caller sees what became of the bytes.
pub fn set_bit(bytes: &mut [u8], place: usize, value: u8) -> u8 {
    unsafe { c::m17_set_bit(bytes.as_mut_ptr(), bytes.len(), place, value) }
}

/// The next bit or the end, and the place after it. No bit is 165: that says that the end was told with a bit, or badly.
pub fn next_bit(bytes: &[u8], mut place: usize) -> (Option<u8>, usize) {
    let (mut read, mut out) = (MARK, MARK);
    unsafe { c::m17_next_bit(bytes.as_ptr(), bytes.len(), &mut place, &mut read, &mut out) };
    match (read, out) {
        (1, bit) => (Some(bit), place),
        (0, MARK) => (None, place),
        _ => (Some(MARK), place),
    }
}

pub fn crc(input: &[u8]) -> u16 {
    unsafe { c::m17_crc(input.as_ptr(), input.len()) }
}

pub fn crc_update(start: u16, input: &[u8]) -> u16 {
    unsafe { c::m17_crc_update(start, input.as_ptr(), input.len()) }
}

pub fn random_xor(bytes: &mut [u8]) {
    unsafe { c::m17_random_xor(bytes.as_mut_ptr(), bytes.len()) }
}

pub fn interleave(payload: &[u8]) -> Result<[u8; 46], Refused> {
    filled(|out, len| unsafe { c::m17_interleave(payload.as_ptr(), payload.len(), out, len) })
}

pub fn golay_encode(value: u16) -> Result<u32, Refused> {
    let mut out = MARK as u32;
    let said = unsafe { c::m17_golay_encode(value, &mut out) };
    answered(said, out, MARK as u32)
}

pub fn golay_decode(word: u32) -> Result<u16, Refused> {
    let mut out = MARK as u16;
    let said = unsafe { c::m17_golay_decode(word, &mut out) };
    answered(said, out, MARK as u16)
}

/// An address as the library gives it: 0 invalid, 1 callsign, 2 reserved, 3 broadcast.
#[derive(Clone, Copy, Debug, PartialEq, Eq)]
pub struct Address {
    pub kind: u8,
    pub value: u64,
    pub callsign: [u8; 9],
}

/// An address in the lent memory of a call.
pub(crate) fn heard(call: impl FnOnce(*mut u8, *mut u64, *mut u8, usize) -> u8) -> Result<Address, Refused> {
    let before = Address { kind: MARK, value: MARK as u64, callsign: [MARK; 9] };
    let mut out = before;
    let said = call(&mut out.kind, &mut out.value, out.callsign.as_mut_ptr(), 9);
    answered(said, out, before)
}

pub fn decode_address(encoded: &[u8]) -> Result<Address, Refused> {
    heard(|kind, value, callsign, len| unsafe {
        c::m17_decode_address(encoded.as_ptr(), encoded.len(), kind, value, callsign, len)
    })
}

pub fn encode_address(kind: u8, value: u64, callsign: &[u8]) -> Result<[u8; 6], Refused> {
    filled(|out, len| unsafe { c::m17_encode_address(kind, value, callsign.as_ptr(), callsign.len(), out, len) })
}

pub fn fec_encode(kind: u8, data: &[u8]) -> Result<[u8; 46], Refused> {
    filled(|out, len| unsafe { c::m17_fec_encode(kind, data.as_ptr(), data.len(), out, len) })
}

pub fn fec_decode(kind: u8, received: &[u8]) -> Result<[u8; 30], Refused> {
    filled(|out, len| unsafe { c::m17_fec_decode(kind, received.as_ptr(), received.len(), out, len) })
}
