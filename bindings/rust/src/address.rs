use crate::{c, filled, Result};

#[derive(Debug, Clone, PartialEq, Eq)]
pub enum Address {
    Invalid,
    Callsign(Callsign),
    Reserved(u64),
    Broadcast,
}

/// The nine characters of a callsign, spaces at the end where it is shorter.
#[derive(Debug, Clone, PartialEq, Eq)]
pub struct Callsign(pub [u8; 9]);

/// What a callsign is written with. A character's place is its digit.
pub static ALPHABET: [u8; 40] = *b" ABCDEFGHIJKLMNOPQRSTUVWXYZ0123456789-/.";

impl Address {
    /// The kind, the value and the characters that stand for it at the boundary.
    pub(crate) fn parts(&self) -> (u8, u64, [u8; 9]) {
        match self {
            Address::Invalid => (0, 0, [0; 9]),
            Address::Callsign(callsign) => (1, 0, callsign.0),
            Address::Reserved(value) => (2, *value, [0; 9]),
            Address::Broadcast => (3, 0, [0; 9]),
        }
    }
}

/// The address that a call fills in. What the types leave nothing to refuse of is read as invalid if it is refused all
/// the same, or has a kind that there is not.
pub(crate) fn heard(call: impl FnOnce(*mut u8, *mut u64, *mut u8, usize) -> u8) -> Address {
    let (mut kind, mut value, mut callsign) = (0, 0, [0; 9]);
    let said = call(&mut kind, &mut value, callsign.as_mut_ptr(), 9);
    match (said, kind) {
        (0, 1) => Address::Callsign(Callsign(callsign)),
        (0, 2) => Address::Reserved(value),
        (0, 3) => Address::Broadcast,
        _ => Address::Invalid,
    }
}

pub fn decode_address(encoded: [u8; 6]) -> Address {
    heard(|kind, value, callsign, len| unsafe {
        c::m17_decode_address(encoded.as_ptr(), 6, kind, value, callsign, len)
    })
}

/// Lower case is written as upper. A callsign with a foreign byte or of spaces alone is refused, and so is a reserved
/// value outside its range.
pub fn encode_address(address: &Address) -> Result<[u8; 6]> {
    let (kind, value, callsign) = address.parts();
    filled(|out, len| unsafe { c::m17_encode_address(kind, value, callsign.as_ptr(), 9, out, len) })
}

#[cfg(test)]
mod tests {
    use super::*;

    #[test]
    fn kinds_of_another_make() {
        let answers = |said, kind| {
            heard(|to, _, _, _| unsafe {
                *to = kind;
                said
            })
        };
        assert_eq!(answers(0, 3), Address::Broadcast);
        assert_eq!(answers(0, 4), Address::Invalid);
        assert_eq!(answers(1, 3), Address::Invalid);
    }
}
