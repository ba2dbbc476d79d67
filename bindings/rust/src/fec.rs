//! The convolutional code with its three puncturings.
use crate::{c, filled, Result};

/// The kind of a frame, which names its puncturing and its lengths.
#[derive(Debug, Clone, Copy, PartialEq, Eq)]
pub enum Kind {
    /// 30 bytes, coded to 46.
    Header,
    /// 18 bytes, coded to 34.
    Stream,
    /// 26 bytes, the last two bits not looked at, coded to 46.
    Packet,
}

impl Kind {
    pub(crate) fn number(self) -> u8 {
        match self {
            Kind::Header => 0,
            Kind::Stream => 1,
            Kind::Packet => 2,
        }
    }
}

/// The coded bytes, and zeros after them.
pub fn encode(kind: Kind, plain: &[u8]) -> Result<[u8; 46]> {
    filled(|out, len| unsafe { c::m17_fec_encode(kind.number(), plain.as_ptr(), plain.len(), out, len) })
}

/// The bytes of the nearest word, and zeros after them.
pub fn decode(kind: Kind, received: &[u8]) -> Result<[u8; 30]> {
    filled(|out, len| unsafe { c::m17_fec_decode(kind.number(), received.as_ptr(), received.len(), out, len) })
}
