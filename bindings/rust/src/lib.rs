//! The M17 bit codec. The static library is proved; what stands here hands arguments over and answers back, and is
//! tested. The names are those of m17core where it has them.
//!
//! A function whose arguments can be wrong answers with a [`Refusal`]. Where the types leave nothing to refuse, the
//! answer comes as it is.
#![no_std]

pub mod address;
pub mod bits;
pub mod c;
pub mod crc;
pub mod decode;
pub mod encode;
pub mod fec;
pub mod golay;
pub mod interleave;
pub mod protocol;
pub mod random;
pub mod receiver;
pub mod sync;

mod header;
mod lich;
mod refusal;

pub use address::{Address, Callsign};
pub use fec::Kind;
pub use protocol::{
    DataType, EncryptionType, Frame, LichCollection, LsfFrame, Mode, PacketFrame, PacketFrameCounter, StreamFrame,
};
pub use receiver::{Answer, Late, Receiver};
pub use refusal::Refusal;

pub type Result<T> = core::result::Result<T, Refusal>;

/// Bytes that a call fills, or its refusal.
fn filled<const N: usize>(call: impl FnOnce(*mut u8, usize) -> u8) -> Result<[u8; N]> {
    let mut out = [0; N];
    Refusal::judge(call(out.as_mut_ptr(), N))?;
    Ok(out)
}

/// The 192 symbols that a call fills, or its refusal.
fn played(call: impl FnOnce(*mut f32, usize) -> u8) -> Result<[f32; 192]> {
    let mut out = [0.0; 192];
    Refusal::judge(call(out.as_mut_ptr(), 192))?;
    Ok(out)
}
