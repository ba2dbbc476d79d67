//! The four sync words: the first two bytes of a slot, high byte first.

/// A header slot.
pub const HEADER: u16 = 0x55F7;
/// A stream slot.
pub const STREAM: u16 = 0xFF5D;
/// A packet slot.
pub const PACKET: u16 = 0x75FF;
/// The end of a transmission.
pub const END: u16 = 0x555D;
