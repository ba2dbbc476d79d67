//! Frames and their fields.
pub use crate::header::LsfFrame;
pub use crate::lich::LichCollection;

#[derive(Debug, Clone, Copy, PartialEq, Eq)]
pub enum Mode {
    Packet,
    Stream,
}

#[derive(Debug, Clone, Copy, PartialEq, Eq)]
pub enum DataType {
    Reserved,
    Data,
    Voice,
    VoiceAndData,
}

#[derive(Debug, Clone, Copy, PartialEq, Eq)]
pub enum EncryptionType {
    None,
    Scrambler,
    Aes,
    Other,
}

#[derive(Debug, Clone, PartialEq, Eq)]
pub enum Frame {
    Lsf(LsfFrame),
    Stream(StreamFrame),
    Packet(PacketFrame),
}

#[derive(Debug, Clone, PartialEq, Eq, Default)]
pub struct StreamFrame {
    /// Which LICH part the frame has: 0 to 5, or 6 and 7 as read.
    pub lich_idx: u8,
    pub lich_part: [u8; 5],
    /// 0 to 32,767.
    pub frame_number: u16,
    pub end_of_stream: bool,
    pub stream_data: [u8; 16],
}

#[derive(Debug, Clone, PartialEq, Eq)]
pub struct PacketFrame {
    pub payload: [u8; 25],
    pub counter: PacketFrameCounter,
}

#[derive(Debug, Clone, PartialEq, Eq)]
pub enum PacketFrameCounter {
    /// A frame that is not the final one, with its place from 0 to 31.
    Frame { index: usize },
    /// The final frame, with how many bytes of it are filled: at most 25, or up to 31 as read.
    FinalFrame { payload_len: usize },
}
