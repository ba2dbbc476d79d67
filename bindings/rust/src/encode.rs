//! Frames to bodies of 46 bytes and to 192 symbols.
use crate::protocol::{LsfFrame, PacketFrame, PacketFrameCounter, StreamFrame};
use crate::{c, filled, played, Kind, Result};

impl PacketFrameCounter {
    /// Whether the frame is the final one, and its place or its length.
    fn parts(&self) -> (u8, usize) {
        match *self {
            PacketFrameCounter::Frame { index } => (0, index),
            PacketFrameCounter::FinalFrame { payload_len } => (1, payload_len),
        }
    }
}

pub fn encode_lich(counter: u8, part: &[u8; 5]) -> Result<[u8; 12]> {
    filled(|out, len| unsafe { c::m17_encode_lich(counter, part.as_ptr(), 5, out, len) })
}

pub fn write_lsf(frame: &LsfFrame) -> [u8; 46] {
    let mut out = [0; 46];
    unsafe { c::m17_write_lsf(frame.0.as_ptr(), 30, out.as_mut_ptr(), 46) };
    out
}

pub fn write_stream(frame: &StreamFrame) -> Result<[u8; 46]> {
    let (part, data) = (frame.lich_part.as_ptr(), frame.stream_data.as_ptr());
    filled(|out, len| unsafe {
        c::m17_write_stream(frame.lich_idx, part, 5, frame.frame_number, frame.end_of_stream.into(), data, 16, out, len)
    })
}

pub fn write_packet(frame: &PacketFrame) -> Result<[u8; 46]> {
    let (last, number) = frame.counter.parts();
    filled(|out, len| unsafe { c::m17_write_packet(last, number, frame.payload.as_ptr(), 25, out, len) })
}

/// A body's symbols after the eight of its kind's sync word.
pub fn body_to_symbols(kind: Kind, body: &[u8]) -> Result<[f32; 192]> {
    played(|out, len| unsafe { c::m17_body_to_symbols(kind.number(), body.as_ptr(), body.len(), out, len) })
}

pub fn encode_lsf(frame: &LsfFrame) -> [f32; 192] {
    let mut out = [0.0; 192];
    unsafe { c::m17_encode_lsf(frame.0.as_ptr(), 30, out.as_mut_ptr(), 192) };
    out
}

pub fn encode_stream(frame: &StreamFrame) -> Result<[f32; 192]> {
    let (part, data) = (frame.lich_part.as_ptr(), frame.stream_data.as_ptr());
    played(|out, len| unsafe {
        c::m17_encode_stream(
            frame.lich_idx,
            part,
            5,
            frame.frame_number,
            frame.end_of_stream.into(),
            data,
            16,
            out,
            len,
        )
    })
}

pub fn encode_packet(frame: &PacketFrame) -> Result<[f32; 192]> {
    let (last, number) = frame.counter.parts();
    played(|out, len| unsafe { c::m17_encode_packet(last, number, frame.payload.as_ptr(), 25, out, len) })
}
