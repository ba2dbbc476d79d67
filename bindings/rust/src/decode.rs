//! Frames from bodies of 46 bytes and from 192 symbols. No reading looks at the eight symbols of the sync word, and none
//! refuses a header for its CRC.
use crate::protocol::{LsfFrame, PacketFrame, PacketFrameCounter, StreamFrame};
use crate::{c, filled, Refusal, Result};

pub fn decode_lich(lich: &[u8]) -> Result<(u8, [u8; 5])> {
    let mut counter = 0;
    let part = filled(|part, len| unsafe { c::m17_decode_lich(lich.as_ptr(), lich.len(), &mut counter, part, len) })?;
    Ok((counter, part))
}

fn stream(call: impl FnOnce(*mut u8, *mut u8, usize, *mut u16, *mut u8, *mut u8, usize) -> u8) -> Result<StreamFrame> {
    let mut frame = StreamFrame::default();
    let mut end = 0;
    let (part, data) = (frame.lich_part.as_mut_ptr(), frame.stream_data.as_mut_ptr());
    Refusal::judge(call(&mut frame.lich_idx, part, 5, &mut frame.frame_number, &mut end, data, 16))?;
    frame.end_of_stream = end != 0;
    Ok(frame)
}

fn packet(call: impl FnOnce(*mut u8, *mut usize, *mut u8, usize) -> u8) -> Result<PacketFrame> {
    let (mut last, mut number) = (0, 0);
    let payload = filled(|payload, len| call(&mut last, &mut number, payload, len))?;
    let counter = match last {
        0 => PacketFrameCounter::Frame { index: number },
        _ => PacketFrameCounter::FinalFrame { payload_len: number },
    };
    Ok(PacketFrame { payload, counter })
}

pub fn read_lsf(body: &[u8]) -> Result<LsfFrame> {
    filled(|out, len| unsafe { c::m17_read_lsf(body.as_ptr(), body.len(), out, len) }).map(LsfFrame)
}

pub fn read_stream(body: &[u8]) -> Result<StreamFrame> {
    stream(|idx, part, part_len, number, end, data, data_len| unsafe {
        c::m17_read_stream(body.as_ptr(), body.len(), idx, part, part_len, number, end, data, data_len)
    })
}

pub fn read_packet(body: &[u8]) -> Result<PacketFrame> {
    packet(|last, number, payload, len| unsafe {
        c::m17_read_packet(body.as_ptr(), body.len(), last, number, payload, len)
    })
}

/// The 46 bytes of the body, as they were sent.
pub fn symbols_to_body(frame: &[f32]) -> Result<[u8; 46]> {
    filled(|out, len| unsafe { c::m17_symbols_to_body(frame.as_ptr(), frame.len(), out, len) })
}

/// The coded bytes of the body: un-xored, and brought back to coded order.
pub fn frame_initial_decode(frame: &[f32]) -> Result<[u8; 46]> {
    filled(|out, len| unsafe { c::m17_frame_initial_decode(frame.as_ptr(), frame.len(), out, len) })
}

pub fn parse_lsf(frame: &[f32]) -> Result<LsfFrame> {
    filled(|out, len| unsafe { c::m17_parse_lsf(frame.as_ptr(), frame.len(), out, len) }).map(LsfFrame)
}

pub fn parse_stream(frame: &[f32]) -> Result<StreamFrame> {
    stream(|idx, part, part_len, number, end, data, data_len| unsafe {
        c::m17_parse_stream(frame.as_ptr(), frame.len(), idx, part, part_len, number, end, data, data_len)
    })
}

pub fn parse_packet(frame: &[f32]) -> Result<PacketFrame> {
    packet(|last, number, payload, len| unsafe {
        c::m17_parse_packet(frame.as_ptr(), frame.len(), last, number, payload, len)
    })
}
