//! LICHs of 12 bytes, and bodies of 46 bytes.
use crate::{answered, c, filled, Header, Refused, MARK};

pub type Body = [u8; 46];

pub fn encode_lich(counter: u8, part: &[u8]) -> Result<[u8; 12], Refused> {
    filled(|out, len| unsafe { c::m17_encode_lich(counter, part.as_ptr(), part.len(), out, len) })
}

pub fn decode_lich(lich: &[u8]) -> Result<(u8, [u8; 5]), Refused> {
    let before = (MARK, [MARK; 5]);
    let (mut counter, mut part) = before;
    let said = unsafe { c::m17_decode_lich(lich.as_ptr(), lich.len(), &mut counter, part.as_mut_ptr(), 5) };
    answered(said, (counter, part), before)
}

/// A stream frame. The end is 0 or 1 as it is read; anything but 0 writes it.
#[derive(Clone, Copy, Debug, PartialEq, Eq)]
pub struct Stream {
    pub lich_idx: u8,
    pub lich_part: [u8; 5],
    pub frame_number: u16,
    pub end_of_stream: u8,
    pub stream_data: [u8; 16],
}

/// A packet frame. Final is 0 or 1 as it is read; anything but 0 writes it. The number is an index or a length.
#[derive(Clone, Copy, Debug, PartialEq, Eq)]
pub struct Packet {
    pub final_frame: u8,
    pub number: usize,
    pub payload: [u8; 25],
}

impl Stream {
    /// The frame in the lent memory of a call.
    pub(crate) fn read(call: impl FnOnce(&mut Self) -> u8) -> Result<Self, Refused> {
        let before = Stream {
            lich_idx: MARK,
            lich_part: [MARK; 5],
            frame_number: MARK as u16,
            end_of_stream: MARK,
            stream_data: [MARK; 16],
        };
        let mut frame = before;
        let said = call(&mut frame);
        answered(said, frame, before)
    }
}

impl Packet {
    pub(crate) fn read(call: impl FnOnce(&mut Self) -> u8) -> Result<Self, Refused> {
        let before = Packet { final_frame: MARK, number: MARK as usize, payload: [MARK; 25] };
        let mut frame = before;
        let said = call(&mut frame);
        answered(said, frame, before)
    }
}

pub fn write_lsf(header: &[u8]) -> Result<Body, Refused> {
    filled(|out, len| unsafe { c::m17_write_lsf(header.as_ptr(), header.len(), out, len) })
}

pub fn read_lsf(body: &[u8]) -> Result<Header, Refused> {
    filled(|out, len| unsafe { c::m17_read_lsf(body.as_ptr(), body.len(), out, len) })
}

pub fn write_stream(frame: &Stream) -> Result<Body, Refused> {
    let Stream { lich_idx, lich_part, frame_number, end_of_stream, stream_data } = frame;
    let (part, spoken) = (lich_part.as_ptr(), stream_data.as_ptr());
    filled(|out, len| unsafe {
        c::m17_write_stream(*lich_idx, part, 5, *frame_number, *end_of_stream, spoken, 16, out, len)
    })
}

pub fn read_stream(body: &[u8]) -> Result<Stream, Refused> {
    Stream::read(|frame| unsafe {
        c::m17_read_stream(
            body.as_ptr(),
            body.len(),
            &mut frame.lich_idx,
            frame.lich_part.as_mut_ptr(),
            5,
            &mut frame.frame_number,
            &mut frame.end_of_stream,
            frame.stream_data.as_mut_ptr(),
            16,
        )
    })
}

pub fn write_packet(frame: &Packet) -> Result<Body, Refused> {
    let payload = frame.payload.as_ptr();
    filled(|out, len| unsafe { c::m17_write_packet(frame.final_frame, frame.number, payload, 25, out, len) })
}

pub fn read_packet(body: &[u8]) -> Result<Packet, Refused> {
    Packet::read(|frame| unsafe {
        let payload = frame.payload.as_mut_ptr();
        c::m17_read_packet(body.as_ptr(), body.len(), &mut frame.final_frame, &mut frame.number, payload, 25)
    })
}
