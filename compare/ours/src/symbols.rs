//! Frames of 192 symbols.
use crate::{answered, c, filled, Body, Header, Packet, Refused, Stream};

/// Symbols are the same where their bit patterns are: so all values of a float are told apart.
#[derive(Clone, Debug)]
pub struct Symbols(pub [f32; 192]);

impl PartialEq for Symbols {
    fn eq(&self, other: &Self) -> bool {
        self.0.map(f32::to_bits) == other.0.map(f32::to_bits)
    }
}

/// A value that no writer gives.
const MARK: f32 = f32::NAN;

/// The symbols in the lent memory of a call.
fn sent(call: impl FnOnce(*mut f32, usize) -> u8) -> Result<Symbols, Refused> {
    let mut out = Symbols([MARK; 192]);
    let said = call(out.0.as_mut_ptr(), 192);
    answered(said, out, Symbols([MARK; 192]))
}

pub fn body_to_symbols(kind: u8, body: &[u8]) -> Result<Symbols, Refused> {
    sent(|out, len| unsafe { c::m17_body_to_symbols(kind, body.as_ptr(), body.len(), out, len) })
}

pub fn symbols_to_body(symbols: &[f32]) -> Result<Body, Refused> {
    filled(|out, len| unsafe { c::m17_symbols_to_body(symbols.as_ptr(), symbols.len(), out, len) })
}

pub fn frame_initial_decode(symbols: &[f32]) -> Result<Body, Refused> {
    filled(|out, len| unsafe { c::m17_frame_initial_decode(symbols.as_ptr(), symbols.len(), out, len) })
}

pub fn encode_lsf(header: &[u8]) -> Result<Symbols, Refused> {
    sent(|out, len| unsafe { c::m17_encode_lsf(header.as_ptr(), header.len(), out, len) })
}

pub fn encode_stream(frame: &Stream) -> Result<Symbols, Refused> {
    let Stream { lich_idx, lich_part, frame_number, end_of_stream, stream_data } = frame;
    let (part, spoken) = (lich_part.as_ptr(), stream_data.as_ptr());
    sent(|out, len| unsafe {
        c::m17_encode_stream(*lich_idx, part, 5, *frame_number, *end_of_stream, spoken, 16, out, len)
    })
}

pub fn encode_packet(frame: &Packet) -> Result<Symbols, Refused> {
    let payload = frame.payload.as_ptr();
    sent(|out, len| unsafe { c::m17_encode_packet(frame.final_frame, frame.number, payload, 25, out, len) })
}

pub fn parse_lsf(symbols: &[f32]) -> Result<Header, Refused> {
    filled(|out, len| unsafe { c::m17_parse_lsf(symbols.as_ptr(), symbols.len(), out, len) })
}

pub fn parse_stream(symbols: &[f32]) -> Result<Stream, Refused> {
    Stream::read(|frame| unsafe {
        c::m17_parse_stream(
            symbols.as_ptr(),
            symbols.len(),
            &mut frame.lich_idx,
            frame.lich_part.as_mut_ptr(),
            5,
            &mut frame.frame_number,
            &mut frame.end_of_stream,
            frame.stream_data.as_mut_ptr(),
            16,
        )
    })
}

pub fn parse_packet(symbols: &[f32]) -> Result<Packet, Refused> {
    Packet::read(|frame| unsafe {
        let payload = frame.payload.as_mut_ptr();
        c::m17_parse_packet(symbols.as_ptr(), symbols.len(), &mut frame.final_frame, &mut frame.number, payload, 25)
    })
}
