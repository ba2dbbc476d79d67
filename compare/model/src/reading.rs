//! What the Rust reads from a body of 46 bytes, or the refusal that its having no answer comes to.
use crate::symbols::symbols;
use oracle::protocol::{PacketFrame, StreamFrame};
use oracle::Kind;

pub fn header_of(body: &[u8]) -> Result<[u8; 30], u8> {
    oracle::parse_lsf(&symbols(Kind::Header, body)).map(|frame| frame.0).ok_or(3)
}

/// Of its two parts the code comes first.
pub fn stream_of(body: &[u8]) -> Result<StreamFrame, u8> {
    let symbols = symbols(Kind::Stream, body);
    oracle::parse_stream(&symbols).ok_or_else(|| {
        let received = oracle::frame_initial_decode(&symbols);
        let code = oracle::fec_decode(Kind::Stream, &received[12..]);
        if code.is_none() {
            3
        } else {
            4
        }
    })
}

pub fn packet_of(body: &[u8]) -> Result<PacketFrame, u8> {
    oracle::parse_packet(&symbols(Kind::Packet, body)).ok_or(3)
}
