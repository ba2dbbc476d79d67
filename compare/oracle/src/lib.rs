//! m17core 0.1.0, unchanged, with a public name for each private function that is compared.

// The text is taken as it stands, so what a newer compiler remarks on is not ours to mend.
#![allow(dead_code, mismatched_lifetime_syntaxes)]

include!(concat!(env!("OUT_DIR"), "/modules.rs"));

use protocol::{LsfFrame, PacketFrame, StreamFrame};

/// The three kinds of frame, numbered as the static library numbers them.
#[derive(Clone, Copy, Debug, PartialEq, Eq)]
pub enum Kind {
    Header,
    Stream,
    Packet,
}

impl Kind {
    pub const ALL: [Kind; 3] = [Kind::Header, Kind::Stream, Kind::Packet];

    /// The bits that are coded, and what each step sends, as `encode.rs` and `decode.rs` call for them.
    fn code(self) -> (usize, fn(usize) -> (bool, bool)) {
        match self {
            Kind::Header => (240, fec::p_1),
            Kind::Stream => (144, fec::p_2),
            Kind::Packet => (206, fec::p_3),
        }
    }
}

pub fn get_bit(bytes: &[u8], place: usize) -> u8 {
    bits::Bits::new(bytes).get_bit(place)
}

pub fn set_bit(bytes: &mut [u8], place: usize, value: u8) {
    bits::BitsMut::new(bytes).set_bit(place, value)
}

/// What the iterator gives after as many bits as `place` says.
pub fn next_bit(bytes: &[u8], place: usize) -> Option<u8> {
    bits::Bits::new(bytes).iter().nth(place)
}

pub fn bits_of(bytes: &[u8]) -> Vec<u8> {
    bits::Bits::new(bytes).iter().collect()
}

pub fn random_xor(bytes: &mut [u8]) {
    random::random_xor(bytes)
}

pub fn interleave(payload: &[u8]) -> [u8; 46] {
    interleave::interleave(payload)
}

pub fn fec_encode(kind: Kind, data: &[u8]) -> [u8; 46] {
    let (n, puncture) = kind.code();
    fec::encode(data, n, puncture)
}

pub fn fec_decode(kind: Kind, received: &[u8]) -> Option<[u8; 30]> {
    let (n, puncture) = kind.code();
    fec::decode(received, n, puncture)
}

/// Reads words of n bits, so that cases small enough for a search through all words can be asked.
pub fn fec_decode_short(kind: Kind, n: usize, received: &[u8]) -> Option<[u8; 30]> {
    fec::decode(received, n, kind.code().1)
}

pub fn encode_lich(counter: u8, part: &[u8; 5]) -> [u8; 12] {
    encode::encode_lich(counter, part)
}

pub fn decode_lich(lich: &[u8]) -> Option<(u8, [u8; 5])> {
    decode::decode_lich(lich)
}

pub fn encode_lsf(frame: &LsfFrame) -> [f32; 192] {
    encode::encode_lsf(frame)
}

pub fn encode_stream(frame: &StreamFrame) -> [f32; 192] {
    encode::encode_stream(frame)
}

pub fn encode_packet(frame: &PacketFrame) -> [f32; 192] {
    encode::encode_packet(frame)
}

pub fn frame_initial_decode(frame: &[f32]) -> [u8; 46] {
    decode::frame_initial_decode(frame)
}

pub fn parse_lsf(frame: &[f32]) -> Option<LsfFrame> {
    decode::parse_lsf(frame)
}

pub fn parse_stream(frame: &[f32]) -> Option<StreamFrame> {
    decode::parse_stream(frame)
}

pub fn parse_packet(frame: &[f32]) -> Option<PacketFrame> {
    decode::parse_packet(frame)
}
