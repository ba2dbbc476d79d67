//! Bodies of 46 bytes on the Rust's side. It goes from fields to symbols at once, so its own functions are joined here
//! as `encode.rs` and `decode.rs` join them, without the symbols.
use oracle::protocol::{PacketFrame, PacketFrameCounter, StreamFrame};
use oracle::{decode_lich, encode_lich, fec_decode, fec_encode, Kind};
use ours::Body;

/// Coded bits, interleaved and xored.
pub fn on_air(coded: &[u8]) -> Body {
    let mut body = oracle::interleave(coded);
    oracle::random_xor(&mut body);
    body
}

/// The coded bits of a body.
fn received(body: &[u8]) -> Body {
    let mut xored: Body = body.try_into().unwrap();
    oracle::random_xor(&mut xored);
    oracle::interleave(&xored)
}

pub fn write_lsf(header: &[u8]) -> Body {
    on_air(&fec_encode(Kind::Header, header))
}

pub fn write_stream(frame: &StreamFrame) -> Body {
    let mut data = [0; 18];
    let end = if frame.end_of_stream { 0x8000 } else { 0 };
    data[..2].copy_from_slice(&(frame.frame_number | end).to_be_bytes());
    data[2..].copy_from_slice(&frame.stream_data);
    let mut coded = [0; 46];
    coded[..12].copy_from_slice(&encode_lich(frame.lich_idx, &frame.lich_part));
    coded[12..].copy_from_slice(&fec_encode(Kind::Stream, &data)[..34]);
    on_air(&coded)
}

pub fn write_packet(frame: &PacketFrame) -> Body {
    let mut data = [0; 26];
    let (filled, number) = match frame.counter {
        PacketFrameCounter::Frame { index } => (25, index as u8),
        PacketFrameCounter::FinalFrame { payload_len } => (payload_len, payload_len as u8 | 0x20),
    };
    data[..filled].copy_from_slice(&frame.payload[..filled]);
    data[25] = number << 2;
    on_air(&fec_encode(Kind::Packet, &data))
}

pub fn read_lsf(body: &[u8]) -> Option<[u8; 30]> {
    fec_decode(Kind::Header, &received(body))
}

pub fn read_stream(body: &[u8]) -> Option<StreamFrame> {
    let received = received(body);
    let data = fec_decode(Kind::Stream, &received[12..])?;
    let (lich_idx, lich_part) = decode_lich(&received[..12])?;
    let number = u16::from_be_bytes([data[0], data[1]]);
    Some(StreamFrame {
        lich_idx,
        lich_part,
        frame_number: number & 0x7FFF,
        end_of_stream: number > 0x7FFF,
        stream_data: data[2..18].try_into().unwrap(),
    })
}

pub fn read_packet(body: &[u8]) -> Option<PacketFrame> {
    let data = fec_decode(Kind::Packet, &received(body))?;
    let number = (data[25] >> 2 & 0x1F) as usize;
    let counter = match data[25] >> 7 {
        0 => PacketFrameCounter::Frame { index: number },
        _ => PacketFrameCounter::FinalFrame { payload_len: number },
    };
    Some(PacketFrame { payload: data[..25].try_into().unwrap(), counter })
}

#[cfg(test)]
mod tests {
    use super::*;
    use crate::random::Random;
    use crate::symbols::{body, symbols};
    use crate::write::{for_rust, packet_for_rust, stream_of};
    use crate::{frames, lich};
    use oracle::protocol::LsfFrame;

    // The Rust's own way through symbols says the same.
    #[test]
    fn as_through_symbols() {
        let mut random = Random::new(1);
        for turn in 0..300 {
            let [header, stream, packet] = Kind::ALL.map(|kind| {
                let part = frames::of_turn(kind, &mut random, turn).received(kind);
                let before =
                    if kind == Kind::Stream { lich::flipped(&mut random, [0, 1, 3, turn % 5]) } else { vec![] };
                on_air(&[before, part].concat())
            });
            let on_air = |kind, body: &Body| symbols(kind, body);
            assert_eq!(read_lsf(&header), oracle::parse_lsf(&on_air(Kind::Header, &header)).map(|frame| frame.0));
            assert_eq!(read_stream(&stream), oracle::parse_stream(&on_air(Kind::Stream, &stream)));
            assert_eq!(read_packet(&packet), oracle::parse_packet(&on_air(Kind::Packet, &packet)));

            let header: [u8; 30] = random.bytes(30).try_into().unwrap();
            assert_eq!(write_lsf(&header), body(&oracle::encode_lsf(&LsfFrame(header))));
            let mut frame = stream_of(&random.bytes(25));
            (frame.lich_idx, frame.frame_number) = (frame.lich_idx % 6, frame.frame_number & 0x7FFF);
            assert_eq!(write_stream(&for_rust(&frame)), body(&oracle::encode_stream(&for_rust(&frame))));
            let (final_frame, payload) = (random.below(2) as u8, random.bytes(25).try_into().unwrap());
            let frame = packet_for_rust(&ours::Packet { final_frame, number: random.below(26), payload });
            assert_eq!(write_packet(&frame), body(&oracle::encode_packet(&frame)));
        }
    }
}
