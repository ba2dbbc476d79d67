//! What is written reads back, for each kind, through bodies and through symbols.
use okihemon::address::{decode_address, encode_address};
use okihemon::bits::Bits;
use okihemon::decode::*;
use okihemon::encode::*;
use okihemon::{
    bits, fec, golay, interleave::interleave, random::random_xor, Address, Callsign, DataType, EncryptionType, Kind,
    LichCollection, LsfFrame, Mode, PacketFrame, PacketFrameCounter, Refusal, StreamFrame,
};

fn bytes<const N: usize>(seed: usize) -> [u8; N] {
    let mut out = [0; N];
    for (place, byte) in out.iter_mut().enumerate() {
        *byte = (seed * 151 + place * 57 + place * place * seed) as u8;
    }
    out
}

fn names() -> [Address; 4] {
    let river = Address::Callsign(Callsign(*b"RIVER-7  "));
    [Address::Invalid, river, Address::Reserved(0xEE6B_2800_0007), Address::Broadcast]
}

#[test]
fn header() {
    for source in names() {
        for destination in names() {
            let voice = LsfFrame::new_voice(&source, &destination).unwrap();
            let mut frame = LsfFrame::new_packet(&source, &destination).unwrap();
            for new in [&voice, &frame] {
                assert_eq!((new.source(), new.destination()), (source.clone(), destination.clone()));
                assert_eq!((new.encryption_type(), new.check_crc()), (EncryptionType::None, 0));
            }
            assert_eq!((voice.mode(), voice.data_type()), (Mode::Stream, DataType::Voice));
            assert_eq!((frame.mode(), frame.data_type()), (Mode::Packet, DataType::Data));
            frame.set_mode(Mode::Stream);
            frame.set_data_type(DataType::VoiceAndData);
            frame.set_encryption_type(EncryptionType::Aes);
            frame.set_channel_access_number(11).unwrap();
            frame.set_source(&destination).unwrap();
            frame.set_destination(&source).unwrap();
            assert_eq!((frame.source(), frame.destination()), (destination.clone(), source.clone()));
            assert_eq!((frame.mode(), frame.data_type()), (Mode::Stream, DataType::VoiceAndData));
            assert_eq!((frame.encryption_type(), frame.channel_access_number()), (EncryptionType::Aes, 11));
            assert_eq!((frame.meta(), frame.check_crc()), ([0; 14], 0));
            assert_eq!(read_lsf(&write_lsf(&frame)), Ok(frame.clone()));
            assert_eq!(parse_lsf(&encode_lsf(&frame)), Ok(frame));
        }
    }
    for mode in [Mode::Packet, Mode::Stream] {
        let mut frame = LsfFrame(bytes(3));
        let meta = frame.meta();
        assert_eq!(meta, frame.0[14..28]);
        frame.set_mode(mode);
        assert_eq!((frame.mode(), frame.meta(), frame.check_crc()), (mode, meta, 0));
    }
    for data in [DataType::Reserved, DataType::Data, DataType::Voice, DataType::VoiceAndData] {
        let mut frame = LsfFrame(bytes(4));
        frame.set_data_type(data);
        assert_eq!((frame.data_type(), frame.check_crc()), (data, 0));
    }
    use EncryptionType::*;
    for encryption in [None, Scrambler, Aes, Other] {
        let mut frame = LsfFrame(bytes(5));
        frame.set_encryption_type(encryption);
        assert_eq!((frame.encryption_type(), frame.check_crc()), (encryption, 0));
    }
}

#[test]
fn stream() {
    for (lich_idx, frame_number) in (0..=5).flat_map(|idx| [0, 1, 9, 32_767].map(|number| (idx, number))) {
        for end_of_stream in [false, true] {
            let seed = usize::from(lich_idx) + usize::from(frame_number);
            let frame =
                StreamFrame { lich_idx, lich_part: bytes(seed), frame_number, end_of_stream, stream_data: bytes(seed) };
            assert_eq!(read_stream(&write_stream(&frame).unwrap()), Ok(frame.clone()));
            assert_eq!(parse_stream(&encode_stream(&frame).unwrap()), Ok(frame));
        }
    }
}

#[test]
fn packet() {
    for index in 0..=31 {
        let frame = PacketFrame { payload: bytes(index), counter: PacketFrameCounter::Frame { index } };
        assert_eq!(read_packet(&write_packet(&frame).unwrap()), Ok(frame.clone()));
        assert_eq!(parse_packet(&encode_packet(&frame).unwrap()), Ok(frame));
    }
    for payload_len in 0..=25 {
        let counter = PacketFrameCounter::FinalFrame { payload_len };
        let given = PacketFrame { payload: bytes(payload_len + 1), counter };
        let mut read = given.clone();
        read.payload[payload_len..].fill(0);
        assert_eq!(read_packet(&write_packet(&given).unwrap()), Ok(read.clone()));
        assert_eq!(parse_packet(&encode_packet(&given).unwrap()), Ok(read));
    }
}

#[test]
fn damage_within_six() {
    let frame = LsfFrame(bytes(8));
    let mut body = write_lsf(&frame);
    for place in [0, 61, 122, 183, 244, 305] {
        body[place / 8] ^= 0x80 >> (place % 8);
    }
    assert_eq!(read_lsf(&body), Ok(frame));
}

#[test]
fn symbols() {
    let body = bytes(6);
    for kind in [Kind::Header, Kind::Stream, Kind::Packet] {
        let played = body_to_symbols(kind, &body).unwrap();
        assert_eq!(symbols_to_body(&played), Ok(body));
        let mut coded = body;
        random_xor(&mut coded);
        assert_eq!(frame_initial_decode(&played), interleave(&coded));
        assert_eq!(body_to_symbols(kind, &body[1..]), Err(Refusal::WrongLength));
    }
    assert_eq!(symbols_to_body(&[f32::NAN; 192]), Ok([0xFF; 46]));
}

#[test]
fn lich() {
    let header: [u8; 30] = bytes(7);
    let mut gathered = LichCollection::new();
    for counter in [5, 0, 3, 1, 4, 2] {
        let (from, mut part) = (5 * usize::from(counter), [0; 5]);
        part.copy_from_slice(&header[from..from + 5]);
        let mut lich = encode_lich(counter, &part).unwrap();
        lich[0] ^= 0x07;
        assert_eq!(decode_lich(&lich), Ok((counter, part)));
        assert_eq!(gathered.try_assemble(), None);
        gathered.set_segment(counter, part).unwrap();
    }
    assert_eq!((gathered.valid_segments(), gathered.try_assemble()), (6, Some(header)));
    assert_eq!(encode_lich(6, &[0; 5]), Err(Refusal::OutOfRange));
}

#[test]
fn leaves() {
    for address in names() {
        assert_eq!(decode_address(encode_address(&address).unwrap()), address);
    }
    for value in 0..4096 {
        assert_eq!(golay::decode(golay::encode(value).unwrap() ^ 0x0008_0101), Ok(value));
    }
    for (kind, plain, coded) in [(Kind::Header, 30, 46), (Kind::Stream, 18, 34), (Kind::Packet, 25, 46)] {
        let given: [u8; 30] = bytes(9);
        let mut whole = [0; 30];
        whole[..plain].copy_from_slice(&given[..plain]);
        let len = if kind == Kind::Packet { 26 } else { plain };
        let sent = fec::encode(kind, &whole[..len]).unwrap();
        assert_eq!(fec::decode(kind, &sent[..coded]), Ok(whole));
    }
    let mut bits = [0; 3];
    bits::set_bit(&mut bits, 9, 2).unwrap();
    assert_eq!((bits, bits::get_bit(&bits, 9), bits::get_bit(&bits, 8)), ([0, 0x40, 0], Ok(1), Ok(0)));
    bits::set_bit(&mut bits, 9, 0).unwrap();
    assert_eq!(bits, [0; 3]);
    let given: [u8; 46] = bytes(3);
    let read: Vec<u8> = Bits::new(&given).iter().collect();
    let wanted: Vec<u8> = (0..368).map(|place| bits::get_bit(&given, place).unwrap()).collect();
    assert_eq!(read, wanted);
    let mut reader = Bits::new(&[0x80]).iter().skip(7);
    assert_eq!((reader.next(), reader.next(), reader.next()), (Some(0), None, None));
    assert_eq!(Bits::new(&[]).iter().next(), None);
    assert_eq!(interleave(&interleave(&bytes::<46>(2)).unwrap()), Ok(bytes(2)));
}
