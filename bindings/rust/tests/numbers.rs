//! Each refusal by its number, and the readings of document 01's bench.
use okihemon::address::{decode_address, encode_address, ALPHABET};
use okihemon::crc::{m17_crc, update};
use okihemon::decode::{decode_lich, frame_initial_decode, parse_lsf, read_lsf, read_packet, read_stream};
use okihemon::encode::{encode_packet, encode_stream, write_lsf, write_packet, write_stream};
use okihemon::{
    bits, c, fec, golay, interleave::interleave, sync, Address, Answer, Callsign, Kind, LichCollection, LsfFrame,
    PacketFrame, PacketFrameCounter, Receiver, Refusal, StreamFrame,
};

fn slot(sync: u16, body: &[u8]) -> Vec<u8> {
    [&sync.to_be_bytes(), body].concat()
}

fn packet(counter: PacketFrameCounter) -> PacketFrame {
    PacketFrame { payload: [0; 25], counter }
}

fn last(payload_len: usize) -> PacketFrame {
    packet(PacketFrameCounter::FinalFrame { payload_len })
}

fn callsign(name: &[u8; 9]) -> Address {
    Address::Callsign(Callsign(*name))
}

#[test]
fn table() {
    for number in 1..=12 {
        let why = Refusal::of(number).unwrap();
        assert_eq!(why.number(), number);
        assert!(!matches!(why, Refusal::Unknown(_)));
    }
    assert_eq!(Refusal::of(0), None);
    assert_eq!(Refusal::of(13), Some(Refusal::Unknown(13)));
    assert_eq!(Refusal::Unknown(13).number(), 255);
    assert_eq!(Refusal::TooFar.to_string(), "nearest word over six");
    assert_eq!(Refusal::Unknown(99).to_string(), "the library answered 99, which has no meaning here");
}

#[test]
fn lengths() {
    for len in [0, 45, 47] {
        let bytes = vec![0; len];
        assert_eq!(interleave(&bytes), Err(Refusal::WrongLength));
        assert_eq!(fec::decode(Kind::Header, &bytes), Err(Refusal::WrongLength));
        assert_eq!(read_lsf(&bytes), Err(Refusal::WrongLength));
        assert_eq!(read_stream(&bytes), Err(Refusal::WrongLength));
        assert_eq!(read_packet(&bytes), Err(Refusal::WrongLength));
        assert_eq!(decode_lich(&bytes), Err(Refusal::WrongLength));
    }
    for len in [0, 191, 193] {
        assert_eq!(parse_lsf(&vec![1.0; len]), Err(Refusal::WrongLength));
        assert_eq!(frame_initial_decode(&vec![1.0; len]), Err(Refusal::WrongLength));
    }
}

#[test]
fn ranges() {
    let no = Some(Refusal::OutOfRange);
    assert_eq!(bits::get_bit(&[0], 8).err(), no);
    assert_eq!(bits::set_bit(&mut [], 0, 1).err(), no);
    assert_eq!(golay::encode(0x1000).err(), no);
    assert_eq!(LichCollection::new().set_segment(6, [0; 5]).err(), no);
    assert_eq!(encode_stream(&StreamFrame { lich_idx: 6, ..Default::default() }).err(), no);
    assert_eq!(write_stream(&StreamFrame { frame_number: 0x8000, ..Default::default() }).err(), no);
    assert_eq!(encode_packet(&packet(PacketFrameCounter::Frame { index: 32 })).err(), no);
    assert_eq!(write_packet(&last(26)).err(), no);
    let mut header = LsfFrame::new_voice(&callsign(b"AB1CD    "), &Address::Broadcast).unwrap();
    let before = header.clone();
    assert_eq!(header.set_channel_access_number(16).err(), no);
    assert_eq!(header, before);
}

#[test]
fn readings() {
    let mut body = write_lsf(&LsfFrame([0; 30]));
    body.iter_mut().for_each(|byte| *byte ^= 0x88);
    assert_eq!(read_lsf(&body), Err(Refusal::TooFar));
    let mut lich = [0; 12];
    lich[4] = 0x0F;
    assert_eq!(decode_lich(&lich), Err(Refusal::BadGolay));
    assert_eq!(golay::decode(0x0F), Err(Refusal::BadGolay));
}

#[test]
fn addresses() {
    let no = Err(Refusal::BadAddress);
    assert_eq!(encode_address(&callsign(b"         ")), no);
    assert_eq!(encode_address(&callsign(b"A_B      ")), no);
    assert_eq!(encode_address(&Address::Reserved(40u64.pow(9) - 1)), no);
    assert_eq!(LsfFrame::new_packet(&Address::Reserved(0), &Address::Broadcast), Err(Refusal::BadAddress));
    for (digit, character) in ALPHABET.iter().enumerate().skip(1) {
        let mut name = [b' '; 9];
        name[0] = *character;
        assert_eq!(encode_address(&callsign(&name)), Ok([0, 0, 0, 0, 0, digit as u8]));
    }
}

#[test]
fn receiver() {
    let (open, mut memory) = (LsfFrame::new_packet(&callsign(b"AB1CD    "), &Address::Broadcast).unwrap(), [0; 825]);
    let open = slot(0x55F7, &write_lsf(&open));
    let mut refused = |slots: &[Vec<u8>], why: Refusal| {
        let mut receiver = Receiver::new();
        let (end, before) = slots.split_last().unwrap();
        for slot in before {
            assert!(matches!(receiver.receive(slot, &mut memory), Answer::Header(_)));
        }
        let held = memory;
        assert_eq!(receiver.receive(end, &mut memory), Answer::Refused(why));
        assert_eq!(held, memory);
    };
    let closing = |frame: &PacketFrame| slot(0x75FF, &write_packet(frame).unwrap());
    let mut wrong = last(3);
    wrong.payload[0] = 1;
    refused(&[vec![0; 47]], Refusal::WrongLength);
    refused(&[slot(0x55F7, &[0; 46])], Refusal::TooFar);
    refused(&[slot(0x55F7, &write_lsf(&LsfFrame([0; 30])))], Refusal::BadHeader);
    refused(&[vec![0; 48]], Refusal::UnknownSync);
    refused(&[closing(&last(3))], Refusal::OutOfTurn);
    refused(&[open.clone(), closing(&last(0))], Refusal::BadFinal);
    refused(&[open.clone(), closing(&last(2))], Refusal::TooShort);
    refused(&[open, closing(&wrong)], Refusal::BadPacket);
    let bad = c::Receiver { count: 33, phase: 1, parts: [0; 30] };
    let got = unsafe { c::m17_receive(bad, [0; 48].as_ptr(), 48, memory.as_mut_ptr(), 825) };
    assert_eq!((Refusal::of(got.said), got.next), (Some(Refusal::BadState), bad));
}

#[test]
fn bench() {
    assert_eq!((m17_crc(b""), m17_crc(b"A"), m17_crc(b"123456789")), (0xFFFF, 0x206E, 0x772B));
    assert_eq!(update(m17_crc(b"1234"), b"56789"), 0x772B);
    assert_eq!(encode_address(&callsign(b"AB1CD    ")), Ok([0, 0, 0, 0x9F, 0xDD, 0x51]));
    assert_eq!(encode_address(&callsign(b"ab1cd    ")), Ok([0, 0, 0, 0x9F, 0xDD, 0x51]));
    assert_eq!(decode_address([0xEE, 0x6B, 0x27, 0xFF, 0xFF, 0xFF]), callsign(b"........."));
    assert_eq!(decode_address([0xEE, 0x6B, 0x28, 0, 0, 0]), Address::Reserved(40u64.pow(9)));
    assert_eq!((golay::encode(0), golay::encode(1)), (Ok(0), Ok(0x0018EB)));
    let mut first = [0; 30];
    first[0] = 0x80;
    for (kind, len, coded) in [(Kind::Header, 30, 0xEB00), (Kind::Stream, 18, 0xD6C0), (Kind::Packet, 26, 0xD780)] {
        assert_eq!(fec::encode(kind, &first[..len]).unwrap()[..2], u16::to_be_bytes(coded));
    }
    let mut sequence = [0; 46];
    okihemon::random::random_xor(&mut sequence);
    assert_eq!(write_lsf(&LsfFrame([0; 30])), sequence);
    assert_eq!(write_stream(&StreamFrame::default()), Ok(sequence));
    assert_eq!(write_packet(&packet(PacketFrameCounter::Frame { index: 0 })), Ok(sequence));
    assert!(write_packet(&packet(PacketFrameCounter::Frame { index: 31 })).is_ok());
    assert!(write_packet(&last(25)).is_ok());
}

// A refusal goes by `?` into a boxed error, and says there what it means: from Rust 1.81 on.
#[cfg(core_error)]
#[test]
fn boxed() {
    fn channel(number: u8) -> Result<u8, Box<dyn std::error::Error>> {
        let mut header = LsfFrame::new_packet(&Address::Broadcast, &Address::Broadcast)?;
        header.set_channel_access_number(number)?;
        Ok(header.channel_access_number())
    }
    assert_eq!(channel(15).unwrap(), 15);
    let why = channel(16).unwrap_err();
    assert_eq!(why.downcast_ref::<Refusal>(), Some(&Refusal::OutOfRange));
    assert_eq!(why.to_string(), Refusal::OutOfRange.to_string());
}

// Slots begin with these words: each is what the receiver takes it for.
#[test]
fn syncs() {
    let mut memory = [0; 825];
    for (word, refused) in [(sync::HEADER, false), (sync::STREAM, false), (sync::PACKET, false), (sync::END, false), (0x5555, true)] {
        let mut slot = [0; 48];
        slot[..2].copy_from_slice(&word.to_be_bytes());
        let answer = Receiver::new().receive(&slot, &mut memory);
        assert_eq!(matches!(answer, Answer::Refused(Refusal::UnknownSync)), refused, "{word:04x}");
    }
    let mut end = [0; 48];
    end[..2].copy_from_slice(&sync::END.to_be_bytes());
    assert!(matches!(Receiver::new().receive(&end, &mut memory), Answer::End));
}
