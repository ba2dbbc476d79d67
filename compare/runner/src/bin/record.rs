//! record: writes a recording of a river station to standard output, sent by m17core's own writers, with damage done on the
//! way. `crates/slots/data/README.md` says what each slot holds.
use oracle::address::{Address, Callsign};
use oracle::crc::m17_crc;
use oracle::protocol::{DataType, EncryptionType, LsfFrame, PacketFrame, PacketFrameCounter, StreamFrame};
use std::io::Write;

/// 48 bytes: sync, then body.
type Slot = Vec<u8>;

/// A symbol as document 01 reads it.
fn pair(symbol: f32) -> u8 {
    if symbol > 0.667 {
        0b01
    } else if symbol > 0.0 {
        0b00
    } else if symbol > -0.667 {
        0b10
    } else {
        0b11
    }
}

fn slot(symbols: [f32; 192]) -> Slot {
    symbols.chunks(4).map(|four| four.iter().fold(0, |byte, symbol| byte << 2 | pair(*symbol))).collect()
}

/// A slot with these bits of its body flipped.
fn damaged(mut slot: Slot, places: impl IntoIterator<Item = usize>) -> Slot {
    for place in places {
        slot[2 + place / 8] ^= 0x80 >> (place % 8);
    }
    slot
}

fn callsign(name: &str) -> Address {
    let mut nine = [b' '; 9];
    nine[..name.len()].copy_from_slice(name.as_bytes());
    Address::Callsign(Callsign(nine))
}

/// The station's header for a packet to the school.
fn to_school() -> LsfFrame {
    let mut header = LsfFrame::new_packet(&callsign("RIVER-7"), &callsign("SCHOOL-4"));
    header.0[14..28].copy_from_slice(b"weir 7 km 12.4");
    header.set_channel_access_number(5);
    header
}

/// A stream's header to all.
fn to_all(source: &str) -> LsfFrame {
    let mut header = LsfFrame::new_voice(&callsign(source), &Address::Broadcast);
    header.set_data_type(DataType::VoiceAndData);
    header.set_channel_access_number(5);
    header
}

fn header_slot(header: &LsfFrame) -> Slot {
    slot(oracle::encode_lsf(header))
}

fn final_slot(piece: &[u8]) -> Slot {
    let mut payload = [0; 25];
    payload[..piece.len()].copy_from_slice(piece);
    let counter = PacketFrameCounter::FinalFrame { payload_len: piece.len() };
    slot(oracle::encode_packet(&PacketFrame { payload, counter }))
}

/// A packet's frames, the last of them final.
fn packet_slots(packet: &[u8]) -> Vec<Slot> {
    let pieces: Vec<&[u8]> = packet.chunks(25).collect();
    let (last, first) = pieces.split_last().unwrap();
    let frame = |(index, piece): (usize, &&[u8])| {
        let counter = PacketFrameCounter::Frame { index };
        slot(oracle::encode_packet(&PacketFrame { payload: (*piece).try_into().unwrap(), counter }))
    };
    first.iter().enumerate().map(frame).chain([final_slot(last)]).collect()
}

/// A short message as a packet: its type, the text, a zero and the CRC.
fn message(text: &str) -> Vec<u8> {
    let content = [&[5], text.as_bytes(), &[0]].concat();
    let crc = m17_crc(&content).to_be_bytes();
    [&content[..], &crc].concat()
}

/// Frame `number` of a stream, with the part of its header that falls to it.
fn stream_slot(header: &LsfFrame, number: u16, end_of_stream: bool) -> Slot {
    let part = usize::from(number % 6);
    slot(oracle::encode_stream(&StreamFrame {
        lich_idx: part as u8,
        lich_part: header.0[5 * part..5 * part + 5].try_into().unwrap(),
        frame_number: number,
        end_of_stream,
        stream_data: std::array::from_fn(|i| (16 * usize::from(number) + i) as u8),
    }))
}

fn end_slot() -> Slot {
    [0x55, 0x5D].repeat(24)
}

fn good_reading() -> Vec<Slot> {
    let packet = message("Probe 7: pH slope 57.9 mV, offset -3.1 mV, water 12.4 C");
    [vec![header_slot(&to_school())], packet_slots(&packet)].concat()
}

/// Six bits or fewer are flipped in each slot: all are read.
fn damaged_reading() -> Vec<Slot> {
    let packet = message("Probe 8: pH slope 58.4 mV, offset 0.6 mV, water 12.5 C");
    let places: [&[usize]; 4] = [&[3, 60, 121, 190, 250, 311], &[7, 99, 201], &[0, 80, 160, 240, 320], &[367]];
    let sent = [vec![header_slot(&to_school())], packet_slots(&packet)].concat();
    sent.into_iter().zip(places).map(|(slot, places)| damaged(slot, places.iter().copied())).collect()
}

/// The first frame is too damaged to trust, so no frame of the packet counts.
fn spoiled_reading() -> Vec<Slot> {
    let mut frames = packet_slots(&message("Probe 7: pH slope 57.8 mV, offset -3.1 mV, water 12.4 C"));
    frames[0] = damaged(frames[0].clone(), (0..368).step_by(5));
    [vec![header_slot(&to_school())], frames].concat()
}

/// Frame 1 of four is lost.
fn reading_with_a_gap() -> Vec<Slot> {
    let mut frames =
        packet_slots(&message("Probe 8: pH slope 58.4 mV, offset 0.6 mV, water 12.5 C; next reading in 15 minutes"));
    frames.remove(1);
    [vec![header_slot(&to_school())], frames].concat()
}

/// A byte has changed since the CRC was taken, as in a sender's faulty memory.
fn reading_of_wrong_crc() -> Vec<Slot> {
    let mut packet = message("Probe 7: pH slope 57.9 mV");
    packet[19] = b'1';
    [vec![header_slot(&to_school())], packet_slots(&packet)].concat()
}

/// A sync that is none of the four: the specification's bit error test.
fn unknown_sync() -> Vec<Slot> {
    let mut slot = end_slot();
    slot[..2].copy_from_slice(&[0xDF, 0x55]);
    vec![slot]
}

/// A stream joined at frame 9, which has part 3, to its end.
fn joined_late() -> Vec<Slot> {
    let header = to_all("RIVER-7");
    let frames = (9..19).map(|number| stream_slot(&header, number, number == 18));
    frames.chain([end_slot()]).collect()
}

/// One stream, and from part 3 on another: the parts make no header. Then four bits of a Golay word are flipped.
fn two_senders() -> Vec<Slot> {
    let (one, other) = (to_all("DL7/AB1CD"), to_all("RIVER-7"));
    let first = (0..3).map(|number| stream_slot(&one, number, false));
    let second = (9..12).map(|number| stream_slot(&other, number, false));
    let bad = damaged(stream_slot(&other, 12, false), (0..4).map(|bit| (45 * bit + 92 * bit * bit) % 368));
    [header_slot(&one)].into_iter().chain(first).chain(second).chain([bad, end_slot()]).collect()
}

fn header_of_wrong_crc() -> Vec<Slot> {
    let mut header = to_school();
    header.0[29] ^= 1;
    vec![header_slot(&header)]
}

/// Two packets that no station should send: a final frame of no bytes, and two bytes in all.
fn odd_packets() -> Vec<Slot> {
    let mut one = LsfFrame::new_packet(&Address::Invalid, &Address::Reserved(0xEE6B_2800_0007));
    one.set_data_type(DataType::Reserved);
    one.set_encryption_type(EncryptionType::Other);
    one.set_channel_access_number(15);
    let mut other = LsfFrame::new_packet(&callsign("RIVER-7"), &callsign("SCHOOL-4"));
    other.set_encryption_type(EncryptionType::Aes);
    vec![header_slot(&one), final_slot(&[]), header_slot(&other), final_slot(&[0xFF, 0xFF])]
}

fn main() -> std::io::Result<()> {
    let parts = [
        good_reading(),
        damaged_reading(),
        spoiled_reading(),
        reading_with_a_gap(),
        reading_of_wrong_crc(),
        unknown_sync(),
        joined_late(),
        two_senders(),
        header_of_wrong_crc(),
        odd_packets(),
    ];
    // The recording stops within a slot.
    let cut = &header_slot(&to_school())[..17];
    std::io::stdout().write_all(&[&parts.concat().concat(), cut].concat())
}
