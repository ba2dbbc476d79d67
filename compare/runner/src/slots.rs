//! Slots of every sort, written by the Rust's own writers, and damage to them.
use crate::bodies::on_air;
use crate::random::Random;
use model::symbols::body;
use model::{end_slot, slot};
use oracle::crc::m17_crc;
use oracle::protocol::{LsfFrame, PacketFrame, PacketFrameCounter, StreamFrame};
use oracle::Kind;

pub type Slot = Vec<u8>;

/// Any header with its CRC, of a packet or of a stream.
pub fn header(random: &mut Random, stream: bool) -> LsfFrame {
    let mut bytes: [u8; 30] = random.bytes(30).try_into().unwrap();
    bytes[13] = bytes[13] & !1 | stream as u8;
    let crc = m17_crc(&bytes[..28]).to_be_bytes();
    bytes[28..].copy_from_slice(&crc);
    LsfFrame(bytes)
}

/// The same with a bit flipped before it is coded, so that it reads and its CRC is wrong.
pub fn spoiled(random: &mut Random, mut header: LsfFrame) -> LsfFrame {
    header.0[random.below(30)] ^= 1 << random.below(8);
    header
}

pub fn header_slot(header: &LsfFrame) -> Slot {
    slot(Kind::Header, &body(&oracle::encode_lsf(header)))
}

pub fn frame_slot(index: usize, payload: &[u8]) -> Slot {
    let frame = PacketFrame { payload: payload.try_into().unwrap(), counter: PacketFrameCounter::Frame { index } };
    slot(Kind::Packet, &body(&oracle::encode_packet(&frame)))
}

pub fn final_slot(piece: &[u8]) -> Slot {
    let mut payload = [0; 25];
    payload[..piece.len()].copy_from_slice(piece);
    let counter = PacketFrameCounter::FinalFrame { payload_len: piece.len() };
    slot(Kind::Packet, &body(&oracle::encode_packet(&PacketFrame { payload, counter })))
}

/// A final frame of any five bits of length, with bytes past it, as no writer gives it.
pub fn odd_final_slot(random: &mut Random, length: u8) -> Slot {
    let mut data = random.bytes(26);
    data[25] = 0x80 | length << 2;
    slot(Kind::Packet, &on_air(&oracle::fec_encode(Kind::Packet, &data)))
}

/// A stream slot with its counter, 0 to 7, and the part of the header that falls to it.
pub fn stream_slot(random: &mut Random, header: &LsfFrame, counter: usize) -> Slot {
    let start = 5 * (counter % 6);
    let frame = StreamFrame {
        lich_idx: counter as u8,
        lich_part: header.0[start..start + 5].try_into().unwrap(),
        frame_number: random.below(0x8000) as u16,
        end_of_stream: random.below(8) == 0,
        stream_data: random.bytes(16).try_into().unwrap(),
    };
    slot(Kind::Stream, &body(&oracle::encode_stream(&frame)))
}

pub fn any_end_slot(random: &mut Random) -> Slot {
    end_slot(&random.bytes(46))
}

/// A content of so many bytes, the last two of them its CRC.
pub fn message(random: &mut Random, len: usize) -> Vec<u8> {
    let content = random.bytes(len - 2);
    let crc = m17_crc(&content).to_be_bytes();
    [&content[..], &crc].concat()
}

/// A packet's slots: its header, the frames, and the final frame.
pub fn packet(random: &mut Random, message: &[u8]) -> Vec<Slot> {
    let pieces: Vec<&[u8]> = message.chunks(25).collect();
    let (last, frames) = pieces.split_last().unwrap();
    let mut slots = vec![header_slot(&header(random, false))];
    slots.extend(frames.iter().enumerate().map(|(index, piece)| frame_slot(index, piece)));
    slots.push(final_slot(last));
    slots
}

/// One of the four syncs.
pub fn any_sync(random: &mut Random) -> [u8; 2] {
    [[0x55, 0xF7], [0xFF, 0x5D], [0x75, 0xFF], [0x55, 0x5D]][random.below(4)]
}

/// A sync with a bit flipped or its bytes swapped, or any two bytes.
pub fn unknown_sync(random: &mut Random) -> Slot {
    let [high, low] = any_sync(random);
    let sync = match random.below(4) {
        0 => random.bytes(2),
        1 => vec![low, high],
        2 => vec![high ^ 1 << random.below(8), low],
        _ => vec![high, low ^ 1 << random.below(8)],
    };
    [sync, random.bytes(46)].concat()
}

/// Any body after any sync of the four.
pub fn any_body(random: &mut Random) -> Slot {
    [any_sync(random).to_vec(), random.bytes(46)].concat()
}

/// Where a coded bit stands in a slot.
fn flip(slot: &mut Slot, coded: usize) {
    let place = 16 + (45 * coded + 92 * coded * coded) % 368;
    if let Some(byte) = slot.get_mut(place / 8) {
        *byte ^= 0x80 >> (place % 8);
    }
}

fn flip_some(random: &mut Random, slot: &mut Slot, among: std::ops::Range<usize>, flips: usize) {
    let mut places: Vec<usize> = among.collect();
    for _ in 0..flips {
        let chosen = random.below(places.len());
        flip(slot, places.swap_remove(chosen));
    }
}

/// Flips bits of the code, fewer and more than can be mended. In a stream slot the LICH's four words are damaged apart.
pub fn damage(random: &mut Random, slot: &mut Slot) {
    if !slot.starts_with(&[0xFF, 0x5D]) {
        let flips = 1 + random.below(9);
        return flip_some(random, slot, 0..368, flips);
    }
    let sort = random.below(3);
    if sort != 0 {
        let flips = 1 + random.below(9);
        flip_some(random, slot, 96..368, flips);
    }
    if sort != 1 {
        for word in 0..4 {
            let flips = if random.below(6) == 0 { 4 + random.below(3) } else { random.below(4) };
            flip_some(random, slot, 24 * word..24 * word + 24, flips);
        }
    }
}
