//! Runs of slots: a packet, a stream joined late, one that is spoiled, and the river station's recording.
use okihemon::crc::m17_crc;
use okihemon::encode::{write_lsf, write_packet, write_stream};
use okihemon::{
    Address, Answer, Callsign, Late, LsfFrame, PacketFrame, PacketFrameCounter, Receiver, Refusal, StreamFrame,
};

fn slot(sync: u16, body: [u8; 46]) -> Vec<u8> {
    [&sync.to_be_bytes(), &body[..]].concat()
}

fn header(voice: bool) -> LsfFrame {
    let new = if voice { LsfFrame::new_voice } else { LsfFrame::new_packet };
    new(&Address::Callsign(Callsign(*b"AB1CD    ")), &Address::Broadcast).unwrap()
}

fn stream(number: u16, header: &LsfFrame) -> StreamFrame {
    let (lich_idx, mut lich_part) = ((number % 6) as u8, [0; 5]);
    lich_part.copy_from_slice(&header.0[5 * usize::from(lich_idx)..][..5]);
    StreamFrame {
        lich_idx,
        lich_part,
        frame_number: number,
        end_of_stream: number == 99,
        stream_data: [number as u8; 16],
    }
}

#[test]
fn packets() {
    for total in [3, 24, 25, 26, 59, 824, 825] {
        let mut bytes: Vec<u8> = (0..total - 2).map(|place| (place * 7 + total) as u8).collect();
        bytes.extend(m17_crc(&bytes).to_be_bytes());
        let (mut receiver, mut memory) = (Receiver::new(), [0xA5; 825]);
        let open = slot(0x55F7, write_lsf(&header(false)));
        assert_eq!(receiver.receive(&open, &mut memory), Answer::Header(header(false)));
        let pieces = bytes.chunks(25).count();
        for (index, piece) in bytes.chunks(25).enumerate() {
            let mut payload = [0; 25];
            payload[..piece.len()].copy_from_slice(piece);
            let counter = if index + 1 == pieces {
                PacketFrameCounter::FinalFrame { payload_len: piece.len() }
            } else {
                PacketFrameCounter::Frame { index }
            };
            let sent = slot(0x75FF, write_packet(&PacketFrame { payload, counter }).unwrap());
            // A slot of another length counts as none.
            assert_eq!(receiver.receive(&sent[1..], &mut memory), Answer::Refused(Refusal::WrongLength));
            let answer = receiver.receive(&sent, &mut memory);
            assert_eq!(answer, if index + 1 == pieces { Answer::Packet(&bytes) } else { Answer::Stored(index) });
        }
        assert_eq!(receiver, Receiver::default());
        assert!(memory[total..].iter().all(|byte| *byte == 0xA5));
    }
}

#[test]
fn late() {
    let (mut receiver, mut memory) = (Receiver::new(), [0; 825]);
    for number in 89..=99 {
        let frame = stream(number, &header(true));
        let late = if number == 95 { Late::Header(header(true)) } else { Late::Nothing };
        let sent = slot(0xFF5D, write_stream(&frame).unwrap());
        assert_eq!(receiver.receive(&sent, &mut memory), Answer::Stream(frame, late));
    }
    assert_eq!(receiver.receive(&slot(0x555D, [0; 46]), &mut memory), Answer::End);
}

#[test]
fn spoiled() {
    let (mut receiver, mut memory) = (Receiver::new(), [0; 825]);
    let (one, mut other) = (header(true), header(true));
    other.set_channel_access_number(3).unwrap();
    for number in 0..6 {
        let frame = stream(number, if number < 3 { &one } else { &other });
        let late = if number == 5 { Late::Spoiled } else { Late::Nothing };
        let sent = slot(0xFF5D, write_stream(&frame).unwrap());
        assert_eq!(receiver.receive(&sent, &mut memory), Answer::Stream(frame, late));
    }
}

#[test]
fn river() {
    let recording = include_bytes!("../../../crates/slots/data/river.slots");
    let (mut receiver, mut memory) = (Receiver::new(), [0; 825]);
    let (mut headers, mut packets, mut late, mut spoiled, mut ends, mut refused) = (0, 0, 0, 0, 0, [0; 13]);
    for slot in recording.chunks(48) {
        match receiver.receive(slot, &mut memory) {
            Answer::Header(_) => headers += 1,
            Answer::Packet(bytes) => {
                assert!(bytes.starts_with(b"\x05Probe ") && m17_crc(bytes) == 0);
                packets += 1;
            }
            Answer::Stream(_, Late::Header(_)) => late += 1,
            Answer::Stream(_, Late::Spoiled) => spoiled += 1,
            Answer::End => ends += 1,
            Answer::Refused(why) => refused[usize::from(why.number())] += 1,
            Answer::Stored(_) | Answer::Stream(..) => (),
        }
    }
    assert_eq!((headers, packets, late, spoiled, ends), (8, 2, 1, 1, 2));
    assert_eq!(refused, [0, 1, 0, 1, 1, 1, 0, 1, 4, 1, 1, 1, 0]);
}
