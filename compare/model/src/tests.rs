//! The cases of document 01, and what its table of refusals says of state and memory.
use crate::symbols::body;
use crate::{end_slot, receive, slot, Answer, Late, State, MEMORY};
use oracle::address::{Address, Callsign};
use oracle::crc::m17_crc;
use oracle::protocol::{LsfFrame, PacketFrame, PacketFrameCounter, StreamFrame};
use oracle::Kind;

struct Receiver {
    state: State,
    memory: Vec<u8>,
}

impl Receiver {
    fn new() -> Self {
        Self { state: State::Idle, memory: vec![0xA5; MEMORY] }
    }

    fn take(&mut self, slot: &[u8]) -> Result<Answer, u8> {
        receive(&mut self.state, &mut self.memory, slot)
    }

    /// A refusal with this number, after which the memory is as it was and nothing is open.
    fn refuses(&mut self, number: u8, slot: &[u8]) {
        let before = self.memory.clone();
        assert_eq!(self.take(slot), Err(number));
        assert_eq!(self.memory, before);
        assert_eq!(self.state, State::Idle);
    }
}

fn addresses() -> [Address; 2] {
    [Address::Callsign(Callsign(*b"AB1CD    ")), Address::Broadcast]
}

fn packet_header() -> LsfFrame {
    let [source, destination] = addresses();
    LsfFrame::new_packet(&source, &destination)
}

fn voice_header() -> LsfFrame {
    let [source, destination] = addresses();
    LsfFrame::new_voice(&source, &destination)
}

fn header(frame: &LsfFrame) -> Vec<u8> {
    slot(Kind::Header, &body(&oracle::encode_lsf(frame)))
}

fn packet(payload: &[u8], counter: PacketFrameCounter) -> Vec<u8> {
    let mut whole = [0; 25];
    whole[..payload.len()].copy_from_slice(payload);
    slot(Kind::Packet, &body(&oracle::encode_packet(&PacketFrame { payload: whole, counter })))
}

fn frame(index: usize, payload: &[u8]) -> Vec<u8> {
    packet(payload, PacketFrameCounter::Frame { index })
}

fn last(payload: &[u8]) -> Vec<u8> {
    packet(payload, PacketFrameCounter::FinalFrame { payload_len: payload.len() })
}

/// A final frame with a length that no writer gives.
fn last_of_length(length: u8) -> Vec<u8> {
    let mut data = [0; 26];
    data[25] = length << 2 | 0x80;
    let mut body = oracle::interleave(&oracle::fec_encode(Kind::Packet, &data));
    oracle::random_xor(&mut body);
    slot(Kind::Packet, &body)
}

fn stream(lich_idx: u8, header: &LsfFrame) -> Vec<u8> {
    let start = 5 * lich_idx as usize % 30;
    let lich_part = header.0[start..start + 5].try_into().unwrap();
    let sent = StreamFrame { lich_idx, lich_part, frame_number: 7, end_of_stream: false, stream_data: [9; 16] };
    slot(Kind::Stream, &body(&oracle::encode_stream(&sent)))
}

/// A packet of so many bytes, its CRC the last two.
fn message(len: usize) -> Vec<u8> {
    let mut bytes: Vec<u8> = (0..len - 2).map(|place| (7 * place + 3) as u8).collect();
    bytes.extend(m17_crc(&bytes).to_be_bytes());
    bytes
}

/// The slots of a packet: its header, the frames, the final frame.
fn transmission(message: &[u8]) -> Vec<Vec<u8>> {
    let mut slots = vec![header(&packet_header())];
    let pieces: Vec<&[u8]> = message.chunks(25).collect();
    let (end, frames) = pieces.split_last().unwrap();
    slots.extend(frames.iter().enumerate().map(|(index, piece)| frame(index, piece)));
    slots.push(last(end));
    slots
}

fn late(answer: Result<Answer, u8>) -> Late {
    match answer {
        Ok(Answer::Stream(_, late)) => late,
        other => panic!("{other:?}"),
    }
}

#[test]
fn packets_of_many_lengths() {
    for len in (3..80).chain(MEMORY - 26..=MEMORY) {
        let (mut receiver, message) = (Receiver::new(), message(len));
        let slots = transmission(&message);
        let (end, before) = slots.split_last().unwrap();
        for (place, slot) in before.iter().enumerate() {
            let wanted = match place {
                0 => Answer::Header(packet_header().0),
                _ => Answer::Stored { index: place - 1 },
            };
            assert_eq!(receiver.take(slot), Ok(wanted));
        }
        assert_eq!(receiver.take(end), Ok(Answer::Packet { total: len }));
        assert_eq!(receiver.state, State::Idle);
        assert_eq!(receiver.memory[..len], message);
        assert!(receiver.memory[len..].iter().all(|&byte| byte == 0xA5));
    }
}

#[test]
fn lengths_of_buffers() {
    let (mut state, mut memory) = (State::Packet(2), vec![0; MEMORY]);
    for len in [0, 46, 47, 49] {
        assert_eq!(receive(&mut state, &mut memory, &vec![0; len]), Err(1));
    }
    for len in [0, 824, 826] {
        assert_eq!(receive(&mut state, &mut vec![0; len], &[0; 48]), Err(1));
    }
    assert_eq!(state, State::Packet(2));
}

#[test]
fn bad_states_stay_and_come_before_the_sync() {
    for bad in [State::Packet(33), State::Packet(255), State::Gathering(vec![[0; 5]; 6])] {
        let mut receiver = Receiver { state: bad.clone(), ..Receiver::new() };
        assert_eq!(receiver.take(&[0; 48]), Err(12));
        assert_eq!(receiver.take(&end_slot(&[0; 46])), Err(12));
        assert_eq!(receiver.take(&[0; 47]), Err(1));
        assert_eq!(receiver.state, bad);
    }
}

#[test]
fn unknown_sync() {
    for sync in [[0, 0], [0x55, 0xF6], [0xFF, 0xFF], [0xF7, 0x55]] {
        let mut receiver = Receiver { state: State::Packet(3), ..Receiver::new() };
        receiver.refuses(7, &[&sync[..], &[0; 46]].concat());
    }
}

#[test]
fn end_is_answered_and_its_body_unread() {
    let mut receiver = Receiver { state: State::Packet(3), ..Receiver::new() };
    assert_eq!(receiver.take(&end_slot(&[0x3C; 46])), Ok(Answer::End));
    assert_eq!(receiver.state, State::Idle);
}

#[test]
fn headers() {
    let mut receiver = Receiver::new();
    receiver.take(&header(&voice_header())).unwrap();
    assert_eq!(receiver.state, State::Idle);
    receiver.take(&header(&packet_header())).unwrap();
    assert_eq!(receiver.state, State::Packet(0));
    // The body of an all-zero header reads, and its CRC is not zero.
    receiver.refuses(5, &header(&LsfFrame([0; 30])));
    let mut damaged = header(&packet_header());
    damaged[2..].iter_mut().step_by(3).for_each(|byte| *byte ^= 0x5A);
    receiver.take(&header(&packet_header())).unwrap();
    receiver.refuses(3, &damaged);
}

#[test]
fn packet_slots_out_of_turn() {
    let mut receiver = Receiver::new();
    receiver.refuses(8, &frame(0, &[1; 25]));
    receiver.refuses(8, &last(&message(20)));
    receiver.take(&header(&packet_header())).unwrap();
    receiver.refuses(8, &frame(1, &[1; 25]));
    receiver.refuses(8, &frame(0, &[1; 25]));
    receiver.take(&header(&packet_header())).unwrap();
    receiver.take(&frame(0, &[1; 25])).unwrap();
    receiver.refuses(8, &frame(0, &[1; 25]));
    // After frame 31 only a final frame is in turn.
    receiver.state = State::Packet(32);
    receiver.refuses(8, &frame(31, &[1; 25]));
    receiver.state = State::Gathering(vec![[0; 5]; 2]);
    receiver.refuses(8, &frame(2, &[1; 25]));
}

#[test]
fn a_body_that_does_not_read_comes_before_its_turn() {
    let mut receiver = Receiver::new();
    receiver.refuses(3, &slot(Kind::Packet, &[0x5A; 46]));
}

#[test]
fn final_lengths_totals_and_crcs() {
    for length in (0..32).filter(|length| !(1..=25).contains(length)) {
        let mut receiver = Receiver { state: State::Packet(0), ..Receiver::new() };
        receiver.refuses(9, &last_of_length(length));
    }
    for length in [1, 2] {
        let mut receiver = Receiver { state: State::Packet(0), ..Receiver::new() };
        receiver.refuses(10, &last_of_length(length));
    }
    // A length under three is enough after a frame.
    let whole = message(26);
    let mut receiver = Receiver { state: State::Packet(0), ..Receiver::new() };
    receiver.take(&frame(0, &whole[..25])).unwrap();
    assert_eq!(receiver.take(&last(&whole[25..])), Ok(Answer::Packet { total: 26 }));
    let mut receiver = Receiver { state: State::Packet(1), ..Receiver::new() };
    receiver.refuses(11, &last(&whole[25..]));
}

#[test]
fn late_headers() {
    for joined_at in 0..6 {
        let mut receiver = Receiver::new();
        let mut heard = None;
        for turn in 0..11 {
            let late = late(receiver.take(&stream((joined_at + turn) % 6, &voice_header())));
            if late != Late::Nothing {
                heard.get_or_insert((turn, late));
            }
        }
        let first = (6 - joined_at) % 6 + 5;
        assert_eq!(heard, Some((first, Late::Header(voice_header().0))));
    }
}

#[test]
fn gathering_stops() {
    let mut receiver = Receiver::new();
    let voice = voice_header();
    for counter in [0, 1, 2, 4] {
        assert_eq!(late(receiver.take(&stream(counter, &voice))), Late::Nothing);
    }
    assert_eq!(receiver.state, State::Idle);
    // A part is not kept across a lost slot, and counter 0 starts anew.
    for counter in [0, 1, 2] {
        receiver.take(&stream(counter, &voice)).unwrap();
    }
    receiver.refuses(7, &[0; 48]);
    for counter in [3, 4, 5] {
        assert_eq!(late(receiver.take(&stream(counter, &voice))), Late::Nothing);
    }
    assert_eq!(receiver.state, State::Idle);
    for counter in [0, 1, 0] {
        receiver.take(&stream(counter, &voice)).unwrap();
    }
    assert_eq!(receiver.state, State::Gathering(vec![voice.0[..5].try_into().unwrap()]));
    // Counters 6 and 7 are answered, and stop it.
    for counter in [6, 7] {
        receiver.state = State::Gathering(vec![[0; 5]; 5]);
        assert_eq!(late(receiver.take(&stream(counter, &voice))), Late::Nothing);
        assert_eq!(receiver.state, State::Idle);
    }
}

#[test]
fn spoiled_headers() {
    let mut receiver = Receiver::new();
    let mut other = voice_header();
    other.0[29] ^= 1;
    for counter in 0..5 {
        receiver.take(&stream(counter, &other)).unwrap();
    }
    assert_eq!(late(receiver.take(&stream(5, &other))), Late::Spoiled);
    assert_eq!(receiver.state, State::Idle);
}

#[test]
fn a_stream_slot_closes_a_packet() {
    let mut receiver = Receiver { state: State::Packet(1), ..Receiver::new() };
    receiver.take(&stream(1, &voice_header())).unwrap();
    assert_eq!(receiver.state, State::Idle);
    receiver.state = State::Packet(1);
    receiver.take(&stream(0, &voice_header())).unwrap();
    assert!(matches!(receiver.state, State::Gathering(_)));
}

#[test]
fn golay_words_that_are_refused() {
    let mut coded = [0; 46];
    coded[..12].copy_from_slice(&oracle::encode_lich(0, &[0; 5]));
    coded[4] ^= 0x0F;
    coded[12..].copy_from_slice(&oracle::fec_encode(Kind::Stream, &[0; 18])[..34]);
    let mut body = oracle::interleave(&coded);
    oracle::random_xor(&mut body);
    let mut receiver = Receiver { state: State::Packet(1), ..Receiver::new() };
    receiver.refuses(4, &slot(Kind::Stream, &body));
}
