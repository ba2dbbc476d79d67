//! answers: asks m17core about frames and addresses and writes what it was asked and what it answered to standard
//! output, for the program `replay`; the counts of each kind go to standard error. `crates/replay/data/README.md` has
//! every field.
use oracle::address::{decode_address, encode_address, Address, Callsign};
use oracle::protocol::{LsfFrame, PacketFrameCounter};
use oracle::Kind;
use runner::address::{any_shared, numbered};
use runner::bodies::on_air;
use runner::random::Random;
use runner::symbols::{body, symbols};
use runner::write::{for_rust, packet_for_rust, stream_of};
use runner::{frames, header, lich};
use std::io::Write;

const SEED: u64 = 17;

/// What was asked, and the answer's fields or the number of the refusal.
type Record = (Vec<u8>, Result<Vec<u8>, u8>);

struct Sort {
    name: &'static str,
    count: usize,
    /// The bytes of the answer's fields: zeros where it is a refusal.
    fields: usize,
    ask: fn(&mut Random, usize) -> Record,
}

/// Numbered in this order.
const SORTS: [Sort; 9] = [
    Sort { name: "header read", count: 2000, fields: 30, ask: header_read },
    Sort { name: "stream read", count: 2000, fields: 25, ask: stream_read },
    Sort { name: "packet read", count: 2000, fields: 27, ask: packet_read },
    Sort { name: "header written", count: 400, fields: 46, ask: header_written },
    Sort { name: "stream written", count: 400, fields: 46, ask: stream_written },
    Sort { name: "packet written", count: 400, fields: 46, ask: packet_written },
    Sort { name: "address read", count: 500, fields: 16, ask: address_read },
    Sort { name: "address written", count: 500, fields: 6, ask: address_written },
    Sort { name: "header set", count: 400, fields: 30, ask: header_set },
];

fn header_read(random: &mut Random, turn: usize) -> Record {
    let body = on_air(&frames::of_turn(Kind::Header, random, turn).received(Kind::Header));
    let read = oracle::parse_lsf(&symbols(Kind::Header, &body));
    (body.to_vec(), read.map(|frame| frame.0.to_vec()).ok_or(3))
}

/// A LICH that is clean, damaged within what can be mended, or beyond it now and then.
fn any_lich(random: &mut Random, turn: usize) -> Vec<u8> {
    let most = [0, 3, 3, 4][turn % 4];
    let flips = [(); 4].map(|_| random.below(most + 1));
    lich::flipped(random, flips)
}

/// The Rust says only that there is no frame. Its own parts, asked in its own order, say which of them found none.
fn stream_read(random: &mut Random, turn: usize) -> Record {
    let coded =
        [any_lich(random, turn / 10), frames::of_turn(Kind::Stream, random, turn).received(Kind::Stream)].concat();
    let body = on_air(&coded);
    let read = oracle::parse_stream(&symbols(Kind::Stream, &body));
    let why = if oracle::fec_decode(Kind::Stream, &coded[12..]).is_none() { 3 } else { 4 };
    assert_eq!(read.is_none(), why == 3 || oracle::decode_lich(&coded[..12]).is_none());
    let fields = read.map(|frame| {
        let number = frame.frame_number.to_be_bytes();
        let end = [frame.end_of_stream.into()];
        [&[frame.lich_idx], &frame.lich_part[..], &number, &end, &frame.stream_data].concat()
    });
    (body.to_vec(), fields.ok_or(why))
}

fn packet_read(random: &mut Random, turn: usize) -> Record {
    let body = on_air(&frames::of_turn(Kind::Packet, random, turn).received(Kind::Packet));
    let read = oracle::parse_packet(&symbols(Kind::Packet, &body));
    let fields = read.map(|frame| {
        let counter = match frame.counter {
            PacketFrameCounter::Frame { index } => [0, index as u8],
            PacketFrameCounter::FinalFrame { payload_len } => [1, payload_len as u8],
        };
        [&counter[..], &frame.payload].concat()
    });
    (body.to_vec(), fields.ok_or(3))
}

/// Every bit by itself, then random headers.
fn header_written(random: &mut Random, turn: usize) -> Record {
    let mut header = [0; 30];
    match turn {
        0..240 => header[turn / 8] = 0x80 >> (turn % 8),
        _ => header.copy_from_slice(&random.bytes(30)),
    }
    (header.to_vec(), Ok(body(&oracle::encode_lsf(&LsfFrame(header))).to_vec()))
}

fn stream_written(random: &mut Random, turn: usize) -> Record {
    let mut fields = random.bytes(25);
    fields[0] %= 6;
    let number = match turn % 8 {
        0 => 0,
        1 => 0x7FFF,
        _ => random.below(0x8000) as u16,
    };
    fields[6..8].copy_from_slice(&number.to_be_bytes());
    fields[8] %= 2;
    let symbols = oracle::encode_stream(&for_rust(&stream_of(&fields)));
    (fields, Ok(body(&symbols).to_vec()))
}

/// Each index and each final length in turn.
fn packet_written(random: &mut Random, turn: usize) -> Record {
    let (final_frame, number) = match turn % 58 {
        index @ 0..32 => (0, index),
        more => (1, more - 32),
    };
    let payload: [u8; 25] = random.bytes(25).try_into().unwrap();
    let symbols = oracle::encode_packet(&packet_for_rust(&ours::Packet { final_frame, number, payload }));
    ([&[final_frame, number as u8], &payload[..]].concat(), Ok(body(&symbols).to_vec()))
}

/// Around each bound, then any values, the reserved ones by themselves too.
fn address_read(random: &mut Random, turn: usize) -> Record {
    const BOUNDS: [u64; 4] = [1, 40, 0xEE6B28000000, 0xFFFFFFFFFFFD];
    let value = match turn {
        0..16 => BOUNDS[turn / 4] + turn as u64 % 4 - 1,
        _ if turn % 3 == 0 => 0xEE6B28000000 + random.number() % 0x1194D8000000,
        _ => random.number() >> 16 >> random.below(48),
    };
    let six: [u8; 6] = value.to_be_bytes()[2..].try_into().unwrap();
    let read = numbered(&decode_address(six));
    (six.to_vec(), Ok([&[read.kind], &read.value.to_be_bytes()[2..], &read.callsign].concat()))
}

/// Callsigns that the rules allow, of either case, and the other addresses.
fn address_written(random: &mut Random, _: usize) -> Record {
    let given = any_shared(random);
    let value = given.value.to_be_bytes();
    let address = match given.kind {
        0 => Address::Invalid,
        1 => Address::Callsign(Callsign(given.callsign)),
        2 => Address::Reserved(given.value),
        _ => Address::Broadcast,
    };
    ([&[given.kind], &value[2..], &given.callsign].concat(), Ok(encode_address(&address).to_vec()))
}

/// One setter of any header, as the comparisons have them, but for none at all.
fn header_set(random: &mut Random, _: usize) -> Record {
    let step = std::iter::repeat_with(|| header::step(random)).find(|step| step[0] != 0).unwrap();
    let before: [u8; 30] = random.bytes(30).try_into().unwrap();
    let after = header::set_by_rust(&before, step[0], &header::address_of(&step[1..])).unwrap();
    ([&step[..2], &step[4..], &before].concat(), Ok(after.to_vec()))
}

fn main() -> std::io::Result<()> {
    let mut random = Random::new(SEED);
    let mut file = format!("m17core 0.1.0's answers, made by compare/run answers with seed {SEED}\n").into_bytes();
    for (number, sort) in SORTS.iter().enumerate() {
        let mut answered = 0;
        for turn in 0..sort.count {
            let (asked, answer) = (sort.ask)(&mut random, turn);
            file.push(number as u8);
            file.extend(asked);
            let (said, fields) = match answer {
                Ok(fields) => (0, fields),
                Err(why) => (why, vec![0; sort.fields]),
            };
            assert_eq!(fields.len(), sort.fields);
            file.push(said);
            file.extend(fields);
            answered += usize::from(said == 0);
        }
        let refused = sort.count - answered;
        eprintln!("{}: records {}, answered {answered}, refused {refused}, differences 0", sort.name, sort.count);
    }
    std::io::stdout().write_all(&file)
}
