//! The comparisons of read frames: symbols to fields, by way of the body too.
use crate::bodies::on_air;
use crate::code::lengths;
use crate::comparison::{Comparison, Said, Stop, Take, Wanted};
use crate::frames;
use crate::leaves::called_for;
use crate::lich;
use crate::observe::hex;
use crate::random::Random;
use crate::symbols::{self, from_bytes, pair, special, special_for, to_bytes};
use oracle::protocol::{PacketFrame, PacketFrameCounter, StreamFrame};
use oracle::Kind::{self, Header, Packet, Stream};
use ours::{refused, Body, Refused};

pub const ALL: [Comparison; 3] = [
    reading("parse_lsf", |r, w, t| received(Header, r, w, t), lsf),
    reading("parse_stream", |r, w, t| received(Stream, r, w, t), stream),
    reading("parse_packet", |r, w, t| received(Packet, r, w, t), packet),
];

type Inputs = fn(&mut Random, &Wanted, Take) -> Result<(), Stop>;

const fn reading(name: &'static str, inputs: Inputs, check: fn(&[u8]) -> Said) -> Comparison {
    let layout = "the symbols, each in four bytes, highest first";
    Comparison { name, layout, shortest: Some(0), counts_ties: false, inputs, check }
}

/// Frames of every sort that `frames` has, with symbols of every sort; symbols that no frame was; other lengths.
fn received(kind: Kind, random: &mut Random, wanted: &Wanted, take: Take) -> Result<(), Stop> {
    let special = special();
    for turn in 0..wanted.many_or(4_000, 50_000) {
        let mut symbols = symbols::symbols(kind, &on_air(&coded(kind, random, turn)));
        match turn / 10 % 8 {
            0 | 1 => (),
            // Other values that are read as the same pairs.
            2 | 3 => symbols.iter_mut().for_each(|symbol| *symbol = special_for(random, &special, pair(*symbol))),
            4 => symbols.iter_mut().for_each(|symbol| *symbol += noise(random, 0.33)),
            // A few values of any pair.
            5 => {
                (0..1 + random.below(6)).for_each(|_| symbols[random.below(192)] = special[random.below(special.len())])
            }
            // Nothing of the sync symbols is looked at.
            6 => symbols[..8].fill_with(|| special[random.below(special.len())]),
            _ => match random.below(3) {
                0 => symbols.fill_with(|| f32::from_bits(random.number() as u32)),
                1 => symbols.fill_with(|| special[random.below(special.len())]),
                _ => symbols.fill_with(|| noise(random, 1.5)),
            },
        }
        take(&to_bytes(&symbols))?;
    }
    [0, 1, 8, 184, 191, 193, 384].into_iter().try_for_each(|len| take(&to_bytes(&vec![1.0; len])))
}

fn noise(random: &mut Random, most: f32) -> f32 {
    most * (random.below(2_000_001) as f32 / 1_000_000.0 - 1.0)
}

/// Coded bits of a kind; before a stream's stands a LICH, which is clean, damaged in a word or random.
fn coded(kind: Kind, random: &mut Random, turn: usize) -> Vec<u8> {
    let part = frames::of_turn(kind, random, turn).received(kind);
    if kind != Stream {
        return part;
    }
    let mut flips = [0; 4];
    flips[random.below(4)] = random.below(5);
    let lich = match random.below(8) {
        0 => lich::flipped(random, flips),
        1 => lich::flipped(random, [1, 2, 3, 3]),
        2 => random.bytes(12),
        _ => lich::flipped(random, [0; 4]),
    };
    [lich, part].concat()
}

/// The Rust's answer beside ours from the symbols and from their body, which are compared on the way.
fn compared<T: PartialEq + Copy>(
    input: &[u8],
    rust: impl Fn(&[f32]) -> Result<T, Refused>,
    parse: impl Fn(&[f32]) -> Result<T, Refused>,
    read: impl Fn(&[u8]) -> Result<T, Refused>,
    show: impl Fn(&T) -> String,
) -> Said {
    let symbols = from_bytes(input);
    let bytes = |body: &Body| hex(body);
    if symbols.len() != 192 {
        let said = [
            called_for(Err(refused(1)), parse(&symbols), show),
            called_for(Err(refused(1)), ours::symbols_to_body(&symbols), bytes),
            called_for(Err(refused(1)), ours::frame_initial_decode(&symbols), bytes),
        ];
        return said.into_iter().find(|said| !matches!(said, Said::Refused)).unwrap_or(Said::Refused);
    }
    let body = symbols::body(&symbols);
    let wanted = rust(&symbols);
    let on_the_way = [
        called_for(Ok(body), ours::symbols_to_body(&symbols), bytes),
        called_for(Ok(oracle::frame_initial_decode(&symbols)), ours::frame_initial_decode(&symbols), bytes),
    ];
    if let Some(said) = on_the_way.into_iter().find(|said| !matches!(said, Said::Same { .. })) {
        return said;
    }
    match called_for(wanted, parse(&symbols), &show) {
        Said::Different { rust, ours } => Said::Different { rust, ours },
        _ => called_for(wanted, read(&body), show),
    }
}

fn lsf(input: &[u8]) -> Said {
    let rust = |symbols: &[f32]| oracle::parse_lsf(symbols).map(|frame| frame.0).ok_or(refused(3));
    compared(input, rust, ours::parse_lsf, ours::read_lsf, |header| hex(header))
}

fn stream(input: &[u8]) -> Said {
    let rust = |symbols: &[f32]| oracle::parse_stream(symbols).map(streamed).ok_or_else(|| why(symbols));
    compared(input, rust, ours::parse_stream, ours::read_stream, |frame| format!("{frame:?}"))
}

/// Which of a stream frame's two parts the Rust could not read: of both, the code comes first.
fn why(symbols: &[f32]) -> Refused {
    let received = oracle::frame_initial_decode(symbols);
    let (lich, part) = received.split_at(46 - lengths(Stream).1);
    match (oracle::fec_decode(Stream, part), oracle::decode_lich(lich)) {
        (None, _) => refused(3),
        (Some(_), None) => refused(4),
        _ => unreachable!("both parts are read"),
    }
}

fn streamed(frame: StreamFrame) -> ours::Stream {
    ours::Stream {
        lich_idx: frame.lich_idx,
        lich_part: frame.lich_part,
        frame_number: frame.frame_number,
        end_of_stream: frame.end_of_stream as u8,
        stream_data: frame.stream_data,
    }
}

fn packet(input: &[u8]) -> Said {
    let rust = |symbols: &[f32]| oracle::parse_packet(symbols).map(packed).ok_or(refused(3));
    compared(input, rust, ours::parse_packet, ours::read_packet, |frame| format!("{frame:?}"))
}

fn packed(frame: PacketFrame) -> ours::Packet {
    let (final_frame, number) = match frame.counter {
        PacketFrameCounter::Frame { index } => (0, index),
        PacketFrameCounter::FinalFrame { payload_len } => (1, payload_len),
    };
    ours::Packet { final_frame, number, payload: frame.payload }
}
