//! The comparisons of written frames: fields to symbols, by way of the body too.
use crate::comparison::{Comparison, Said, Stop, Take, Wanted};
use crate::leaves::{called_for, shown};
use crate::observe::hex;
use crate::random::Random;
use crate::symbols;
use oracle::protocol::{LsfFrame, PacketFrame, PacketFrameCounter, StreamFrame};
use oracle::Kind;
use ours::{refused, Body, Packet, Refused, Stream, Symbols};

pub const ALL: [Comparison; 4] = [
    Comparison {
        name: "write_lsf",
        layout: "the header",
        shortest: Some(0),
        counts_ties: false,
        inputs: headers,
        check: lsf,
    },
    Comparison {
        name: "write_stream",
        layout: "LICH index, part, frame number in two bytes, end, data",
        shortest: None,
        counts_ties: false,
        inputs: streams,
        check: stream,
    },
    Comparison {
        name: "write_packet",
        layout: "final, number in eight bytes, payload",
        shortest: None,
        counts_ties: false,
        inputs: packets,
        check: packet,
    },
    Comparison {
        name: "body_to_symbols",
        layout: "kind, body",
        shortest: Some(1),
        counts_ties: false,
        inputs: bodies,
        check: to_symbols,
    },
];

/// Bytes that are random, or all of one value.
fn bytes(random: &mut Random, len: usize) -> Vec<u8> {
    match random.below(16) {
        0 => vec![[0x00, 0xFF, 0xAA, 0x55][random.below(4)]; len],
        _ => random.bytes(len),
    }
}

/// One of the limits, or any number up to the second of them; now and then one over it.
fn number(random: &mut Random, limits: [u64; 2], over: u64) -> u64 {
    match random.below(40) {
        0..8 => limits[random.below(2)],
        8 => over,
        9 => over + random.number() % (u64::MAX - over),
        _ => limits[0] + random.number() % (limits[1] - limits[0] + 1),
    }
}

/// Every unit vector, random headers, and other lengths.
fn headers(random: &mut Random, wanted: &Wanted, take: Take) -> Result<(), Stop> {
    for place in 0..240 {
        let mut unit = [0; 30];
        unit[place / 8] = 0x80 >> (place % 8);
        take(&unit)?;
    }
    for len in (0..60).filter(|&len| len != 30) {
        take(&random.bytes(len))?;
    }
    (0..wanted.many_or(2_000, 20_000)).try_for_each(|_| take(&bytes(random, 30)))
}

/// About a tenth is out of range.
fn streams(random: &mut Random, wanted: &Wanted, take: Take) -> Result<(), Stop> {
    for _ in 0..wanted.many_or(2_300, 23_000) {
        let mut input = vec![number(random, [0, 5], 6).min(255) as u8];
        input.extend(bytes(random, 5));
        input.extend((number(random, [0, 0x7FFF], 0x8000).min(0xFFFF) as u16).to_be_bytes());
        input.push([0, 1, 1, random.number() as u8][random.below(4)]);
        input.extend(bytes(random, 16));
        take(&input)?;
    }
    Ok(())
}

fn packets(random: &mut Random, wanted: &Wanted, take: Take) -> Result<(), Stop> {
    for _ in 0..wanted.many_or(2_300, 23_000) {
        let last = [0, 0, 1, random.number() as u8][random.below(4)];
        let limit = if last == 0 { 31 } else { 25 };
        let mut input = vec![last];
        input.extend(number(random, [0, limit], limit + 1).to_be_bytes());
        input.extend(bytes(random, 25));
        take(&input)?;
    }
    Ok(())
}

/// What the Rust writes, or the refusal that is called for, beside ours: its symbols, its body, the symbols of that
/// body, and the body of those symbols.
fn compared(
    kind: Kind,
    wanted: Result<[f32; 192], Refused>,
    written: Result<Symbols, Refused>,
    body: Result<Body, Refused>,
) -> Said {
    let body = match called_for(wanted.map(Symbols), written, show) {
        Said::Same { .. } => body,
        Said::Refused => return called_for(wanted.map(|_| [0; 46]), body, |body| hex(body)),
        said => return said,
    };
    let symbols = wanted.unwrap();
    match called_for(Ok(symbols::body(&symbols)), body, |body| hex(body)) {
        Said::Same { .. } => (),
        said => return said,
    }
    let body = body.unwrap();
    match called_for(Ok(Symbols(symbols)), ours::body_to_symbols(kind as u8, &body), show) {
        Said::Same { .. } => called_for(Ok(body), ours::symbols_to_body(&symbols), |body| hex(body)),
        said => said,
    }
}

fn show(symbols: &Symbols) -> String {
    symbols.0.map(|symbol| format!("{:08X}", symbol.to_bits())).join(" ")
}

fn lsf(input: &[u8]) -> Said {
    let wanted = match input.try_into() {
        Ok(header) => Ok(oracle::encode_lsf(&LsfFrame(header))),
        Err(_) => Err(refused(1)),
    };
    compared(Kind::Header, wanted, ours::encode_lsf(input), ours::write_lsf(input))
}

fn stream(input: &[u8]) -> Said {
    let frame = stream_of(input);
    let wanted = match frame {
        Stream { lich_idx: 0..6, frame_number: 0..0x8000, .. } => Ok(oracle::encode_stream(&for_rust(&frame))),
        _ => Err(refused(2)),
    };
    compared(Kind::Stream, wanted, ours::encode_stream(&frame), ours::write_stream(&frame))
}

pub fn stream_of(input: &[u8]) -> Stream {
    Stream {
        lich_idx: input[0],
        lich_part: input[1..6].try_into().unwrap(),
        frame_number: u16::from_be_bytes([input[6], input[7]]),
        end_of_stream: input[8],
        stream_data: input[9..].try_into().unwrap(),
    }
}

pub fn for_rust(frame: &Stream) -> StreamFrame {
    StreamFrame {
        lich_idx: frame.lich_idx,
        lich_part: frame.lich_part,
        frame_number: frame.frame_number,
        end_of_stream: frame.end_of_stream != 0,
        stream_data: frame.stream_data,
    }
}

fn packet(input: &[u8]) -> Said {
    let number = u64::from_be_bytes(input[1..9].try_into().unwrap()) as usize;
    let frame = Packet { final_frame: input[0], number, payload: input[9..].try_into().unwrap() };
    let wanted = match (frame.final_frame, number) {
        (0, 0..32) | (1.., 0..26) => Ok(oracle::encode_packet(&packet_for_rust(&frame))),
        _ => Err(refused(2)),
    };
    compared(Kind::Packet, wanted, ours::encode_packet(&frame), ours::write_packet(&frame))
}

pub fn packet_for_rust(frame: &Packet) -> PacketFrame {
    let counter = match frame.final_frame {
        0 => PacketFrameCounter::Frame { index: frame.number },
        _ => PacketFrameCounter::FinalFrame { payload_len: frame.number },
    };
    PacketFrame { payload: frame.payload, counter }
}

/// Bodies that no frame is written as, kinds that are none, and other lengths.
fn bodies(random: &mut Random, wanted: &Wanted, take: Take) -> Result<(), Stop> {
    for turn in 0..wanted.many_or(1_000, 10_000) {
        let kind = if turn % 8 == 0 { random.number() as u8 } else { random.below(3) as u8 };
        let len = if turn % 16 == 1 { random.below(100) } else { 46 };
        take(&[vec![kind], bytes(random, len)].concat())?;
    }
    Ok(())
}

/// The document's own symbols, which the Rust has no function for.
fn to_symbols(input: &[u8]) -> Said {
    let (kind, body) = (input[0], &input[1..]);
    let wanted = match (body.len(), Kind::ALL.get(kind as usize)) {
        (46, Some(kind)) => Ok(Symbols(symbols::symbols(*kind, body).try_into().unwrap())),
        (46, None) => Err(refused(2)),
        _ => Err(refused(1)),
    };
    let ours = ours::body_to_symbols(kind, body);
    let Ok(symbols) = &wanted else { return called_for(wanted, ours, show) };
    let back = ours::symbols_to_body(&symbols.0);
    if back.as_ref().map(|back| &back[..]) != Ok(body) {
        return Said::Different { rust: hex(body), ours: format!("reads back {}", shown(&back, |back| hex(back))) };
    }
    called_for(wanted, ours, show)
}
