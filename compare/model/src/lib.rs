//! Document 01's slot receiver, written plainly from the document, over the Rust's own readings of bodies.
//! The Rust has no receiver: this one stands beside ours.

pub mod reading;
pub mod symbols;
#[cfg(test)]
mod tests;

use oracle::protocol::{PacketFrame, PacketFrameCounter, StreamFrame};
use oracle::Kind;
use reading::{header_of, packet_of, stream_of};

pub const SLOT: usize = 48;
pub const MEMORY: usize = 825;

/// What is open between two slots.
#[derive(Clone, Debug, PartialEq, Eq)]
pub enum State {
    Idle,
    /// In a packet, expecting frame n.
    Packet(usize),
    /// Gathering: the LICH parts that have come, counted from 0.
    Gathering(Vec<[u8; 5]>),
}

/// What a stream slot's answer carries beside its fields.
#[derive(Clone, Copy, Debug, PartialEq, Eq)]
pub enum Late {
    Nothing,
    Header([u8; 30]),
    Spoiled,
}

#[derive(Clone, Debug, PartialEq, Eq)]
pub enum Answer {
    Header([u8; 30]),
    Stream(StreamFrame, Late),
    /// A frame of a packet, stored at its place.
    Stored {
        index: usize,
    },
    /// A packet is handed out: so many bytes from the start of packet memory.
    Packet {
        total: usize,
    },
    End,
}

/// The number of a refusal.
pub type Refusal = u8;

/// Takes one slot. The state and the packet memory are the caller's.
pub fn receive(state: &mut State, memory: &mut [u8], slot: &[u8]) -> Result<Answer, Refusal> {
    if slot.len() != SLOT || memory.len() != MEMORY {
        return Err(1);
    }
    match state {
        State::Packet(n) if *n > 32 => return Err(12),
        State::Gathering(parts) if parts.len() > 5 => return Err(12),
        _ => (),
    }
    // Whatever is not said to stay open is closed, by a refusal too.
    let open = std::mem::replace(state, State::Idle);
    let (sync, body) = slot.split_at(2);
    match sync {
        [0x55, 0xF7] => header(state, body),
        [0xFF, 0x5D] => stream(state, open, body),
        [0x75, 0xFF] => packet(state, open, memory, body),
        [0x55, 0x5D] => Ok(Answer::End),
        _ => Err(7),
    }
}

fn header(state: &mut State, body: &[u8]) -> Result<Answer, Refusal> {
    let header = header_of(body)?;
    if oracle::crc::m17_crc(&header) != 0 {
        return Err(5);
    }
    let stream = header[13] & 1 == 1;
    if !stream {
        *state = State::Packet(0);
    }
    Ok(Answer::Header(header))
}

fn stream(state: &mut State, open: State, body: &[u8]) -> Result<Answer, Refusal> {
    let frame = stream_of(body)?;
    let mut parts = match open {
        State::Gathering(parts) => parts,
        _ => Vec::new(),
    };
    if frame.lich_idx == 0 {
        parts.clear();
    } else if frame.lich_idx as usize != parts.len() {
        return Ok(Answer::Stream(frame, Late::Nothing));
    }
    parts.push(frame.lich_part);
    if parts.len() < 6 {
        *state = State::Gathering(parts);
        return Ok(Answer::Stream(frame, Late::Nothing));
    }
    let header: [u8; 30] = parts.concat().try_into().unwrap();
    let late = if oracle::crc::m17_crc(&header) == 0 { Late::Header(header) } else { Late::Spoiled };
    Ok(Answer::Stream(frame, late))
}

fn packet(state: &mut State, open: State, memory: &mut [u8], body: &[u8]) -> Result<Answer, Refusal> {
    let PacketFrame { payload, counter } = packet_of(body)?;
    let State::Packet(n) = open else { return Err(8) };
    let start = 25 * n;
    match counter {
        PacketFrameCounter::Frame { index } if index == n => {
            memory[start..start + 25].copy_from_slice(&payload);
            *state = State::Packet(n + 1);
            Ok(Answer::Stored { index: n })
        }
        PacketFrameCounter::Frame { .. } => Err(8),
        PacketFrameCounter::FinalFrame { payload_len: 0 | 26.. } => Err(9),
        PacketFrameCounter::FinalFrame { payload_len } => {
            let total = start + payload_len;
            if total < 3 {
                return Err(10);
            }
            let whole = [&memory[..start], &payload[..payload_len]].concat();
            if oracle::crc::m17_crc(&whole) != 0 {
                return Err(11);
            }
            memory[start..total].copy_from_slice(&payload[..payload_len]);
            Ok(Answer::Packet { total })
        }
    }
}

/// A slot of a kind.
pub fn slot(kind: Kind, body: &[u8]) -> Vec<u8> {
    [&symbols::sync(kind), body].concat()
}

/// The slot at the end of a transmission, whose body is not read.
pub fn end_slot(body: &[u8]) -> Vec<u8> {
    [&[0x55, 0x5D], body].concat()
}
