//! Document 01's symbols, written from the document: what is written for a pair of bits, and what is read.
use oracle::Kind;

/// The two sync bytes of a kind.
pub fn sync(kind: Kind) -> [u8; 2] {
    match kind {
        Kind::Header => [0x55, 0xF7],
        Kind::Stream => [0xFF, 0x5D],
        Kind::Packet => [0x75, 0xFF],
    }
}

pub fn written(pair: u8) -> f32 {
    match pair {
        0b01 => 1.0,
        0b00 => 1.0 / 3.0,
        0b10 => -(1.0 / 3.0),
        _ => -1.0,
    }
}

pub fn pair(symbol: f32) -> u8 {
    if symbol > 0.667 {
        0b01
    } else if symbol > 0.0 {
        0b00
    } else if symbol > -0.667 {
        0b10
    } else {
        0b11
    }
}

fn pairs(bytes: &[u8]) -> impl Iterator<Item = u8> + use<'_> {
    bytes.iter().flat_map(|byte| [6, 4, 2, 0].map(|place| byte >> place & 3))
}

/// The frame of a body: eight sync symbols, then 184.
pub fn symbols(kind: Kind, body: &[u8]) -> Vec<f32> {
    pairs(&sync(kind)).chain(pairs(body)).map(written).collect()
}

/// The body that is read from a frame.
pub fn body(symbols: &[f32]) -> [u8; 46] {
    let mut body = [0; 46];
    for (place, &symbol) in symbols[8..].iter().enumerate() {
        body[place / 4] |= pair(symbol) << (6 - 2 * (place % 4));
    }
    body
}
