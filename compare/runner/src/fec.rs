//! The comparisons of fec: writing and reading for each kind.
use crate::code::{bits, bytes, data_bits, lengths, nearest};
use crate::comparison::{same, Comparison, Said, Stop, Take, Wanted};
use crate::frames::{self, Frame};
use crate::leaves::shown;
use crate::observe::hex;
use crate::random::Random;
use oracle::Kind::{self, Header, Packet, Stream};
use ours::{refused, Refused};

pub const ALL: [Comparison; 6] = [
    writing("fec_encode header", |r, w, t| data(Header, r, w, t), |input| encode(Header, input)),
    writing("fec_encode stream", |r, w, t| data(Stream, r, w, t), |input| encode(Stream, input)),
    writing("fec_encode packet", |r, w, t| data(Packet, r, w, t), |input| encode(Packet, input)),
    reading("fec_decode header", |r, w, t| received(Header, r, w, t), |input| decode(Header, input)),
    reading("fec_decode stream", |r, w, t| received(Stream, r, w, t), |input| decode(Stream, input)),
    reading("fec_decode packet", |r, w, t| received(Packet, r, w, t), |input| decode(Packet, input)),
];

type Inputs = fn(&mut Random, &Wanted, Take) -> Result<(), Stop>;

const fn writing(name: &'static str, inputs: Inputs, check: fn(&[u8]) -> Said) -> Comparison {
    Comparison { name, layout: "the data", shortest: None, counts_ties: false, inputs, check }
}

const fn reading(name: &'static str, inputs: Inputs, check: fn(&[u8]) -> Said) -> Comparison {
    let layout = "a word in 31 bytes, and then the flips of its coded form";
    Comparison { name, layout, shortest: None, counts_ties: true, inputs, check }
}

/// Every unit vector and random data. A packet's last two bits are in its bytes and not in its data.
fn data(kind: Kind, random: &mut Random, wanted: &Wanted, take: Take) -> Result<(), Stop> {
    let (len, _) = lengths(kind);
    for place in 0..8 * len {
        let mut unit = vec![0; len];
        unit[place / 8] = 0x80 >> (place % 8);
        take(&unit)?;
    }
    (0..wanted.many(20_000)).try_for_each(|_| take(&random.bytes(len)))
}

fn encode(kind: Kind, input: &[u8]) -> Said {
    let rust = Ok(oracle::fec_encode(kind, input));
    same(rust, ours::fec_encode(kind as u8, input), |said| shown(said, |bytes| hex(bytes)))
}

fn received(kind: Kind, random: &mut Random, wanted: &Wanted, take: Take) -> Result<(), Stop> {
    (0..wanted.many_or(8_000, 50_000)).try_for_each(|turn| take(&frames::of_turn(kind, random, turn).to_bytes()))
}

/// The Rust, ours, and the document's nearest word as `code` reads it have to agree.
fn decode(kind: Kind, input: &[u8]) -> Said {
    let received = Frame::from_bytes(kind, input).received(kind);
    let rust = oracle::fec_decode(kind, &received).ok_or(refused(3));
    let ours = ours::fec_decode(kind as u8, &received);
    let n = data_bits(kind);
    let nearest = nearest(kind, n, &bits(&received));
    let called_for = match nearest.distance {
        0..=6 => Ok(bytes(&nearest.first[..n], 30).try_into().unwrap()),
        _ => Err(refused(3)),
    };
    if rust != ours || rust != called_for {
        let show = |said: &Result<[u8; 30], Refused>| shown(said, |data| hex(data));
        return Said::Different {
            rust: format!("{} (received {})", show(&rust), hex(&received)),
            ours: format!("{} (the document: {})", show(&ours), show(&called_for)),
        };
    }
    match rust {
        Ok(_) => Said::Same { tied: nearest.words > 1 },
        Err(_) => Said::Refused,
    }
}
