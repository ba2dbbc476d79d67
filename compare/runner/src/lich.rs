//! The comparisons of LICHs. A stand-in does the Golay words on the Rust's side.
use crate::comparison::{Comparison, Said, Stop, Take, Wanted};
use crate::leaves::called_for;
use crate::observe::hex;
use crate::random::Random;
use ours::refused;

pub const ALL: [Comparison; 2] = [
    Comparison {
        name: "encode_lich",
        layout: "the counter, and then the part",
        shortest: Some(1),
        counts_ties: false,
        inputs: to_write,
        check: encode,
    },
    Comparison {
        name: "decode_lich",
        layout: "the LICH",
        shortest: Some(0),
        counts_ties: false,
        inputs: to_read,
        check: decode,
    },
];

/// Every counter, and every bit of the part by itself, beside random ones; other lengths.
fn to_write(random: &mut Random, wanted: &Wanted, take: Take) -> Result<(), Stop> {
    for counter in 0..=255 {
        take(&[vec![counter], random.bytes(5)].concat())?;
    }
    for place in 0..40 {
        let mut input = [0; 6];
        input[1 + place / 8] = 0x80 >> (place % 8);
        take(&input)?;
    }
    for len in 0..12 {
        take(&[vec![random.below(8) as u8], random.bytes(len)].concat())?;
    }
    (0..wanted.many_or(5_000, 50_000)).try_for_each(|_| take(&[vec![random.below(6) as u8], random.bytes(5)].concat()))
}

fn encode(input: &[u8]) -> Said {
    let (counter, part) = (input[0], &input[1..]);
    let wanted = match (<&[u8; 5]>::try_from(part), counter) {
        (Ok(part), 0..6) => Ok(oracle::encode_lich(counter, part)),
        (Ok(_), _) => Err(refused(2)),
        (Err(_), _) => Err(refused(1)),
    };
    called_for(wanted, ours::encode_lich(counter, part), |lich| hex(lich))
}

/// A written LICH, its counter of 0 to 7, with so many different bits flipped in each of its four words.
pub fn flipped(random: &mut Random, flips: [usize; 4]) -> Vec<u8> {
    let part = random.bytes(5).try_into().unwrap();
    let mut lich = oracle::encode_lich(random.below(8) as u8, &part).to_vec();
    for (word, flips) in flips.into_iter().enumerate() {
        let mut places: Vec<usize> = (24 * word..24 * word + 24).collect();
        for _ in 0..flips {
            let chosen = random.below(places.len());
            let place = places.swap_remove(chosen);
            lich[place / 8] ^= 0x80 >> (place % 8);
        }
    }
    lich
}

/// Clean ones; one to four flips in one word and in each word; random bytes; other lengths.
fn to_read(random: &mut Random, wanted: &Wanted, take: Take) -> Result<(), Stop> {
    for turn in 0..wanted.many_or(300, 5_000) {
        take(&flipped(random, [0; 4]))?;
        for flips in 1..=4 {
            let mut in_one = [0; 4];
            in_one[turn % 4] = flips;
            take(&flipped(random, in_one))?;
            take(&flipped(random, [flips; 4]))?;
        }
        let flips = [(); 4].map(|_| random.below(4));
        take(&flipped(random, flips))?;
        take(&random.bytes(12))?;
    }
    (0..24).filter(|&len| len != 12).try_for_each(|len| take(&random.bytes(len)))
}

fn decode(input: &[u8]) -> Said {
    let wanted = match input.len() {
        12 => oracle::decode_lich(input).ok_or(refused(4)),
        _ => Err(refused(1)),
    };
    called_for(wanted, ours::decode_lich(input), |(counter, part)| format!("counter {counter}, part {}", hex(part)))
}
