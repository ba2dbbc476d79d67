//! The Rust's order of equals against the document's, by going through all words. Ours has no part in this.
use crate::code::{bits, bytes, coded, nearest, nearest_of_all};
use crate::comparison::{Comparison, Said, Stop, Take, Wanted};
use crate::observe::hex;
use crate::random::Random;
use oracle::Kind;

pub const ALL: [Comparison; 2] = [
    Comparison {
        name: "definition",
        layout: "the kind, n, and the received bits in two bytes",
        shortest: None,
        counts_ties: true,
        inputs: short_words,
        check: definition,
    },
    Comparison {
        name: "proved small cases",
        layout: "the kind, n, the received bits in two bytes, the answer's bits, and its distance",
        shortest: None,
        counts_ties: false,
        inputs: proved_words,
        check: proved,
    },
];

/// The small cases that the proofs computed from the definition: puncturing, n, received bits, answer, distance.
const PROVED: &str = include_str!("../../../docs/small-nearest.txt");

fn proved_words(_: &mut Random, _: &Wanted, take: Take) -> Result<(), Stop> {
    for line in PROVED.lines() {
        let words: Vec<&str> = line.split_whitespace().collect();
        let spelled = |bits: &str, wide: u32| u16::from_str_radix(bits, 2).expect("bits") << (wide - bits.len() as u32);
        let [high, low] = spelled(words[2], 16).to_be_bytes();
        let number = |word: &str| word.parse::<u8>().expect("a number");
        take(&[number(words[0]) - 1, number(words[1]), high, low, spelled(words[3], 8) as u8, number(words[4])])?;
    }
    Ok(())
}

fn proved(input: &[u8]) -> Said {
    let (kind, n, received) = (Kind::ALL[input[0] as usize % 3], input[1] as usize, &input[2..4]);
    let mut answer = [0u8; 30];
    answer[0] = input[4];
    let called_for = (input[5] <= 6).then_some(answer);
    let rust = oracle::fec_decode_short(kind, n, received);
    match (rust, called_for) {
        (Some(said), Some(first)) if said == first => Said::Same { tied: false },
        (None, None) => Said::Refused,
        _ => {
            let show = |said: Option<[u8; 30]>| said.map_or("refuses 3".into(), |said| hex(&said));
            Said::Different { rust: show(rust), ours: format!("(proved) {}", show(called_for)) }
        }
    }
}

/// All received words for n of 1 to 3.
fn short_words(_: &mut Random, _: &Wanted, take: Take) -> Result<(), Stop> {
    for (number, kind) in Kind::ALL.into_iter().enumerate() {
        for n in 1..=3 {
            let len = coded(kind, &vec![false; n + 4]).len();
            for received in 0..1u16 << len {
                let [high, low] = (received << (16 - len)).to_be_bytes();
                take(&[number as u8, n as u8, high, low])?;
            }
        }
    }
    Ok(())
}

fn definition(input: &[u8]) -> Said {
    let (kind, n, received) = (Kind::ALL[input[0] as usize % 3], input[1] as usize, &input[2..]);
    let all = nearest_of_all(kind, n, &bits(received));
    let quick = nearest(kind, n, &bits(received));
    if all != quick {
        return Said::Different {
            rust: format!("(through all words) {all:?}"),
            ours: format!("(step by step) {quick:?}"),
        };
    }
    let rust = oracle::fec_decode_short(kind, n, received).map(Vec::from);
    let called_for = (all.distance <= 6).then(|| bytes(&all.first[..n], 30));
    match (&rust, &called_for) {
        (Some(said), Some(first)) if said == first => Said::Same { tied: all.words > 1 },
        (None, None) => Said::Refused,
        _ => {
            let show = |said: Option<Vec<u8>>| said.map_or("refuses 3".into(), |said| hex(&said));
            Said::Different { rust: show(rust), ours: format!("(the definition) {}", show(called_for)) }
        }
    }
}
