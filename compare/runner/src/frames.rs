//! Received frames of each sort: clean, damaged, and made to tie.
use crate::code::{bits, bytes, coded, data_bits, lengths};
use crate::random::Random;
use oracle::Kind;

/// A frame as a word and the bits of its coded form that are flipped: either can be made small by itself.
pub struct Frame {
    pub word: Vec<bool>,
    pub flips: Vec<u8>,
}

impl Frame {
    /// The word in 31 bytes, and then the flips.
    pub fn to_bytes(&self) -> Vec<u8> {
        [bytes(&self.word, 31), self.flips.clone()].concat()
    }

    pub fn from_bytes(kind: Kind, given: &[u8]) -> Self {
        let mut word = bits(&given[..31]);
        word.truncate(data_bits(kind) + 4);
        Self { word, flips: given[31..].to_vec() }
    }

    pub fn received(&self, kind: Kind) -> Vec<u8> {
        let coded = bytes(&coded(kind, &self.word), self.flips.len());
        coded.iter().zip(&self.flips).map(|(sent, flips)| sent ^ flips).collect()
    }

    fn flip(&mut self, place: usize) {
        self.flips[place / 8] ^= 0x80 >> (place % 8);
    }

    fn flip_some(&mut self, random: &mut Random, flips: usize) {
        let mut places: Vec<usize> = (0..8 * self.flips.len()).collect();
        for _ in 0..flips {
            let chosen = random.below(places.len());
            self.flip(places.swap_remove(chosen));
        }
    }
}

/// A word whose last four bits are any, with nothing flipped.
fn word(kind: Kind, random: &mut Random) -> Frame {
    Frame::from_bytes(kind, &[random.bytes(31), vec![0; lengths(kind).1]].concat())
}

/// As a writer gives it: the four bits after the data are zero.
pub fn clean(kind: Kind, random: &mut Random) -> Frame {
    let mut frame = word(kind, random);
    frame.word[data_bits(kind)..].fill(false);
    frame
}

/// A clean frame with so many different bits flipped.
pub fn flipped(kind: Kind, random: &mut Random, flips: usize) -> Frame {
    let mut frame = clean(kind, random);
    frame.flip_some(random, flips);
    frame
}

/// A clean frame with each bit of a stretch of up to 16 flipped or not.
pub fn burst(kind: Kind, random: &mut Random) -> Frame {
    let mut frame = clean(kind, random);
    let len = 1 + random.below(16);
    let start = random.below(8 * frame.flips.len() - len + 1);
    for place in start..start + len {
        if random.below(2) == 1 {
            frame.flip(place);
        }
    }
    frame
}

/// A word whose last four bits are any, with up to three bits flipped.
pub fn free_tail(kind: Kind, random: &mut Random) -> Frame {
    let mut frame = word(kind, random);
    let flips = random.below(4);
    frame.flip_some(random, flips);
    frame
}

/// Random bytes.
pub fn any(kind: Kind, random: &mut Random) -> Frame {
    let flips = random.bytes(lengths(kind).1);
    Frame { word: vec![false; data_bits(kind) + 4], flips }
}

/// Halfway between two codewords whose words differ within eight places. The stretch ends with the word where
/// `at_end` says so: there the order of equals changes. One more flip now and then.
pub fn halfway(kind: Kind, random: &mut Random, at_end: bool) -> Frame {
    loop {
        let mut frame = word(kind, random);
        let mut other = frame.word.clone();
        let len = 1 + random.below(8);
        let start = if at_end { other.len() - len } else { random.below(other.len() - len + 1) };
        for bit in &mut other[start..start + len] {
            *bit ^= random.below(2) == 1;
        }
        let (one, other) = (coded(kind, &frame.word), coded(kind, &other));
        let mut between: Vec<usize> = (0..one.len()).filter(|&place| one[place] != other[place]).collect();
        if between.is_empty() || between.len() % 2 == 1 {
            continue;
        }
        for _ in 0..between.len() / 2 {
            let chosen = random.below(between.len());
            frame.flip(between.swap_remove(chosen));
        }
        if random.below(4) == 0 {
            frame.flip_some(random, 1);
        }
        return frame;
    }
}

/// A mix, ten turns long, in which about a third is made to tie.
pub fn of_turn(kind: Kind, random: &mut Random, turn: usize) -> Frame {
    match turn % 10 {
        0 => clean(kind, random),
        1 | 2 => {
            let flips = 1 + random.below(8);
            flipped(kind, random, flips)
        }
        3 => {
            let flips = 5 + random.below(4);
            flipped(kind, random, flips)
        }
        4 => burst(kind, random),
        5 => free_tail(kind, random),
        6 | 7 => halfway(kind, random, false),
        8 => halfway(kind, random, true),
        _ => any(kind, random),
    }
}
