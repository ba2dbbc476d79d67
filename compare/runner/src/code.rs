//! Document 01's code and its nearest word, written from the document and not from the Rust: a third opinion.
use oracle::Kind;

/// The bits of data of a kind.
pub fn data_bits(kind: Kind) -> usize {
    match kind {
        Kind::Header => 240,
        Kind::Stream => 144,
        Kind::Packet => 206,
    }
}

/// The bytes of data that are written, and the bytes that are received.
pub fn lengths(kind: Kind) -> (usize, usize) {
    match kind {
        Kind::Header => (30, 46),
        Kind::Stream => (18, 34),
        Kind::Packet => (26, 46),
    }
}

/// Whether a step sends g1, and whether it sends g2.
fn sends(kind: Kind, step: usize) -> [bool; 2] {
    match kind {
        Kind::Header => match step % 61 {
            r if r % 2 == 0 => [true, true],
            r => [r > 30, r < 30],
        },
        Kind::Stream => [true, step % 6 != 5],
        Kind::Packet => [true, step % 4 != 3],
    }
}

/// What a step sends for a bit after four earlier ones: the latest of them is bit 3 of the state.
fn sent(kind: Kind, step: usize, state: usize, bit: usize) -> impl Iterator<Item = bool> {
    let [b1, b2, b3, b4] = [3, 2, 1, 0].map(|place| state >> place & 1);
    let both = [(bit + b3 + b4) % 2 == 1, (bit + b1 + b2 + b4) % 2 == 1];
    let sends = sends(kind, step);
    (0..2).filter(move |&g| sends[g]).map(move |g| both[g])
}

fn after(state: usize, bit: usize) -> usize {
    state >> 1 | bit << 3
}

/// The coded bits of a word, which is the data and four more bits of any value.
pub fn coded(kind: Kind, word: &[bool]) -> Vec<bool> {
    let mut state = 0;
    let mut out = Vec::new();
    for (step, &bit) in word.iter().enumerate() {
        out.extend(sent(kind, step, state, bit as usize));
        state = after(state, bit as usize);
    }
    out
}

pub fn bits(bytes: &[u8]) -> Vec<bool> {
    bytes.iter().flat_map(|byte| (0..8).rev().map(move |place| byte >> place & 1 == 1)).collect()
}

/// The bits in bytes, zeros after them.
pub fn bytes(bits: &[bool], len: usize) -> Vec<u8> {
    let mut out = vec![0; len];
    for (place, _) in bits.iter().enumerate().filter(|(_, &bit)| bit) {
        out[place / 8] |= 0x80 >> (place % 8);
    }
    out
}

/// The least distance of any word, how many words have it, and the first of them in the document's order.
#[derive(Debug, PartialEq, Eq)]
pub struct Nearest {
    pub distance: u32,
    pub words: u64,
    pub first: Vec<bool>,
}

/// For each state the least distance of a word that ends in it, and how many words have that distance.
type Ends = [(u32, u64); 16];

const NONE: (u32, u64) = (u32::MAX, 0);

/// The nearest word of n bits and four more.
pub fn nearest(kind: Kind, n: usize, received: &[bool]) -> Nearest {
    let mut steps: Vec<Ends> = vec![[NONE; 16]; n + 5];
    let mut places = vec![0; n + 5];
    steps[0][0] = (0, 1);
    for step in 0..n + 4 {
        let width = sends(kind, step).iter().filter(|&&s| s).count();
        places[step + 1] = places[step] + width;
        for state in 0..16 {
            let (so_far, words) = steps[step][state];
            for bit in 0..2 {
                if words == 0 {
                    continue;
                }
                let distance = so_far + cost(kind, step, state, bit, &received[places[step]..]);
                let end = &mut steps[step + 1][after(state, bit)];
                if distance < end.0 {
                    *end = (distance, words);
                } else if distance == end.0 {
                    end.1 = end.1.saturating_add(words);
                }
            }
        }
    }
    let last = &steps[n + 4];
    let distance = last.iter().map(|end| end.0).min().unwrap();
    let words = last.iter().filter(|end| end.0 == distance).fold(0u64, |sum, end| sum.saturating_add(end.1));
    // The last four bits are the state, the last one highest: 0 before 1 from the last one backwards.
    let mut state = last.iter().position(|end| end.0 == distance).unwrap();
    let mut first = vec![false; n + 4];
    for step in (0..n + 4).rev() {
        let bit = state >> 3;
        first[step] = bit == 1;
        // The bit four places earlier is the one that the state after this step has lost.
        let order = if step == n + 3 { [0, 1] } else { [1, 0] };
        let whole = steps[step + 1][state].0;
        state = order
            .map(|lost| state << 1 & 15 | lost)
            .into_iter()
            .find(|&from| {
                let (so_far, words) = steps[step][from];
                words > 0 && so_far + cost(kind, step, from, bit, &received[places[step]..]) == whole
            })
            .unwrap();
    }
    Nearest { distance, words, first }
}

fn cost(kind: Kind, step: usize, state: usize, bit: usize, received: &[bool]) -> u32 {
    sent(kind, step, state, bit).zip(received).filter(|(sent, got)| sent != *got).count() as u32
}

/// The same by going through all words, for a small n: the definition itself.
pub fn nearest_of_all(kind: Kind, n: usize, received: &[bool]) -> Nearest {
    let all = (0..1usize << (n + 4)).map(|number| (0..n + 4).map(|place| number >> place & 1 == 1).collect::<Vec<_>>());
    let mut nearest = Nearest { distance: u32::MAX, words: 0, first: Vec::new() };
    for word in all {
        let distance = coded(kind, &word).iter().zip(received).filter(|(sent, got)| sent != got).count() as u32;
        if distance < nearest.distance {
            nearest = Nearest { distance, words: 1, first: word };
        } else if distance == nearest.distance {
            nearest.words += 1;
            if comes_before(n, &word, &nearest.first) {
                nearest.first = word;
            }
        }
    }
    nearest
}

/// From the last bit backwards: in the last five places 0 comes before 1, in all earlier places 1 before 0.
fn comes_before(n: usize, word: &[bool], other: &[bool]) -> bool {
    for place in (0..n + 4).rev() {
        if word[place] != other[place] {
            return word[place] == (place + 5 < n + 4);
        }
    }
    false
}
