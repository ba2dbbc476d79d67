//! Symbols of every sort, as inputs.
use crate::random::Random;
pub use model::symbols::{body, pair, symbols};

/// Both zeros, infinities and NaNs of either sign, quiet and not, subnormals and what is next to them, and each
/// threshold with the float on either side of it.
pub fn special() -> Vec<f32> {
    let patterns = [0, 1, 2, 0x007F_FFFF, 0x0080_0000, 0x7F7F_FFFF, 0x7F80_0000];
    let not_numbers = [0x7F80_0001, 0x7FBF_FFFF, 0x7FC0_0000, 0x7FFF_FFFF];
    let positive = patterns.into_iter().chain(not_numbers).map(f32::from_bits);
    let around = [0.667f32, 0.666, 0.668, 2.0 / 3.0, 1.0 / 3.0, 1.0, 0.0];
    let near = around.into_iter().flat_map(|value| [value.next_down(), value, value.next_up()]);
    positive.chain(near).flat_map(|value| [value, -value]).collect()
}

/// A value of the list that is read as a pair.
pub fn special_for(random: &mut Random, special: &[f32], wanted: u8) -> f32 {
    loop {
        let symbol = special[random.below(special.len())];
        if pair(symbol) == wanted {
            return symbol;
        }
    }
}

/// Symbols as the bytes of an input: each in four bytes, highest first.
pub fn to_bytes(symbols: &[f32]) -> Vec<u8> {
    symbols.iter().flat_map(|symbol| symbol.to_bits().to_be_bytes()).collect()
}

pub fn from_bytes(bytes: &[u8]) -> Vec<f32> {
    bytes.chunks_exact(4).map(|four| f32::from_bits(u32::from_be_bytes(four.try_into().unwrap()))).collect()
}
