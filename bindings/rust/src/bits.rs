//! The bits of bytes. Bit 0 is the top bit of byte 0.
use crate::{c, Refusal, Result};
use core::iter::FusedIterator;

pub fn get_bit(bytes: &[u8], place: usize) -> Result<u8> {
    let mut out = 0;
    Refusal::judge(unsafe { c::m17_get_bit(bytes.as_ptr(), bytes.len(), place, &mut out) })?;
    Ok(out)
}

/// 0 clears the bit, any other value sets it.
pub fn set_bit(bytes: &mut [u8], place: usize, value: u8) -> Result<()> {
    Refusal::judge(unsafe { c::m17_set_bit(bytes.as_mut_ptr(), bytes.len(), place, value) })
}

/// Lent bytes, bit by bit.
#[derive(Debug, Clone, Copy)]
pub struct Bits<'a>(&'a [u8]);

impl<'a> Bits<'a> {
    pub fn new(data: &'a [u8]) -> Self {
        Self(data)
    }

    pub fn get_bit(&self, idx: usize) -> Result<u8> {
        get_bit(self.0, idx)
    }

    /// Every bit in order, each 0 or 1.
    pub fn iter(&self) -> BitsIterator<'a> {
        BitsIterator { bits: self.0, idx: 0 }
    }
}

impl<'a> IntoIterator for Bits<'a> {
    type Item = u8;
    type IntoIter = BitsIterator<'a>;

    fn into_iter(self) -> BitsIterator<'a> {
        self.iter()
    }
}

/// The bits that are left.
#[derive(Debug, Clone)]
pub struct BitsIterator<'a> {
    bits: &'a [u8],
    idx: usize,
}

impl Iterator for BitsIterator<'_> {
    type Item = u8;

    fn next(&mut self) -> Option<u8> {
        let (mut read, mut bit) = (0, 0);
        unsafe { c::m17_next_bit(self.bits.as_ptr(), self.bits.len(), &mut self.idx, &mut read, &mut bit) };
        (read == 1).then_some(bit)
    }
}

impl FusedIterator for BitsIterator<'_> {}
