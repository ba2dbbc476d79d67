//! Stands in for the crate `cai_golay`, which cannot be had: the extended Golay(24,12) code as document 01 gives it.

pub mod extended {
    use std::sync::OnceLock;

    /// The remainders of x^11 to x^22 by x^11+x^10+x^6+x^5+x^4+x^2+1, each from the one before by one shift.
    const ROWS: [u32; 12] = rows();

    const fn rows() -> [u32; 12] {
        let mut rows = [0; 12];
        let mut power = 0x475;
        let mut i = 0;
        while i < 12 {
            rows[i] = power;
            power <<= 1;
            if power & 0x800 != 0 {
                power ^= 0xC75;
            }
            i += 1;
        }
        rows
    }

    /// The codeword of twelve bits: data in bits 23 to 12, the remainder in bits 11 to 1, even parity in bit 0.
    pub fn encode(data: u16) -> u32 {
        assert!(data < 4096, "the document says nothing of more than twelve bits");
        let remainder = (0..12).filter(|i| data >> i & 1 == 1).fold(0, |r, i| r ^ ROWS[i as usize]);
        let word = (data as u32) << 12 | remainder << 1;
        word | word.count_ones() % 2
    }

    /// The data of the only codeword within three flipped bits, and the number of flipped bits.
    pub fn decode(word: u32) -> Option<(u16, u32)> {
        assert!(word < 1 << 24, "the document says nothing of more than 24 bits");
        let flips = table()[syndrome(word) as usize]?;
        Some((((word ^ flips) >> 12) as u16, flips.count_ones()))
    }

    /// What a word's check bits differ in from those of its data: 0 for a codeword, and the same for equal flips.
    fn syndrome(word: u32) -> u32 {
        word ^ encode((word >> 12) as u16)
    }

    /// The flips of least weight up to three for each syndrome.
    fn table() -> &'static [Option<u32>; 4096] {
        static TABLE: OnceLock<Box<[Option<u32>; 4096]>> = OnceLock::new();
        TABLE.get_or_init(|| {
            let mut table = Box::new([None; 4096]);
            // A flip of bit 24 flips nothing, so that three places also stand for two, one and none.
            for i in 0..25 {
                for j in i..25 {
                    for k in j..25 {
                        if i == j && j < 24 || j == k && k < 24 {
                            continue;
                        }
                        let flips = (1u32 << i | 1 << j | 1 << k) & 0xFFFFFF;
                        let entry = &mut table[syndrome(flips) as usize];
                        assert!(entry.is_none(), "two sets of flips with one syndrome");
                        *entry = Some(flips);
                    }
                }
            }
            table
        })
    }

    #[cfg(test)]
    mod tests {
        use super::*;

        #[test]
        fn documented_words() {
            assert_eq!(encode(0), 0);
            assert_eq!(encode(1), 0x0018EB);
        }

        // The table against a search through all the codewords, on words spread over all 24 bits.
        #[test]
        fn nearest_codewords() {
            let words: Vec<u32> = (0..4096).map(encode).collect();
            for word in (0..1 << 24).step_by(997) {
                let near: Vec<usize> = (0..4096).filter(|&d| (words[d] ^ word).count_ones() <= 3).collect();
                match decode(word) {
                    Some((data, distance)) => {
                        assert_eq!(near, [data as usize]);
                        assert_eq!((words[data as usize] ^ word).count_ones(), distance);
                    }
                    None => assert!(near.is_empty()),
                }
            }
        }
    }
}
