//! Stands in for the crate `crc`, version 3: the names that m17core uses, for 16-bit registers.
//! The engine takes one bit at a time and is written from the parameters, with no table.

/// The parameters of a CRC, under the names of the crate `crc`.
pub struct Algorithm<W> {
    pub width: u8,
    pub poly: W,
    pub init: W,
    pub refin: bool,
    pub refout: bool,
    pub xorout: W,
    pub check: W,
    pub residue: W,
}

/// A CRC to be taken with given parameters.
pub struct Crc<W: 'static> {
    pub algorithm: &'static Algorithm<W>,
}

impl Crc<u16> {
    pub const fn new(algorithm: &'static Algorithm<u16>) -> Self {
        assert!(algorithm.width == 16);
        Self { algorithm }
    }

    pub const fn digest(&self) -> Digest<u16> {
        Digest { algorithm: self.algorithm, register: self.algorithm.init }
    }
}

/// A CRC under way. The register is kept unreflected; input and answer are reflected instead.
pub struct Digest<W: 'static> {
    algorithm: &'static Algorithm<W>,
    register: W,
}

impl Digest<u16> {
    pub fn update(&mut self, bytes: &[u8]) {
        for &byte in bytes {
            let byte = if self.algorithm.refin { byte.reverse_bits() } else { byte };
            for place in (0..8).rev() {
                let falls_out = (self.register >> 15) as u8 ^ (byte >> place) & 1;
                self.register <<= 1;
                if falls_out == 1 {
                    self.register ^= self.algorithm.poly;
                }
            }
        }
    }

    pub fn finalize(self) -> u16 {
        let register = if self.algorithm.refout { self.register.reverse_bits() } else { self.register };
        register ^ self.algorithm.xorout
    }
}

#[cfg(test)]
mod tests {
    use super::*;

    // Published check values (the CRC of "123456789"), so that the engine is held to more than M17's parameters.
    fn check(poly: u16, init: u16, reflected: bool, xorout: u16) -> u16 {
        let algorithm = Box::leak(Box::new(Algorithm {
            width: 16,
            poly,
            init,
            refin: reflected,
            refout: reflected,
            xorout,
            check: 0,
            residue: 0,
        }));
        let mut digest = Crc::<u16>::new(algorithm).digest();
        digest.update(b"1234");
        digest.update(b"56789");
        digest.finalize()
    }

    #[test]
    fn published_checks() {
        assert_eq!(check(0x5935, 0xFFFF, false, 0), 0x772B); // M17
        assert_eq!(check(0x1021, 0xFFFF, false, 0), 0x29B1); // IBM-3740
        assert_eq!(check(0x1021, 0, false, 0), 0x31C3); // XMODEM
        assert_eq!(check(0x1021, 0xFFFF, true, 0xFFFF), 0x906E); // IBM-SDLC
        assert_eq!(check(0x8005, 0, true, 0), 0xBB3D); // ARC
    }
}
