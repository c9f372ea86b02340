//! A digest of 64 bits: FNV-1a.

/// The digest of the bytes added so far.
#[derive(Clone, Copy, Debug)]
pub struct Digest(u64);

impl Default for Digest {
    fn default() -> Self {
        Digest(0xcbf2_9ce4_8422_2325)
    }
}

impl Digest {
    /// The digest of some bytes.
    pub fn of(bytes: &[u8]) -> Digest {
        let mut digest = Digest::default();
        digest.add(bytes);
        digest
    }

    pub fn add(&mut self, bytes: &[u8]) {
        for &byte in bytes {
            self.0 = (self.0 ^ u64::from(byte)).wrapping_mul(0x100_0000_01b3);
        }
    }

    /// Adds numbers of 32 bits, little-endian.
    pub fn add_numbers(&mut self, numbers: &[i32]) {
        for number in numbers {
            self.add(&number.to_le_bytes());
        }
    }
}

/// Sixteen hexadecimal digits in lower case.
impl std::fmt::Display for Digest {
    fn fmt(&self, to: &mut std::fmt::Formatter) -> std::fmt::Result {
        write!(to, "{:016x}", self.0)
    }
}
