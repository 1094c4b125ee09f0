//! The checksum of bytes.

const FACTOR: u64 = 257;

const MODULUS: u64 = 4_294_967_291;

/// The checksum of the bytes so far.
#[derive(Default)]
pub struct Checksum(u64);

impl Checksum {
    pub fn add(&mut self, bytes: &[u8]) {
        for &byte in bytes {
            self.0 = (self.0 * FACTOR + u64::from(byte) + 1) % MODULUS;
        }
    }

    /// Adds the 8 bytes of a number.
    pub fn add_number(&mut self, number: u64) {
        self.add(&number.to_be_bytes());
    }

    pub fn value(&self) -> u64 {
        self.0
    }
}

pub fn checksum(bytes: &[u8]) -> u64 {
    let mut sum = Checksum::default();
    sum.add(bytes);
    sum.value()
}
