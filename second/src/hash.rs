//! The checksum of the answer lines.

const MODULUS: u64 = 4_294_967_291;

#[derive(Default)]
pub struct Hash(u64);

impl Hash {
    pub fn feed(&mut self, bytes: &[u8]) {
        for byte in bytes {
            self.0 = (self.0 * 257 + u64::from(*byte) + 1) % MODULUS;
        }
    }

    pub fn feed_number(&mut self, number: u64) {
        self.feed(&number.to_be_bytes());
    }

    pub fn value(&self) -> u64 {
        self.0
    }
}

pub fn hash(bytes: &[u8]) -> u64 {
    let mut hash = Hash::default();
    hash.feed(bytes);
    hash.value()
}
