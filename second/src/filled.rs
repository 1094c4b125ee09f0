//! Bytes given as a prefix and a fill, the form of all messages and runs of
//! a case.

/// The prefix, cut or filled up to the whole length.
pub fn filled(prefix: &[u8], whole: usize, fill: u8) -> Vec<u8> {
    let mut bytes = prefix.to_vec();
    bytes.resize(whole, fill);
    bytes
}
