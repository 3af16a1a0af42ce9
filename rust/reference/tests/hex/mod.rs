//! Bytes as the documents print them.

/// The bytes of hexadecimal numbers with spaces between them.
pub fn bytes(hex: &str) -> Vec<u8> {
    hex.split_whitespace()
        .map(|byte| u8::from_str_radix(byte, 16).unwrap())
        .collect()
}
