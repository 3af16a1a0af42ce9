//! Numbers as bytes.

/// The bit of a byte that says that another group follows.
pub(crate) const FOLLOWED: u8 = 0x80;

/// Appends a number in groups of seven bits, lowest group first, the top bit of a byte set when another group follows. A number
/// that no book or journal may have is written too: the reader refuses it.
pub(crate) fn push_number(bytes: &mut Vec<u8>, number: u64) {
    let mut rest = number;
    while rest >= FOLLOWED.into() {
        bytes.push(rest as u8 | FOLLOWED);
        rest >>= 7;
    }
    bytes.push(rest as u8);
}
