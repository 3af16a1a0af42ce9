//! Numbers of the book and of messages: "written in groups of seven bits, lowest group first, one
//! group a byte; the byte's top bit is set when another group follows".

use crate::book::Counter;

pub(crate) const MOST_GROUPS: usize = 5;

/// Reads the number at `at` and moves `at` behind it; `None` where question 3 says no.
pub(crate) fn read(bytes: &[u8], at: &mut usize) -> Option<Counter> {
    read_within(bytes, at, MOST_GROUPS, Counter::MAX.into()).map(|number| number as Counter)
}

/// The same of a number of up to `groups` groups that is at most `largest`.
#[inline]
pub(crate) fn read_within(bytes: &[u8], at: &mut usize, groups: usize, largest: u64) -> Option<u64> {
    let mut value = 0u64;
    for group in 0..groups {
        let byte = *bytes.get(*at)?;
        *at += 1;
        value |= u64::from(byte & 0x7f) << (7 * group);
        if byte & 0x80 == 0 {
            // "Only the shortest form": a last group of zero could be left out.
            let shortest = byte != 0 || group == 0;
            return Some(value).filter(|&value| shortest && value <= largest);
        }
    }
    None
}

/// How many groups of `value` follow the first when it is written.
pub(crate) fn further_groups(value: Counter) -> u32 {
    u32::from(value >= 1 << 7) + u32::from(value >= 1 << 14) + u32::from(value >= 1 << 21) + u32::from(value >= 1 << 28)
}

/// The number of bytes of `value` when written.
pub(crate) fn size(value: Counter) -> usize {
    1 + further_groups(value) as usize
}

/// Writes `value` at `at` and moves `at` behind it; the caller has seen that it fits.
pub(crate) fn write(mut value: Counter, out: &mut [u8], at: &mut usize) {
    while value > 0x7f {
        out[*at] = (value & 0x7f) as u8 | 0x80;
        *at += 1;
        value >>= 7;
    }
    out[*at] = value as u8;
    *at += 1;
}
