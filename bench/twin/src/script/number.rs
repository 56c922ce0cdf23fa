//! Numbers of a script: one to ten digits, and no more than 32 bits hold.

const DIGITS: usize = 10;

/// What stands where a number should be.
pub enum Found {
    /// The number and how many digits it has.
    Number(u32, usize),
    NoDigit,
    OverLimit,
}

/// Reads the number that starts the bytes; it ends at the first byte that is no digit.
#[inline]
pub fn read(bytes: &[u8]) -> Found {
    let mut value = 0u64;
    let mut digits = 0;
    for &byte in bytes {
        let digit = byte.wrapping_sub(b'0');
        if digit > 9 {
            break;
        }
        if digits == DIGITS {
            return Found::OverLimit;
        }
        value = value * 10 + u64::from(digit);
        digits += 1;
    }
    if digits == 0 {
        return Found::NoDigit;
    }
    u32::try_from(value).map_or(Found::OverLimit, |value| Found::Number(value, digits))
}
