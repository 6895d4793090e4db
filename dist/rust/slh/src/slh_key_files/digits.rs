// Made by tools/plain_rust.py from crates/slh_key_files/src/digits.rt.
//! Hexadecimal digits, and the bytes that they spell. The digits may be a secret key's. So they are read and written by
//! sums and comparisons, and no `match` and no table takes one.

/// Whether each byte is a hexadecimal digit, of either case.
pub fn are_hex_digits(digits: &[u8]) -> bool {
    digits.iter().all(|byte| is_hex_digit(*byte))
}

/// Whether a byte is a hexadecimal digit, of either case. At most one of the three holds, so `^` gives what `|` would.
/// Of `|` the compiler makes branches, which tell a number from a letter.
pub fn is_hex_digit(byte: u8) -> bool {
    let is_number = (b'0' <= byte) & (byte <= b'9');
    let is_upper = (b'A' <= byte) & (byte <= b'F');
    let is_lower = (b'a' <= byte) & (byte <= b'f');
    is_number ^ is_upper ^ is_lower
}

/// The value of a hexadecimal digit.
fn value_of(digit: u8) -> u8 {
    digit - b'0' - 7 * u8::from(digit >= b'A') - 32 * u8::from(digit >= b'a')
}

/// Writes the bytes that the digits spell, which fill `bytes`.
pub fn decode_digits(digits: &[u8], bytes: &mut [u8]) {
    for i in 0..bytes.len() {
        bytes[i] = value_of(digits[2 * i]) * 16 + value_of(digits[2 * i + 1]);
    }
}

/// The lower-case digit of a value.
fn digit_of(value: u8) -> u8 {
    b'0' + value + 39 * u8::from(value >= 10)
}

/// Writes the digits of the bytes, two each, in lower case.
pub fn encode_digits(bytes: &[u8], digits: &mut [u8]) {
    for i in 0..bytes.len() {
        digits[2 * i] = digit_of(bytes[i] >> 4);
        digits[2 * i + 1] = digit_of(bytes[i] & 15);
    }
}
