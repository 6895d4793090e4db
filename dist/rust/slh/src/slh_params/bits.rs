// Made by tools/plain_rust.py from crates/slh_params/src/bits.rt.
//! Bits and bytes as numbers (FIPS 205, section 4.4).

/// toInt (FIPS 205, Algorithm 2): the number that at most 8 bytes write, most significant first.
pub fn to_int(bytes: &[u8]) -> u64 {
    let mut value = 0;
    for byte in bytes {
        value = value * 256 + *byte as u64;
    }
    value
}

/// toByte (Algorithm 3): the low bytes of `x`, most significant first, as many as `out` has. A longer
/// `out` has zeros in front.
pub fn to_byte(x: u64, out: &mut [u8]) {
    let mut rest = x;
    for i in (0..out.len()).rev() {
        out[i] = (rest % 256) as u8;
        rest /= 256;
    }
}

/// base_2^b (Algorithm 4): the first groups of `b` bits of `x` as numbers, as many as `out` has. `b` is
/// from 1 to 16, and `x` has the bits that are asked for.
pub fn base_2b(x: &[u8], b: u32, out: &mut [u32]) {
    let mut at = 0;
    let mut count = 0;
    let mut word: u32 = 0;
    for g in 0..out.len() {
        while count < b {
            word = word * 256 + x[at] as u32;
            at += 1;
            count += 8;
        }
        count -= b;
        out[g] = word >> count;
        word &= (1 << count) - 1;
    }
}
