// Made by tools/plain_rust.py from crates/slh_few/src/wots_digits.rt.
//! The base-w digits of a message and of its checksum (FIPS 205, section 5).

use crate::slh_few::lanes::{ChainNumbers, MOST_DIGITS};
use crate::slh_few::nodes::bytes_of;
use crate::slh_params::{Node, ParamSet, base_2b, to_byte};

/// The most chains of a key in any set: 128 digits of a message, where n is 32 and lg_w 2, and 5 of its checksum.
pub(crate) const MOST_CHAINS: usize = 128 + 5;

/// No checksum is larger: at most 128 digits of a message, each at most 255 below w - 1.
const MOST_CHECKSUM: u32 = 128 * 255;

/// How far below w - 1 the digits of a message are, in all.
fn checksum(set: ParamSet, digits: &[u32]) -> u32 {
    let last = set.w() - 1;
    let mut sum = 0;
    for digit in digits {
        sum += last - *digit;
    }
    sum
}

/// The digits of a checksum, which are read from whole bytes: len_2 numbers below w.
fn checksum_digits(set: ParamSet, checksum: u32, out: &mut [u32]) {
    let bits = set.len2() as u32 * set.lg_w();
    let shift = (8 - bits % 8) % 8;
    let mut buffer = [0; 2];
    let bytes = &mut buffer[..bits.div_ceil(8) as usize];
    to_byte(u64::from(checksum << shift), bytes);
    base_2b(bytes, set.lg_w(), out);
}

/// The digits of a message of n bytes, then those of their checksum: len numbers below w
/// (Algorithm 7, lines 1 to 7).
pub fn digits(set: ParamSet, msg: &Node, out: &mut [u32]) {
    let (message, rest) = out.split_at_mut(set.len1());
    base_2b(bytes_of(msg), set.lg_w(), message);
    checksum_digits(set, checksum(set, message), rest);
}

/// The digits of a message, with zeros after them.
pub(crate) fn digits_of(set: ParamSet, msg: &Node) -> ChainNumbers {
    let mut out = [0; MOST_DIGITS];
    let count = set.len();
    digits(set, msg, &mut out[..count]);
    out
}
