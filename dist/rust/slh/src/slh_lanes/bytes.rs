// Made by tools/plain_rust.py from crates/slh_lanes/src/bytes.rt.
//! Bytes to words of lanes and back, high byte first (FIPS 180-4, section 3.1).

use crate::slh_lanes::long_words::LongWords;
use crate::slh_lanes::words::{GROUP, Words};

/// The word at byte `i`.
#[inline(always)]
pub(crate) fn load_be(bytes: &[u8], i: usize) -> u32 {
    u32::from_be_bytes([bytes[i], bytes[i + 1], bytes[i + 2], bytes[i + 3]])
}

/// The words of the bytes, each in all eight lanes.
#[inline(always)]
pub(crate) fn load_all(words: &mut [Words], bytes: &[u8]) {
    for k in 0..words.len() {
        words[k] = Words::splat(load_be(bytes, 4 * k));
    }
}

/// The word of 64 bits at byte `i`.
#[inline(always)]
pub(crate) fn load_be_long(bytes: &[u8], i: usize) -> u64 {
    u64::from_be_bytes([
        bytes[i],
        bytes[i + 1],
        bytes[i + 2],
        bytes[i + 3],
        bytes[i + 4],
        bytes[i + 5],
        bytes[i + 6],
        bytes[i + 7],
    ])
}

/// The words of 64 bits of the bytes, each in all eight lanes.
#[inline(always)]
pub(crate) fn load_all_long(words: &mut [LongWords], bytes: &[u8]) {
    for k in 0..words.len() {
        words[k] = LongWords::splat(load_be_long(bytes, 8 * k));
    }
}

/// Writes the bytes of lane `j`.
#[inline(always)]
pub(crate) fn store_lane(words: &[Words], j: usize, out: &mut [u8]) {
    for k in 0..words.len() {
        let lanes = words[k].to_array();
        out[4 * k..4 * k + 4].copy_from_slice(&lanes[j].to_be_bytes());
    }
}
