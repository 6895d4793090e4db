// Made by tools/plain_rust.py from crates/slh_lanes/src/long_block.rt.
//! The block after PK.seed's that H hashes if n is 24 or 32, in eight lanes (FIPS 205, section 11.2.2).

use crate::slh_lanes::lane_adrs::LaneAdrs;
use crate::slh_lanes::lane_nodes::LaneNodes;
use crate::slh_lanes::long_words::{LongWords, high_words, long_word, long_word_of_halves, low_words};
use crate::slh_lanes::short_lanes::{ShortLanes, tell_all};
use crate::slh_lanes::words::{GROUP, Words};

/// The initial hash value of SHA-512 (FIPS 180-4, section 5.3.5) in each lane.
pub(crate) fn initial() -> [LongWords; 8] {
    [
        LongWords::splat(0x6a09_e667_f3bc_c908),
        LongWords::splat(0xbb67_ae85_84ca_a73b),
        LongWords::splat(0x3c6e_f372_fe94_f82b),
        LongWords::splat(0xa54f_f53a_5f1d_36f1),
        LongWords::splat(0x510e_527f_ade6_82d1),
        LongWords::splat(0x9b05_688c_2b3e_6c1f),
        LongWords::splat(0x1f83_d9ab_fb41_bd6b),
        LongWords::splat(0x5be0_cd19_137e_2179),
    ]
}

/// The words in lane 0.
pub(crate) fn first_lane(words: &[LongWords; 8]) -> [u64; 8] {
    let [a, b, c, d, e, f, g, h] = *words;
    [
        a.to_array()[0],
        b.to_array()[0],
        c.to_array()[0],
        d.to_array()[0],
        e.to_array()[0],
        f.to_array()[0],
        g.to_array()[0],
        h.to_array()[0],
    ]
}

/// Eight words, each in all eight lanes.
#[inline(always)]
pub(crate) fn splat_all(words: &[u64; 8]) -> [LongWords; 8] {
    let [a, b, c, d, e, f, g, h] = *words;
    [
        LongWords::splat(a),
        LongWords::splat(b),
        LongWords::splat(c),
        LongWords::splat(d),
        LongWords::splat(e),
        LongWords::splat(f),
        LongWords::splat(g),
        LongWords::splat(h),
    ]
}

/// The words of two nodes of n bytes, the word that begins the padding, and zeros.
#[inline(always)]
fn marked_pair(left: &LaneNodes, right: &LaneNodes, n: usize) -> [Words; 17] {
    let [a, b, c, d, e, f, g, h] = *left;
    let [k, l, m, o, p, q, r, s] = *right;
    let mark = Words::splat(0x8000_0000);
    let zero = Words::splat(0);
    if n == 24 {
        [a, b, c, d, e, f, k, l, m, o, p, q, mark, zero, zero, zero, zero]
    } else {
        [a, b, c, d, e, f, g, h, k, l, m, o, p, q, r, s, mark]
    }
}

/// The bytes before a value in what SHA-512 hashes: the block of PK.seed, and an address.
pub(crate) const LONG_TWEAK_LEN: u32 = 128 + 22;

/// The 22 bytes of the address, the two nodes of n bytes, and the padding.
#[inline(always)]
pub(crate) fn second_block(n: usize, adrs: &LaneAdrs, left: &LaneNodes, right: &LaneNodes) -> [LongWords; 16] {
    tell_all(adrs);
    tell_all(left);
    tell_all(right);
    let m = marked_pair(left, right, n);
    let zero = LongWords::splat(0);
    [
        long_word(adrs[0], adrs[1]),
        long_word(adrs[2], adrs[3]),
        long_word(adrs[4], adrs[5].high().halves(m[0])),
        long_word_of_halves(m[0], m[1], m[2]),
        long_word_of_halves(m[2], m[3], m[4]),
        long_word_of_halves(m[4], m[5], m[6]),
        long_word_of_halves(m[6], m[7], m[8]),
        long_word_of_halves(m[8], m[9], m[10]),
        long_word_of_halves(m[10], m[11], m[12]),
        long_word_of_halves(m[12], m[13], m[14]),
        long_word_of_halves(m[14], m[15], m[16]),
        zero,
        zero,
        zero,
        zero,
        LongWords::splat((LONG_TWEAK_LEN as u64 + 2 * n as u64) * 8),
    ]
}

/// The first 32 bytes of eight digests.
#[inline(always)]
pub(crate) fn truncated(state: &[LongWords; 8]) -> LaneNodes {
    [
        high_words(state[0]),
        low_words(state[0]),
        high_words(state[1]),
        low_words(state[1]),
        high_words(state[2]),
        low_words(state[2]),
        high_words(state[3]),
        low_words(state[3]),
    ]
}
