// Made by tools/plain_rust.py from crates/slh_lanes/src/block.rt.
//! The block after PK.seed's that F and PRF hash, and H if n is 16, in each lane (FIPS 205, section 11.2), and the hash
//! value before it.

use crate::slh_lanes::bytes::load_all;
use crate::slh_lanes::eight_blocks::compress;
use crate::slh_lanes::short_lanes::{ShortLanes, tell_all};
use crate::slh_lanes::words::{GROUP, Words};

/// The length of a block of SHA-256 in bytes.
pub(crate) const BLOCK_LEN: usize = 64;

/// The initial hash value (FIPS 180-4, section 5.3.3) in each lane.
fn initial() -> [Words; 8] {
    [
        Words::splat(0x6a09_e667),
        Words::splat(0xbb67_ae85),
        Words::splat(0x3c6e_f372),
        Words::splat(0xa54f_f53a),
        Words::splat(0x510e_527f),
        Words::splat(0x9b05_688c),
        Words::splat(0x1f83_d9ab),
        Words::splat(0x5be0_cd19),
    ]
}

/// The words in lane 0.
fn first_lane(words: &[Words; 8]) -> [u32; 8] {
    let [a, b, c, d, e, f, g, h] = *words;
    [
        a.to_array()[0],
        b.to_array()[0],
        c.to_array()[0],
        d.to_array()[0],
        e.to_array()[0],
        f.to_array()[0],
        g.to_array()[0],
        h.to_array()[0],
    ]
}

/// The hash value after the whole blocks of the bytes (FIPS 180-4, section 6.2.2).
pub(crate) fn hash_after(bytes: &[u8]) -> [u32; 8] {
    let mut state = initial();
    for b in 0..bytes.len() / BLOCK_LEN {
        let mut block = [Words::splat(0); 16];
        load_all(&mut block, &bytes[BLOCK_LEN * b..BLOCK_LEN * b + BLOCK_LEN]);
        compress(&mut state, &block);
    }
    first_lane(&state)
}

/// Eight words, each in all lanes.
#[inline(always)]
pub(crate) fn splat_all<W: ShortLanes>(words: &[u32; 8]) -> [W; 8] {
    let [a, b, c, d, e, f, g, h] = *words;
    [W::splat(a), W::splat(b), W::splat(c), W::splat(d), W::splat(e), W::splat(f), W::splat(g), W::splat(h)]
}

/// The bytes before a value in what is hashed (FIPS 205, section 11.2): the block of PK.seed, and an address.
pub(crate) const TWEAK_LEN: u32 = 64 + 22;

/// The words of a value of n bytes, the word that begins the padding, and zeros.
#[inline(always)]
fn marked<W: ShortLanes>(x: &[W; 8], n: usize) -> [W; 9] {
    let [a, b, c, d, e, f, g, h] = *x;
    let mark = W::splat(0x8000_0000);
    let zero = W::splat(0);
    if n == 16 {
        [a, b, c, d, mark, zero, zero, zero, zero]
    } else if n == 24 {
        [a, b, c, d, e, f, mark, zero, zero]
    } else {
        [a, b, c, d, e, f, g, h, mark]
    }
}

/// The 22 bytes of the address, the n bytes of the value, and the padding.
#[inline(always)]
pub(crate) fn second_block<W: ShortLanes>(n: usize, adrs: &[W; 6], x: &[W; 8]) -> [W; 16] {
    tell_all(adrs);
    tell_all(x);
    let m = marked(x, n);
    [
        adrs[0],
        adrs[1],
        adrs[2],
        adrs[3],
        adrs[4],
        adrs[5].high().halves(m[0]),
        m[0].halves(m[1]),
        m[1].halves(m[2]),
        m[2].halves(m[3]),
        m[3].halves(m[4]),
        m[4].halves(m[5]),
        m[5].halves(m[6]),
        m[6].halves(m[7]),
        m[7].halves(m[8]),
        W::splat(0),
        W::splat((TWEAK_LEN + n as u32) * 8),
    ]
}
