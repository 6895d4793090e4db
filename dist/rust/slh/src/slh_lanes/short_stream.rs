// Made by tools/plain_rust.py from crates/slh_lanes/src/short_stream.rt.
//! SHA-256 of eight messages that come word after word, one in each lane (FIPS 180-4, section 6.2).

use crate::slh_lanes::block::TWEAK_LEN;
use crate::slh_lanes::eight_blocks::compress;
use crate::slh_lanes::lane_adrs::LaneAdrs;
use crate::slh_lanes::lane_nodes::LaneNodes;
use crate::slh_lanes::short_lanes::{ShortLanes, tell_all};
use crate::slh_lanes::words::{GROUP, Vector, Words};

/// SHA-256 of eight messages of the same length, as far as they have come.
///
/// Each ends in the middle of a word: after the block of PK.seed come the 22 bytes of an address and then whole words.
#[derive(Clone, Copy)]
pub(crate) struct ShortStream {
    pub(crate) state: [Vector; 8],
    /// Two bytes that come before the last block, and its bytes so far.
    pub(crate) words: [Vector; 17],
    /// The length of each message in bytes, modulo 2^32.
    pub(crate) len: u32,
}

/// The vectors without their structs.
#[inline(always)]
pub(crate) fn bare(state: &[Vector; 8]) -> [Words; 8] {
    let [a, b, c, d, e, f, g, h] = *state;
    [a.words, b.words, c.words, d.words, e.words, f.words, g.words, h.words]
}

/// The vectors in structs.
#[inline(always)]
pub(crate) fn wrapped(state: &[Words; 8]) -> [Vector; 8] {
    let [a, b, c, d, e, f, g, h] = *state;
    [
        Vector { words: a },
        Vector { words: b },
        Vector { words: c },
        Vector { words: d },
        Vector { words: e },
        Vector { words: f },
        Vector { words: g },
        Vector { words: h },
    ]
}

/// The block whose words begin in the middle of these.
#[inline(always)]
fn shifted(words: &[Vector; 17]) -> [Words; 16] {
    let mut block = [Words::splat(0); 16];
    for k in 0..16 {
        words[k].words.tell_short();
        words[k + 1].words.tell_short();
        block[k] = words[k].words.halves(words[k + 1].words);
    }
    block
}

/// The words of the address, each begun by the second half of the word before it.
pub(crate) fn address_words(adrs: &LaneAdrs) -> [Vector; 17] {
    tell_all(adrs);
    let mut words = [Vector { words: Words::splat(0) }; 17];
    words[0] = Vector { words: adrs[0].high() };
    words[1] = Vector { words: adrs[0].halves(adrs[1]) };
    words[2] = Vector { words: adrs[1].halves(adrs[2]) };
    words[3] = Vector { words: adrs[2].halves(adrs[3]) };
    words[4] = Vector { words: adrs[3].halves(adrs[4]) };
    words[5] = Vector { words: adrs[4].halves(adrs[5]) };
    words
}

/// The end of the zeros of the padding in the second of two blocks, before the 8 bytes of the length. The byte that
/// begins the padding is counted off.
const ZEROS_END: u32 = 2 * 64 - 8 - 1;

impl ShortStream {
    /// The messages of one block and an address, from the hash value after the block.
    pub(crate) fn new(state: &[Words; 8], adrs: &LaneAdrs) -> Self {
        ShortStream { state: wrapped(state), words: address_words(adrs), len: TWEAK_LEN }
    }

    /// Adds to each message the word in its lane.
    fn push(&mut self, word: Words) {
        let used = (self.len % 64 + 2) / 4;
        self.words[used as usize] = Vector { words: word };
        self.len = self.len.wrapping_add(4);
        if used == 16 {
            self.take_block();
            self.words[0] = Vector { words: word };
        }
    }

    /// Takes the block into the hash value.
    fn take_block(&mut self) {
        let mut state = bare(&self.state);
        compress(&mut state, &shifted(&self.words));
        self.state = wrapped(&state);
    }

    /// Adds to each message the first words in its lane, as many as `count`.
    pub(crate) fn absorb(&mut self, nodes: &LaneNodes, count: usize) {
        for k in 0..count {
            self.push(nodes[k]);
        }
    }

    /// The digest of each message (FIPS 180-4, section 5.1.1: a bit 1, zeros, and the length in bits).
    pub(crate) fn finish(mut self) -> [Words; 8] {
        let bits = Words::splat(self.len.wrapping_mul(8));
        let zeros = (ZEROS_END - self.len % 64) % 64;
        self.push(Words::splat(0x8000_0000));
        for _ in 0..zeros / 4 {
            self.push(Words::splat(0));
        }
        self.push(bits.high());
        self.push(bits.low());
        bare(&self.state)
    }
}
