// Made by tools/plain_rust.py from crates/slh_lanes/src/long_stream.rt.
//! SHA-512 of eight messages that come word after word, one in each lane (FIPS 180-4, section 6.4).

use crate::slh_lanes::eight_blocks::compress_long;
use crate::slh_lanes::lane_adrs::LaneAdrs;
use crate::slh_lanes::lane_nodes::LaneNodes;
use crate::slh_lanes::long_block::LONG_TWEAK_LEN;
use crate::slh_lanes::long_words::{LongVector, LongWords, long_word_of_halves};
use crate::slh_lanes::short_lanes::ShortLanes;
use crate::slh_lanes::short_stream::address_words;
use crate::slh_lanes::words::{GROUP, Vector, Words};

/// SHA-512 of eight messages of the same length, as far as they have come.
///
/// Each ends in the middle of a word: after the block of PK.seed come the 22 bytes of an address and then whole words.
#[derive(Clone, Copy)]
pub(crate) struct LongStream {
    pub(crate) state: [LongVector; 8],
    /// Two bytes that come before the last block, and its bytes so far.
    pub(crate) words: [Vector; 33],
    /// The length of each message in bytes, modulo 2^32.
    pub(crate) len: u32,
}

/// The vectors without their structs.
#[inline(always)]
pub(crate) fn bare(state: &[LongVector; 8]) -> [LongWords; 8] {
    let [a, b, c, d, e, f, g, h] = *state;
    [a.words, b.words, c.words, d.words, e.words, f.words, g.words, h.words]
}

/// The vectors in structs.
#[inline(always)]
pub(crate) fn wrapped(state: &[LongWords; 8]) -> [LongVector; 8] {
    let [a, b, c, d, e, f, g, h] = *state;
    [
        LongVector { words: a },
        LongVector { words: b },
        LongVector { words: c },
        LongVector { words: d },
        LongVector { words: e },
        LongVector { words: f },
        LongVector { words: g },
        LongVector { words: h },
    ]
}

/// The block whose words begin in the middle of these.
#[inline(always)]
fn shifted(words: &[Vector; 33]) -> [LongWords; 16] {
    let mut block = [LongWords::splat(0); 16];
    for k in 0..16 {
        let first = words[2 * k].words;
        let second = words[2 * k + 1].words;
        let third = words[2 * k + 2].words;
        first.tell_short();
        second.tell_short();
        third.tell_short();
        block[k] = long_word_of_halves(first, second, third);
    }
    block
}

/// The words of the address, each begun by the second half of the word before it.
fn long_address_words(adrs: &LaneAdrs) -> [Vector; 33] {
    let mut words = [Vector { words: Words::splat(0) }; 33];
    words[..17].copy_from_slice(&address_words(adrs));
    words
}

/// The end of the zeros of the padding in the second of two blocks, before the 16 bytes of the length. The byte that
/// begins the padding is counted off.
const ZEROS_END: u32 = 2 * 128 - 16 - 1;

impl LongStream {
    /// The messages of one block and an address, from the hash value after the block.
    pub(crate) fn new(state: &[LongWords; 8], adrs: &LaneAdrs) -> Self {
        LongStream { state: wrapped(state), words: long_address_words(adrs), len: LONG_TWEAK_LEN }
    }

    /// Adds to each message the word in its lane.
    fn push(&mut self, word: Words) {
        let used = (self.len % 128 + 2) / 4;
        self.words[used as usize] = Vector { words: word };
        self.len = self.len.wrapping_add(4);
        if used == 32 {
            self.take_block();
            self.words[0] = Vector { words: word };
        }
    }

    /// Takes the block into the hash value.
    fn take_block(&mut self) {
        let mut state = bare(&self.state);
        compress_long(&mut state, &shifted(&self.words));
        self.state = wrapped(&state);
    }

    /// Adds to each message the first words in its lane, as many as `count`.
    pub(crate) fn absorb(&mut self, nodes: &LaneNodes, count: usize) {
        for k in 0..count {
            self.push(nodes[k]);
        }
    }

    /// The digest of each message (FIPS 180-4, section 5.1.2: a bit 1, zeros, and the length in bits).
    pub(crate) fn finish(mut self) -> [LongWords; 8] {
        let bits = Words::splat(self.len.wrapping_mul(8));
        // The length has 16 bytes, of which the first twelve are zeros.
        let zeros = (ZEROS_END - self.len % 128) % 128;
        self.push(Words::splat(0x8000_0000));
        for _ in 0..zeros / 4 + 2 {
            self.push(Words::splat(0));
        }
        self.push(bits.high());
        self.push(bits.low());
        bare(&self.state)
    }
}
