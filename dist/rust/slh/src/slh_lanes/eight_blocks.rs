// Made by tools/plain_rust.py from crates/slh_lanes/src/eight_blocks.rt.
//! Eight blocks of SHA-256 or SHA-512 at once (FIPS 180-4, sections 6.2.2 and 6.4.2), in vectors of as many lanes as the
//! build has.

use crate::slh_lanes::instructions::{LongWord, Word};
use crate::slh_lanes::lanes::Lanes;
use crate::slh_lanes::long_words::LongWords;
use crate::slh_lanes::part::{Part, part_of_eight, part_of_sixteen, with_eight};
use crate::slh_lanes::rounds::{self, Compression, Rounds};
use crate::slh_lanes::short_lanes::tell_all;
use crate::slh_lanes::single_block::Instructions;
use crate::slh_lanes::words::{GROUP, Words};
use crate::slh_width::{Width, build_widths};
use crate::vectors::*;

/// Eight compressions of SHA-256 at once: column `j` of the state takes in the block whose words are column `j` of
/// `block`.
pub fn compress(state: &mut [Words; 8], block: &[Words; 16]) {
    tell_all(block);
    compress_eight(state, block);
}

/// The same for blocks of any words.
fn compress_eight(state: &mut [Words; 8], block: &[Words; 16]) {
    match build_widths().short {
        Width::One => compress_singles::<Rounds>(state, block),
        Width::Instructions => compress_singles::<Instructions>(state, block),
        Width::Four => {
            compress_part::<Words, u32x4, Rounds>(state, block, 0);
            compress_part::<Words, u32x4, Rounds>(state, block, 4);
        }
        Width::Eight | Width::Sixteen => crate::levels::compress(state, block),
    }
}

/// Eight compressions of SHA-256, one after another.
fn compress_singles<C: Compression<Word>>(state: &mut [Words; 8], block: &[Words; 16]) {
    for lane in 0..GROUP {
        compress_part::<Words, Word, C>(state, block, lane);
    }
}

/// Eight compressions of SHA-512 at once: column `j` of the state takes in the block whose words are column `j` of
/// `block`.
pub(crate) fn compress_long(state: &mut [LongWords; 8], block: &[LongWords; 16]) {
    match build_widths().long {
        Width::One => compress_long_singles::<Rounds>(state, block),
        Width::Instructions => compress_long_singles::<Instructions>(state, block),
        Width::Four => {
            crate::levels::compress_four(state, block, 0);
            crate::levels::compress_four(state, block, 4);
        }
        Width::Eight | Width::Sixteen => crate::levels::compress(state, block),
    }
}

/// Eight compressions of SHA-512, one after another.
fn compress_long_singles<C: Compression<LongWord>>(state: &mut [LongWords; 8], block: &[LongWords; 16]) {
    for lane in 0..GROUP {
        compress_part::<LongWords, LongWord, C>(state, block, lane);
    }
}

/// The compressions in the lanes from `first` on.
#[inline(always)]
pub(crate) fn compress_part<G: Lanes, W: Part<G>, C: Compression<W>>(
    state: &mut [G; 8],
    block: &[G; 16],
    first: usize,
) {
    let mut part = part_of_eight::<G, W>(state, first);
    C::compress(&mut part, &part_of_sixteen::<G, W>(block, first));
    *state = with_eight(state, &part, first);
}
