// Made by tools/plain_rust.py from crates/slh_lanes/src/lane_adrs.rt.
//! The addresses of eight hash calls (FIPS 205, sections 4.2 and 11.2).

use crate::slh_lanes::bytes::load_all;
use crate::slh_lanes::short_lanes::{ShortLanes, tell_all};
use crate::slh_lanes::words::{GROUP, Words, put_words};
use crate::slh_params::Adrs;

/// The addresses of eight hash calls, one in each lane: the 22 bytes of the compressed form as six words, of which the
/// last two bytes are not read.
pub type LaneAdrs = [Words; 6];

/// One address in all eight lanes.
pub fn adrs_lanes(adrs: &Adrs) -> LaneAdrs {
    let mut bytes = [0; 24];
    bytes[..22].copy_from_slice(adrs.compressed());
    let mut lanes = [Words::splat(0); 6];
    load_all(&mut lanes, &bytes);
    lanes
}

/// The words in lane 0.
fn first_lane(adrs: &LaneAdrs) -> [u32; 6] {
    let [a, b, c, d, e, f] = *adrs;
    [a.to_array()[0], b.to_array()[0], c.to_array()[0], d.to_array()[0], e.to_array()[0], f.to_array()[0]]
}

/// Puts an address into lane `j`.
pub fn set_adrs(lanes: &mut LaneAdrs, j: usize, adrs: &Adrs) {
    put_words(lanes, j, &first_lane(&adrs_lanes(adrs)));
}

/// setKeyPairAddress in each lane: the leaf of a tree.
pub fn set_pairs(adrs: &mut LaneAdrs, pairs: Words) {
    tell_all(adrs);
    adrs[2] = adrs[2].high().halves(pairs);
    adrs[3] = pairs.halves(adrs[3].low());
}

/// setChainAddress in each lane: the chain of a WOTS+ key, or the height of a node.
pub fn set_chains(adrs: &mut LaneAdrs, chains: Words) {
    tell_all(adrs);
    adrs[3] = adrs[3].high().halves(chains);
    adrs[4] = chains.halves(adrs[4].low());
}

/// setHashAddress in each lane: the step of a chain, or the index of a node.
#[inline(always)]
pub fn set_hashes(adrs: &mut LaneAdrs, hashes: Words) {
    tell_all(adrs);
    adrs[4] = adrs[4].high().halves(hashes);
    adrs[5] = hashes.low();
}
