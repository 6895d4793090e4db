// Made by tools/plain_rust.py from crates/slh_lanes/src/lib.rt.
//! F, PRF, H, T and the chains of WOTS+ eight at a time (FIPS 205, sections 5 and 11.2), over SHA-256 and SHA-512 of
//! eight blocks side by side. No call takes memory, refuses, or has state between calls.

pub(crate) mod block;
pub(crate) mod bytes;
pub(crate) mod chains;
pub(crate) mod constants;
pub(crate) mod eight_blocks;
pub(crate) mod hmac_lanes;
pub(crate) mod instructions;
pub(crate) mod joined;
pub(crate) mod lane_adrs;
pub(crate) mod lane_nodes;
pub(crate) mod lane_seeds;
pub(crate) mod lane_stream;
pub(crate) mod lanes;
pub(crate) mod long_block;
pub(crate) mod long_stream;
pub(crate) mod long_words;
pub(crate) mod part;
pub(crate) mod rounds;
pub(crate) mod seeded_lanes;
pub(crate) mod short_lanes;
pub(crate) mod short_stream;
pub(crate) mod single_block;
pub(crate) mod single_long_block;
pub(crate) mod words;

pub use eight_blocks::compress;
pub use hmac_lanes::{HmacLanes, MOST_FRONT_LEN};
pub use lane_adrs::{LaneAdrs, adrs_lanes, set_adrs, set_chains, set_hashes, set_pairs};
pub use lane_nodes::{LaneNodes, even_lanes, lane_node, node_lanes, odd_lanes, pick_nodes, set_lane};
pub use lane_seeds::LaneSeeds;
pub use lane_stream::LaneStream;
pub use seeded_lanes::SeededLanes;
pub use crate::slh_width::{Width, build_widths};
pub use words::{GROUP, Words, consecutive, half, parity};
