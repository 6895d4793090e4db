// Made by tools/plain_rust.py from crates/slh_lanes/src/hmac_lanes.rt.
//! HMAC-SHA-256 (FIPS 198-1) of eight texts at once, which differ in a number and a node at their end.

use crate::slh_lanes::block::{BLOCK_LEN, hash_after, splat_all};
use crate::slh_lanes::eight_blocks::compress;
use crate::slh_lanes::lane_nodes::{LaneNodes, lane_node, node_lanes, set_lane};
use crate::slh_lanes::words::{GROUP, Words};
use arrayvec::ArrayVec;
use crate::slh_params::Node;

/// The length of the end of a text: a number of 4 bytes and a node of 16.
const END_LEN: usize = 4 + 16;

/// The length of the shortest padding: the byte that begins it, and the length of the message in bits.
const LEAST_PADDING_LEN: usize = 1 + 8;

/// The end of the zeros of a padding in the second of two blocks, before the 8 bytes of the length. The byte that
/// begins the padding is counted off.
const ZEROS_END: usize = 2 * BLOCK_LEN - 8 - 1;

/// The length of a digest.
const DIGEST_LEN: usize = 32;

/// The front of a text has at most so many bytes.
pub const MOST_FRONT_LEN: usize = 256;

const MOST_MESSAGE_LEN: usize = BLOCK_LEN + MOST_FRONT_LEN;

/// A block, or a part of one.
type Block = ArrayVec<u8, BLOCK_LEN>;

/// The block of a key and the front of a text.
type Message = ArrayVec<u8, MOST_MESSAGE_LEN>;

/// HMAC-SHA-256 under one key, after the front of a text that eight texts share.
///
/// It is made once within a call that hashes often. Contracts see it by the relation `IsBegun`.
pub struct HmacLanes {
    pub(crate) inner: [u32; 8],
    pub(crate) outer: [u32; 8],
    pub(crate) left: Block,
    pub(crate) padding: Block,
}

impl HmacLanes {
    /// The lanes after this front, under a key of at most a block. `None` if the end of a text and the padding do not
    /// fit the block that the front has begun.
    pub fn new(key: &[u8], front: &[u8]) -> Option<HmacLanes> {
        let message = message_of(key, front);
        let len = message.len();
        if BLOCK_LEN < len % BLOCK_LEN + END_LEN + LEAST_PADDING_LEN {
            return None;
        }
        Some(HmacLanes {
            inner: hash_after(message.as_slice()),
            outer: hash_after(padded_key(key, 0x5c).as_slice()),
            left: block_of(&message.as_slice()[len / BLOCK_LEN * BLOCK_LEN..]),
            padding: padding_of(len + END_LEN),
        })
    }

    /// HMAC of the texts that end with the numbers from `first` on, one in each lane, and with these nodes of 16 bytes.
    pub fn digests(&self, first: u32, nodes: &LaneNodes) -> LaneNodes {
        let mut low = node_lanes(&[]);
        let mut high = node_lanes(&[]);
        for j in 0..GROUP {
            let block = self.last_block(first + j as u32, &lane_node(nodes, j, 16));
            let (front, back) = block.as_slice().split_at(32);
            set_lane(&mut low, j, front);
            set_lane(&mut high, j, back);
        }
        let inner = after_block(&self.inner, &low, &high);
        let padding = padding_of(BLOCK_LEN + DIGEST_LEN);
        after_block(&self.outer, &inner, &node_lanes(padding.as_slice()))
    }

    /// The last block of the inner message whose text ends with this number and this node.
    fn last_block(&self, number: u32, node: &Node) -> Block {
        let mut block = Block::new();
        let _ = block.try_extend_from_slice(self.left.as_slice());
        let _ = block.try_extend_from_slice(&number.to_be_bytes());
        let _ = block.try_extend_from_slice(node);
        let _ = block.try_extend_from_slice(self.padding.as_slice());
        block
    }
}

/// The bytes that the inner hash takes before the end of a text.
fn message_of(key: &[u8], front: &[u8]) -> Message {
    let mut message = Message::new();
    let _ = message.try_extend_from_slice(padded_key(key, 0x36).as_slice());
    let _ = message.try_extend_from_slice(front);
    message
}

/// The block of a key with each byte xor the pad.
fn padded_key(key: &[u8], pad: u8) -> Block {
    let mut block = block_of(key);
    append(&mut block, &[0; BLOCK_LEN][..BLOCK_LEN - key.len()]);
    let mut padded = Block::new();
    for byte in block.as_slice() {
        padded.push(*byte ^ pad);
    }
    padded
}

/// The bytes as a part of a block.
fn block_of(bytes: &[u8]) -> Block {
    let mut block = Block::new();
    let _ = block.try_extend_from_slice(bytes);
    block
}

/// Adds the bytes, for which there is room.
fn append(block: &mut Block, bytes: &[u8]) {
    let _ = block.try_extend_from_slice(bytes);
}

/// The padding of a message of `len` bytes (FIPS 180-4, section 5.1.1): a bit 1, zeros, and the length in bits.
fn padding_of(len: usize) -> Block {
    let mut padding = Block::new();
    append(&mut padding, &[0x80]);
    append(&mut padding, &[0; BLOCK_LEN][..(ZEROS_END - len % BLOCK_LEN) % BLOCK_LEN]);
    append(&mut padding, &(len as u64 * 8).to_be_bytes());
    padding
}

/// The hash value after a block in each lane, from one value before it. A block is given by its halves of 32 bytes.
fn after_block(state: &[u32; 8], low: &LaneNodes, high: &LaneNodes) -> LaneNodes {
    let mut after = splat_all(state);
    compress(&mut after, &both_halves(low, high));
    after
}

/// The words of blocks that are given by their halves.
fn both_halves(low: &LaneNodes, high: &LaneNodes) -> [Words; 16] {
    let [a, b, c, d, e, f, g, h] = *low;
    let [i, j, k, l, m, n, o, p] = *high;
    [a, b, c, d, e, f, g, h, i, j, k, l, m, n, o, p]
}
