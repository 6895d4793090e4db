// Made by tools/plain_rust.py from crates/slh_few/src/key_checkpoints.rt.
//! Checkpoints of a key's chains, stored when the key is made, until it signs (FIPS 205, section 5).

use crate::slh_few::context::{HashContext, SigningContext};
use crate::slh_few::lanes::run_with_checkpoints;
use crate::slh_few::nodes::{chunk_at, node_at, put_chunk};
use crate::slh_few::place::Place;
use crate::slh_few::wots::{MOST_WOTS_SIG_LEN, compressed_ends, run_chain, wots_sig_len};
use crate::slh_few::wots_digits::{MOST_CHAINS, digits_of};
use crate::slh_params::{Node, ParamSet, put_node};

/// The most checkpoints of a chain.
const MOST_CHECKPOINTS: u32 = 16;

/// The number of steps between two checkpoints of a chain.
pub(crate) fn spacing(set: ParamSet) -> u32 {
    set.w().div_ceil(MOST_CHECKPOINTS)
}

/// The number of checkpoints of a chain.
pub(crate) fn checkpoint_count(set: ParamSet) -> u32 {
    set.w() / spacing(set)
}

/// At least the length of the checkpoints of one chain in any set: 16 of 32 bytes.
const MOST_CHAIN_CHECKPOINTS_LEN: usize = 16 * 32;

/// At least the length of the checkpoints of all chains of a key in any set.
const MOST_KEY_CHECKPOINTS_LEN: usize = MOST_CHAINS * MOST_CHAIN_CHECKPOINTS_LEN;

/// The length of the checkpoints of one chain.
fn chain_checkpoints_len(set: ParamSet) -> usize {
    checkpoint_count(set) as usize * set.n()
}

/// The length of the checkpoints of all chains of a key.
pub fn key_checkpoints_len(set: ParamSet) -> usize {
    set.len() * chain_checkpoints_len(set)
}

/// Writes checkpoint `j` of chain `c`.
pub(crate) fn put_checkpoint(set: ParamSet, checkpoints: &mut [u8], c: usize, j: usize, value: &Node) {
    let size = chain_checkpoints_len(set);
    let start = c * size;
    put_chunk(&mut checkpoints[start..start + size], set.n(), j, value);
}

impl<'a> SigningContext<'a> {
    /// The public key at a place, n bytes (Algorithm 6). Into `checkpoints` it writes checkpoints of the key's chains,
    /// `key_checkpoints_len` bytes, from which `wots_sign_from_checkpoints` signs.
    pub(crate) fn wots_pk_with_checkpoints(&self, at: Place, checkpoints: &mut [u8]) -> Node {
        let mut buffer = [0; MOST_WOTS_SIG_LEN];
        let ends = &mut buffer[..wots_sig_len(self.public.set)];
        run_with_checkpoints(self.lanes(), self.sk_seed, at, checkpoints, ends);
        compressed_ends(&self.public, at, ends)
    }
}

/// The value of chain `c` of a key after `steps` steps from its secret, run on from the last checkpoint before it.
fn value_from_checkpoint(context: &HashContext, at: Place, c: u32, checkpoints: &[u8], steps: u32) -> Node {
    let set = context.set;
    let every = spacing(set);
    let j = steps / every;
    let node = node_at(checkpoints, set.n(), j as usize);
    run_chain(context, at, c, node, j * every, steps % every)
}

impl<'a> HashContext<'a> {
    /// Writes the signature of a message of n bytes, len * n bytes (Algorithm 7), from the checkpoints of the key's
    /// chains. If `checkpoints` has other bytes of that length, `value` states the output. If w is at most 16, no chain
    /// is computed.
    pub fn wots_sign_from_checkpoints(&self, at: Place, msg: &Node, checkpoints: &[u8], out: &mut [u8]) {
        let set = self.set;
        let digits = digits_of(set, msg);
        let n = set.n();
        let size = chain_checkpoints_len(set);
        for c in 0..set.len() {
            let values = chunk_at(checkpoints, size, c);
            let node = value_from_checkpoint(self, at, c as u32, values, digits[c]);
            put_node(out, c * n, &node);
        }
    }
}
